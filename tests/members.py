"""Shows the members of policies with `show --members`, which are made here.

A case has a tree and the lines that are wanted: the place of each member, its list with its number there, and its text.
"""

from program import Wanted
from stand import Folder, Stand

PART = "members"

MAIN = (
    "User_Alias OPS = bob, carol : DEV = dave\n"
    "Host_Alias WEB = www1, \\\n    www2 # two\n"
    "OPS, !bob ALL, !db = (root) NOPASSWD: /bin/a x, \\\n /bin/b y\\\n z : WEB = ALL\n"
    "Defaults:bob !lecture\n"
    "@includedir d\n"
)
WEB = "Cmnd_Alias RUN = sha224:" + "0" * 56 + " /bin/r, sudoedit /etc/x\nRunas_Alias AS = #7\n"
SHOWN = (
    ("main:1:18", "User_Alias OPS 1", "bob"),
    ("main:1:23", "User_Alias OPS 2", "carol"),
    ("main:1:37", "User_Alias DEV 1", "dave"),
    ("main:2:18", "Host_Alias WEB 1", "www1"),
    ("main:3:5", "Host_Alias WEB 2", "www2"),
    ("main:4:1", "rule users 1", "OPS"),
    ("main:4:6", "rule users 2", "!bob"),
    ("main:4:11", "rule hosts 1.1", "ALL"),
    ("main:4:16", "rule hosts 1.2", "!db"),
    ("main:4:39", "rule commands 1.1", "/bin/a x"),
    ("main:5:2", "rule commands 1.2", "/bin/b y  z"),
    ("main:6:6", "rule hosts 2.1", "WEB"),
    ("main:6:12", "rule commands 2.1", "ALL"),
    ("d/web:1:18", "Cmnd_Alias RUN 1", "sha224:" + "0" * 56 + " /bin/r"),
    ("d/web:1:90", "Cmnd_Alias RUN 2", "sudoedit /etc/x"),
    ("d/web:2:18", "Runas_Alias AS 1", "#7"),
)


def run_all(program, tally):
    """Runs all of it."""
    stand = Stand(PART, program, tally)
    with Folder({"main": MAIN, "d/web": WEB}) as folder:
        lines = "".join("\t".join(parts) + "\n" for parts in SHOWN)
        came = stand.run("show --members main", folder)
        tally.note(f"{PART}: a policy of two files", Wanted(lines.encode()).problems(came))
        came = stand.run("show --members --json main", folder)
        tally.note(f"{PART}: with --json", Wanted(status=2, stderr=came.stderr).problems(came))
        came = stand.run("show --members none", folder)
        tally.note(f"{PART}: no policy", Wanted(stderr=b"sudoers_tool: NoRoot\n", status=1).problems(came))
