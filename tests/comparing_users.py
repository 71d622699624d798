"""Compares what two policies grant users of a machine, with `diff --passwd`.

A row of a table has two policies with marks of places, as comparing.py has them, and the lines that are expected of each user. Then random
policies are compared for each user. A user without a line has the same answers of `why` in both. Each printed example has another answer in
the other policy, and where sudo is installed, `sudo -l` says so too. Each case is run again with `--json` (json_lines.py).
"""

import os
import random
import re
import shutil
import subprocess

from comparing import HEADING, Change, filled_in, random_policy, without_marks
from json_lines import SpellingStand
from program import SECONDS, Wanted, fault
from stand import Folder
from tally import difference

PART = "comparing_users"
SEED = 20_261_230
PASSWD = "".join(f"{name}:x:{number}:{number}::/:/bin/sh\n" for name, number in (("root", 0), ("ann", 1001), ("bob", 1002), ("eve", 1003), ("dan", 1004), ("oper", 1005)))
GROUP = "root:x:0:\nadm:x:900:eve\nops:x:901:ann,bob\noper:x:1005:\n"
PEOPLE = {"passwd": PASSWD, "group": GROUP}
NOW = "20300101000000Z"
MACHINE = f"--passwd passwd --group-file group --host h1 --moment {NOW}"
OTHERS = "Changed rules that may be of other users or hosts:\n"
NONE = "no example found"

ROWS = (
    Change("the same", "ann ALL=/bin/a\n", "# a comment\nann  ALL = /bin/a\n"),
    Change("a command more", "ann ALL=/bin/a\n", "ann ALL=/bin/a, <1>/bin/b\n", "+ ann /bin/b  e.g. /bin/b  {1}\n"),
    Change("a command less", "ann ALL=/bin/a, <1>/bin/b\n", "ann ALL=/bin/a\n", "- ann /bin/b  e.g. /bin/b  {1}\n"),
    Change("a group", "ann ALL=/bin/a\n", "ann ALL=/bin/a\n%ops ALL=(root) <1>/bin/b\n", "+ ann (root) /bin/b  e.g. /bin/b  {1}\n+ bob (root) /bin/b  e.g. /bin/b  {1}\n"),
    Change("another tag", "ann ALL=<1>/bin/a\n", "ann ALL=NOPASSWD: <2>/bin/a\n", "- ann /bin/a  e.g. /bin/a  {1}\n+ ann NOPASSWD: /bin/a  e.g. /bin/a  {2}\n"),
    Change("a target", "ann ALL=(oper) <1>/bin/a\n", "ann ALL=(bob) <2>/bin/a\n", "- ann (oper) /bin/a  e.g. -u oper /bin/a  {1}\n+ ann (bob) /bin/a  e.g. -u bob /bin/a  {2}\n"),
    Change("a target by number", "ann ALL=/bin/b\n", "ann ALL=/bin/b, (#1005) <1>/bin/a\n", "+ ann (#1005) /bin/a  e.g. -u oper /bin/a  {1}\n"),
    Change("a target group", "ann ALL=/bin/b\n", "ann ALL=/bin/b, (: adm) <1>/bin/a\n", "+ ann (: adm) /bin/a  e.g. -u ann /bin/a  {1}\n"),
    Change("arguments", "ann ALL=/bin/a\n", "ann ALL=<1>/bin/a x*y ?\n", "- ann /bin/a  e.g. /bin/a  old:1:9\n+ ann /bin/a x*y ?  no example found  {1}\n"),
    Change("wildcards", "", "ann ALL=<1>/bin/*.[ab] -[!c]\n", "+ ann /bin/*.[ab] -[!c]  e.g. /bin/x.a -x  {1}\n"),
    Change("a folder", "", "ann ALL=<1>/bin/\n", "+ ann /bin/  e.g. /bin/x  {1}\n"),
    Change("all", "", "ann ALL=<1>ALL\n", "+ ann ALL  e.g. /usr/bin/id  {1}\n"),
    Change("list and sudoedit", "", "ann ALL=<1>list, <2>sudoedit /etc/a\n", "+ ann list  e.g. list  {1}\n+ ann sudoedit /etc/a  e.g. sudoedit /etc/a  {2}\n"),
    Change("a denial", "ann ALL=ALL\n", "ann ALL=ALL, !<1>/bin/a\n", "+ ann !/bin/a  e.g. /bin/a  new:1:14\n"),
    Change("a denial that denies nothing", "ann ALL=/bin/b\n", "ann ALL=/bin/b, <1>!/bin/a\n", "+ ann !/bin/a  e.g. /bin/a  {1}\n"),
    Change("a rule that never decides", "ann ALL=ALL\n", "ann ALL=NOPASSWD: /bin/a\nann ALL=ALL\n"),
    Change("a rule of a group that decides no more", "ann ALL=NOPASSWD: <1>/bin/a\n", "ann ALL=NOPASSWD: /bin/a\n%ops ALL=<2>ALL\n", "- ann NOPASSWD: /bin/a  e.g. /bin/a  {1}\n+ ann ALL  e.g. /usr/bin/id  {2}\n+ bob ALL  e.g. /usr/bin/id  {2}\n"),
    Change("a time", "", "ann ALL=NOTBEFORE=20400101000000Z <1>/bin/a\n", "+ ann NOTBEFORE=20400101000000Z /bin/a  e.g. /bin/a  at 20400101000000Z  {1}\n"),
    Change("a digest", "", "ann ALL=sha224:d14a028c2a3a2bc9476102bb288234c415a2b01f828ea62ac5b3e42f <1>/bin/a\n", "+ ann sha224:d14a028c2a3a2bc9476102bb288234c415a2b01f828ea62ac5b3e42f /bin/a  " + NONE + "  new:1:9\n"),
    Change("runas_default", "ann ALL=<1>/bin/a\n", "Defaults:ann runas_default=oper\nann ALL=/bin/a\n", "- ann Defaults runas_default=root\n+ ann Defaults runas_default=oper\n"),
    Change("another host", "ann h2=<1>/bin/a\n", "ann h2=<2>/bin/b\n", OTHERS + "- ann h2 = /bin/a  {1}\n+ ann h2 = /bin/b  {2}\n"),
    Change("a user whom the machine lacks", "", "zoe ALL=<1>ALL\n", OTHERS + "+ zoe ALL = ALL  {1}\n"),
    Change("a netgroup", "+web ALL=/bin/a\n", "+web, dan ALL=<1>/bin/a\n", "+ dan /bin/a  e.g. /bin/a  {1}\n" + OTHERS + "- +web ALL = /bin/a  old:1:10\n+ +web, dan ALL = /bin/a  {1}\n"),
    Change("a network without interfaces", "", "ann 10.0.0.0/8=<1>ALL\n", OTHERS + "+ ann 10.0.0.0/8 = ALL  {1}\n"),
    Change("a parameter", "<1>Defaults use_pty\nann ALL=/bin/a\n", "ann ALL=/bin/a\n", HEADING + "- Defaults use_pty  {1}\n"),
)

# Rows about some users, or another machine.
WORDS_ROWS = (
    ("users that are named", MACHINE, "bob dan", "", "%ops ALL=<1>/bin/b\nzoe ALL=ALL\n", "+ bob /bin/b  e.g. /bin/b  {1}\n"),
    ("users that are named, and what is not decided", MACHINE, "dan", "", "%ops ALL=/bin/b\n+web ALL=<1>ALL\n", OTHERS + "+ +web ALL = ALL  {1}\n"),
    ("a network with interfaces", MACHINE + " --interfaces 10.0.0.1/8", "", "", "ann 10.0.0.0/8=<1>ALL\n", "+ ann ALL  e.g. /usr/bin/id  {1}\n"),
    ("another host", MACHINE.replace("h1", "h2"), "", "", "ann h2=<1>ALL\n", "+ ann ALL  e.g. /usr/bin/id  {1}\n"),
    ("another moment", MACHINE.replace("2030", "2050"), "", "", "ann ALL=NOTBEFORE=20400101000000Z <1>/bin/a\n", "+ ann NOTBEFORE=20400101000000Z /bin/a  e.g. /bin/a  {1}\n"),
    ("a group of root", MACHINE, "root", "", "%root ALL=<1>/bin/b\n", "+ root /bin/b  e.g. /bin/b  {1}\n"),
)

WRONG = (
    (f"diff {MACHINE} old new nobody-here", "nobody-here: NoUser"),
    (f"diff {MACHINE} --interfaces 10.x old new", "BadAddress"),
    (f"diff {MACHINE.replace(NOW, '2030')} old new", "BadMoment"),
    ("diff --passwd none --group-file group --host h1 old new", "none: Read"),
    (f"diff {MACHINE} cycle new", "cycle: Cycle"),
)


def run_row(stand, row, machine=MACHINE, users=""):
    """Runs one row on this machine, for these users."""
    places = {}
    old, new = without_marks("old", row.old, places), without_marks("new", row.new, places)
    lines = filled_in(row.lines, places)
    with Folder({"old": old, "new": new, **PEOPLE}) as folder:
        stand.note(row.name, f"diff {machine} old new {users}", Wanted(lines.encode(), status=1 if lines else 0), folder)
        stand.note(row.name, f"diff {machine} new new {users}", Wanted(b""), folder)


def run_words(stand):
    """Wrong words, and errors."""
    with Folder({"old": "", "new": "ann ALL=ALL\n", "cycle": "User_Alias A=B : B=A\nA ALL=/bin/a\n", **PEOPLE}) as folder:
        for words, named in WRONG:
            stand.note("an error", words, fault(named, 3), folder)
        for words in ("--passwd passwd", "--host h1", "--moment 20300101000000Z"):
            wanted = Wanted(b"", None, 2, stderr_has=(b"cannot be used with",))
            stand.note("with --granted", f"diff --granted {words} old new", wanted, folder)
        stand.note("with --granted", "diff --granted old new ann", Wanted(b"", None, 2, stderr_has=(b"cannot be used with",)), folder)


# ---- random policies -----------------------------------------------------------------------

PAIRS = 60
COMMANDS = ("/bin/a", "/bin/a x", "/bin/b", "/bin/c", "/bin/d", "sudoedit /etc/a", "/usr/bin/id")
TARGETS = ("", "-u root", "-u bob", "-u oper", "-u bob -g adm", "-g adm")
# The command with which a rule ends.
COMMAND = re.compile(rb"(?:^| )!?(?:/\S.*|ALL|C\d|sudoedit.*|list)$")
LINE = re.compile(r"([-+]) (\S+) .*  (e\.g\. (.*?)|no example found)  (\S+:\d+:\d+)\n")


def ask(stand, folder, policy, user, words):
    """Returns what `why` answers of a user and words: the exit status, the verdict, and what the rule says before its command."""
    command = words.split("  at ")
    moment = f"--moment {command[1]}" if len(command) > 1 else f"--moment {NOW}"
    options = ""
    rest = command[0]
    while rest.startswith("-"):
        option, value, rest = rest.split(" ", 2)
        options += f" {option} {value}"
    came = stand.run(f"why --policy {policy} --passwd passwd --group-file group --host h1 {moment} --no-same{options} {user} {rest}", folder)
    verdict, _, rule = came.stdout.split(b"\n")[0].partition(b" by: ")
    return came.status, verdict.rpartition(b" ")[2] if rule else b"", COMMAND.sub(b"", rule)


def run_pairs(stand):
    """A user without a line has the same answers, and each example is one."""
    draw = random.Random(SEED)
    for number in range(PAIRS):
        old, new = random_policy(draw), random_policy(draw)
        if draw.random() < 0.5:
            lines = old.splitlines(keepends=True)
            lines[draw.randrange(4, len(lines))] = new.splitlines(keepends=True)[-1]
            new = "".join(lines)
        with Folder({"old": old, "new": new, **PEOPLE}) as folder:
            came = stand.run(f"diff {MACHINE} old new", folder)
            stand.note_documents(f"policies {number}", f"diff {MACHINE} old new", came, folder)
            text = came.stdout.decode()
            problems = []
            named = {line.split(" ")[1] for line in text.partition(OTHERS)[0].splitlines()}
            for _, user, _, example, _ in LINE.findall(text.partition(OTHERS)[0]):
                if example and ask(stand, folder, "old", user, example) == ask(stand, folder, "new", user, example):
                    problems.append(f"{user}: {example} is no example")
            for user in ("root", "ann", "bob", "eve", "dan", "oper"):
                if user in named:
                    continue
                for words in COMMANDS:
                    for target in TARGETS:
                        asked = f"{target} {words}".strip()
                        if ask(stand, folder, "old", user, asked) != ask(stand, folder, "new", user, asked):
                            problems.append(f"{user}: nothing is said, and {asked} has another answer")
            problems += difference("status", 1 if text else 0, came.status)
        stand.tally.note(f"{PART}: policies {number}", problems)


# ---- beside sudo ---------------------------------------------------------------------------

SUDO_PAIRS = 40
REAL_COMMANDS = ("/usr/bin/id", "/usr/bin/id -u", "/usr/bin/env", "/usr/bin/who", "ALL", "/usr/bin/")
SCRIPT = 'for file in passwd group sudoers; do mount --bind "$PWD/$file" "/etc/$file" || exit 99; done; shift; exec sudo -n -l -U "$@"'


def can_mount():
    """Whether sudo is installed, and this process may mount files over those of the system."""
    if os.geteuid() != 0 or not shutil.which("sudo") or not shutil.which("unshare"):
        return False
    return subprocess.run(["unshare", "-m", "true"], check=False, capture_output=True).returncode == 0


def is_allowed_by_sudo(folder, policy, user, words):
    """Whether sudo lets a user run words by a policy."""
    shutil.copy(os.path.join(folder, policy), os.path.join(folder, "sudoers"))
    os.chmod(os.path.join(folder, "sudoers"), 0o440)
    done = subprocess.run(["unshare", "-m", "bash", "-c", SCRIPT, "bash", "", user, *words.split(" ")], cwd=folder, capture_output=True, timeout=SECONDS, check=False)
    if done.returncode == 99:
        raise ValueError(f"nothing can be mounted: {done.stderr!r}")
    return done.returncode == 0


def random_real_policy(draw):
    """Returns a random policy of commands that the machine has."""
    text = ""
    for _ in range(draw.randint(1, 4)):
        users = ", ".join(draw.sample(("ann", "bob", "eve", "%adm", "%ops", "ALL"), draw.randint(1, 2)))
        runas = draw.choice(("", "(root) ", "(oper) ", "(ALL) "))
        commands = ", ".join(("!" if draw.random() < 0.2 else "") + draw.choice(REAL_COMMANDS) for _ in range(draw.randint(1, 2)))
        text += f"{users} ALL = {runas}{commands}\n"
    return text


def run_beside_sudo(stand):
    """Where an example is allowed by one policy alone, sudo says so too."""
    if not can_mount():
        stand.tally.skip(f"{PART}: examples beside sudo", "sudo is not installed, or nothing can be mounted")
        return
    draw = random.Random(SEED + 1)
    for number in range(SUDO_PAIRS):
        with Folder({"old": random_real_policy(draw), "new": random_real_policy(draw), **PEOPLE}) as folder:
            text = stand.run(f"diff {MACHINE} old new", folder).stdout.decode()
            problems = []
            for _, user, _, example, _ in LINE.findall(text.partition(OTHERS)[0]):
                command = re.sub(r"-[ug] \S+ ", "", example).split(" ")[0]
                if not example or user == "root" or not os.path.exists(command):
                    continue
                ours = [ask(stand, folder, policy, user, example)[0] == 0 for policy in ("old", "new")]
                theirs = [is_allowed_by_sudo(folder, policy, user, example) for policy in ("old", "new")]
                if ours[0] != ours[1]:
                    problems += difference(f"{user} {example}", ours, theirs)
        stand.tally.note(f"{PART}: examples beside sudo {number}", problems)


# ---- costs ---------------------------------------------------------------------------------

WORST_SECONDS = 20


def run_costs(stand):
    """Many users and many rules, and rules that all users have."""
    users = "root:x:0:0:::\n" + "".join(f"u{number}:x:{2000 + number}:{2000 + number}:::\n" for number in range(2000))
    rules = "".join(f"u{number % 2000} ALL = (root) NOPASSWD: /usr/bin/a{number}, /bin/b -l\n" for number in range(5000))
    for name, last, lines in (("one rule more of one user", "u7 ALL = /bin/z\n", 1), ("one rule more of all users", "ALL ALL = /bin/z\n", 2001)):
        with Folder({"old": rules, "new": rules + last, "passwd": users, "group": GROUP}) as folder:
            came = stand.run(f"diff {MACHINE} old new", folder, seconds=WORST_SECONDS)
            stand.tally.note(f"{PART}: {name}", difference("status", 1, came.status) or difference("lines", lines, came.stdout.count(b"\n")))


def run_all(program, tally):
    """Runs all of it."""
    stand = SpellingStand(PART, program, tally)
    for row in ROWS:
        run_row(stand, row)
    for name, machine, users, old, new, lines in WORDS_ROWS:
        run_row(stand, Change(name, old, new, lines), machine, users)
    run_words(stand)
    run_pairs(stand)
    run_beside_sudo(stand)
    run_costs(stand)
