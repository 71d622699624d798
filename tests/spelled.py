"""Converts policies with `convert --for sudo`, and compares what is printed with what sudo reads.

A row of ROWS or NAME_ROWS has a policy, its rules spelled for sudo, and the place of the first word that visudo refuses all the same.
Without the option, `convert` has to print of this text what it prints of the policy. So it has of each worked policy. A row of NAME_ROWS
also has names that `cvtsudoers -f json` has to read in this text.

Then policies with random names are spelled for sudo. visudo has to read each, unless a line on standard error names a place. sudo has to
read the names that the policy has.
"""

import json
import random
import subprocess
from dataclasses import dataclass

import worked_policies
from cases import Case
from devices import Stand as Devices
from devices import refuse_growths
from documents import SUDO, visudo
from preload import with_library
from program import SECONDS, Wanted
from stand import Folder, Stand
from tally import difference
from written_instead import cvtsudoers

PART = "spelled"
LEAST_SPELLED, LONGEST = 8, 100_000
SEED, POLICIES, LEAST_MENDED = 20_261_130, 400, 150


@dataclass(frozen=True)
class Row:
    """A policy, what is printed of it for sudo, and the place of the first word that visudo refuses."""

    name: str
    policy: str
    printed: str
    refused: str = ""
    names: tuple = ()


ROWS = (
    Row("quotes round a word", 'bob ALL=/bin/a "x"\n', 'bob ALL = /bin/a "x"\n'),
    Row("quotes round words", 'bob ALL=/bin/a "x y" z\n', 'bob ALL = /bin/a "x y" z\n'),
    Row("a comma and an `=` in quotes", 'bob ALL=/bin/a "x\\,y\\=z"\n', 'bob ALL = /bin/a "x\\,y\\=z"\n'),
    Row("quotes in a word", 'bob ALL=/bin/a x"y"z\n', 'bob ALL = /bin/a x"y"z\n'),
    Row("escaped quotes", 'bob ALL=/bin/a \\"x\\"\n', 'bob ALL = /bin/a "x"\n'),
    Row("quotes in an alias", 'Cmnd_Alias X=/bin/a "x"\nbob ALL=X\n', 'Cmnd_Alias X = /bin/a "x"\nbob ALL = X\n'),
    Row("one quote alone", 'bob ALL=/bin/a \\"\n', 'bob ALL = /bin/a \\"\n', "1:18"),
    Row("one quote alone in a line", 'bob ALL=/bin/a "x"\nann ALL=/bin/a \\"\n', 'bob ALL = /bin/a "x"\nann ALL = /bin/a \\"\n', "2:18"),
    Row("quotes of a Defaults value", 'Defaults mailsub="a \\"b\\""\nbob ALL=/bin/a "x"\n', 'Defaults mailsub=a\\ \\"b\\"\nbob ALL = /bin/a "x"\n'),
    Row("a quote in a name", '"u\\"v" ALL=/bin/a "x"\n', 'u\\"v ALL = /bin/a "x"\n'),
    Row("no quotes", "bob ALL=/bin/a x\n", "bob ALL = /bin/a x\n"),
    Row("no rules", "# nothing\n", ""),
    Row("another word that visudo refuses", "bob ALL=/bin/a\\'\n", "bob ALL = /bin/a\\'\n", "1:11"),
    Row("an unknown parameter", "Defaults nosuch\n", "Defaults nosuch\n", "1:10"),
)

# Names that sudo refuses as `convert` prints them, and what sudo reads in their place.
NAME_ROWS = (
    Row("a user with a slash", '"/b" ALL=ALL\n', '"/b" ALL = ALL\n', names=("/b",)),
    Row("a user like an address", '"10.0.0.1" ALL=ALL\n', '"10.0.0.1" ALL = ALL\n', names=("10.0.0.1",)),
    Row("a user sudoedit", '"sudoedit" ALL=ALL\n', '"sudoedit" ALL = ALL\n', names=("sudoedit",)),
    Row("a user like a digest", '"sha256" ALL=ALL\n', '"sha256" ALL = ALL\n', names=("sha256",)),
    Row("a user like a regular expression", '"^b$" ALL=ALL\n', '"^b$" ALL = ALL\n', names=("^b$",)),
    Row("a user with > in quotes", '"a>b" ALL=ALL\n', '"a>b" ALL = ALL\n', names=("a>b",)),
    Row("a user with > behind a backslash", "a\\>b ALL=ALL\n", '"a>b" ALL = ALL\n', names=("a>b",)),
    Row("a user with > and a space", "a\\ \\>b ALL=ALL\n", '"a >b" ALL = ALL\n', names=("a >b",)),
    Row("a user with > and a quote", '"a\\"b>c" ALL=ALL\n', '"a\\"b>c" ALL = ALL\n', names=('a"b>c',)),
    Row("a user with > and a backslash", '"a\\b>c" ALL=ALL\n', '"a\\b>c" ALL = ALL\n', names=("a\\b>c",)),
    Row("a user with > and a byte without a sign", "a\\x01\\>b ALL=ALL\n", "\\a\\x01\\>b ALL = ALL\n", names=("a\x01>b",)),
    Row("a user with a tab", '"a\tb" ALL=ALL\n', '"a\tb" ALL = ALL\n', names=("a\tb",)),
    Row("a user like an include", 'bob, "@include" ALL=ALL\n', 'bob, "@include" ALL = ALL\n', names=("@include",)),
    Row("a user like an option", '"ROLE" ALL=ALL\n', "\\ROLE ALL = ALL\n", names=("ROLE",)),
    Row("a group with >", '"%a>b" ALL=ALL\n', '"%a>b" ALL = ALL\n', names=("a>b",)),
    Row("some users", '"sha256", bob, !"/b" ALL=ALL\n', '"sha256", bob, !"/b" ALL = ALL\n', names=("sha256", "bob", "/b")),
    Row("a host sudoedit", 'bob "sudoedit"=ALL\n', 'bob "sudoedit" = ALL\n', names=("sudoedit",)),
    Row("a host with a slash", 'bob "/h"=ALL\n', 'bob "/h" = ALL\n', names=("/h",)),
    Row("a host with >", 'bob "h>x"=ALL\n', 'bob "h>x" = ALL\n', names=("h>x",)),
    Row("a host like an address", 'bob "10.0.0.1"=ALL\n', "bob \\10.0.0.1 = ALL\n", names=("10.0.0.1",)),
    Row("a pattern of hosts with a slash", "bob /h*=ALL\n", "bob /h* = ALL\n", "1:5"),
    Row("a runas user like an address", 'bob ALL=("10.0.0.1") ALL\n', 'bob ALL = ("10.0.0.1") ALL\n', names=("10.0.0.1",)),
    Row("a runas group like an address", 'bob ALL=(root : "10.0.0.1") ALL\n', 'bob ALL = (root : "10.0.0.1") ALL\n', names=("10.0.0.1",)),
    Row("a runas group with a sign", "bob ALL=(root : %g) ALL\n", "bob ALL = (root : %g) ALL\n", "1:19"),
    Row("a value with a slash", 'bob ALL=ROLE="/x" TYPE=t ALL\n', 'bob ALL = ROLE="/x" TYPE=t ALL\n', names=("/x",)),
    Row("a value like an alias", 'bob ALL=ROLE="X" TYPE=t ALL\n', 'bob ALL = ROLE="X" TYPE=t ALL\n', names=("X",)),
    Row("a value like a group", "bob ALL=ROLE=\\%x TYPE=t ALL\n", "bob ALL = ROLE=\\%x TYPE=t ALL\n", names=("%x",)),
    Row("a value like a netgroup", "bob ALL=ROLE=r TYPE=\\+x ALL\n", "bob ALL = ROLE=r TYPE=\\+x ALL\n", names=("+x",)),
    Row("an empty value", 'bob ALL=ROLE="" ALL\n', 'bob ALL = ROLE="" ALL\n', "1:16"),
    Row("a folder that is no path", "bob ALL=CWD=x ALL\n", "bob ALL = CWD=x ALL\n", "1:15"),
    Row("a time with a space", 'bob ALL=TIMEOUT="1h 30m" ALL\n', "bob ALL = TIMEOUT=1h\\ 30m ALL\n", names=("command_timeout",)),
    Row("a user and a value", '"sha256" ALL=ROLE="%x" TYPE=t ALL\n', '"sha256" ALL = ROLE=\\%x TYPE=t ALL\n', names=("sha256", "%x")),
    Row("a user and arguments", '"/b" ALL=/bin/a "x"\n', '"/b" ALL = /bin/a "x"\n', names=("/b",)),
    Row("a User_Alias", 'User_Alias A = "/b", x\nA ALL=ALL\n', 'User_Alias A = "/b", x\nA ALL = ALL\n', names=("/b",)),
    Row("a blank at a line end", "User_Alias A = bob, \\ \nA ALL=ALL\n", 'User_Alias A = bob, " "\nA ALL = ALL\n', names=(" ",)),
    Row("a tab at a line end", 'User_Alias A = bob, "x\t"\nA ALL=ALL\n', 'User_Alias A = bob, "x\t"\nA ALL = ALL\n', names=("x\t",)),
    Row("a Host_Alias", 'Host_Alias A = "sudoedit"\nbob A=ALL\n', 'Host_Alias A = "sudoedit"\nbob A = ALL\n', names=("sudoedit",)),
    Row("a Runas_Alias", 'Runas_Alias A = "^b$"\nbob ALL=(A) ALL\n', 'Runas_Alias A = "^b$"\nbob ALL = (A) ALL\n', names=("^b$",)),
    Row("users of Defaults", 'Defaults:"/b" !use_pty\n', 'Defaults:"/b" !use_pty\n', names=("/b",)),
    Row("hosts of Defaults", 'Defaults@"sudoedit" !use_pty\n', 'Defaults@"sudoedit" !use_pty\n', names=("sudoedit",)),
    Row("runas users of Defaults", 'Defaults>"10.0.0.1" !use_pty\n', 'Defaults>"10.0.0.1" !use_pty\n', names=("10.0.0.1",)),
    Row("a user of Defaults that begins with a mark", "Defaults:\\!a\\>b !use_pty\n", "Defaults:\\!a\\>b !use_pty\n", names=("!a>b",)),
)


def note_of(place):
    """Returns what is printed on standard error."""
    return f"sudoers_tool: standard output:{place}: refused by visudo -c; `check --for sudo` says why\n".encode() if place else b""


def status_of_visudo(folder, text):
    """Returns the status of `visudo -c` on a text."""
    with open(f"{folder}/p", "w", encoding="utf-8") as file:
        file.write(text)
    return subprocess.run([visudo(), "-c", "-f", "p"], capture_output=True, cwd=folder, timeout=SECONDS, check=False).returncode


def problems_of_names(folder, names):
    """Returns which of the names `cvtsudoers -f json` does not read in the text that visudo looked at."""
    program = cvtsudoers(SUDO)
    if not names or program is None:
        return []
    read = subprocess.run([program, "-f", "json", "p"], capture_output=True, cwd=folder, timeout=SECONDS, check=False).stdout.decode()
    return [f"sudo does not read {name!r}" for name in names if json.dumps(name) not in read]


def run_rows(stand):
    """Runs each row, and converts what it prints again."""
    for row in ROWS + NAME_ROWS:
        with Folder({"main": row.policy, "again": row.printed}) as folder:
            came = stand.run("convert -f sudoers --for sudo main", folder)
            problems = Wanted(row.printed.encode(), note_of(row.refused)).problems(came)
            plain, again = (stand.run(f"convert -f sudoers {name}", folder) for name in ("main", "again"))
            problems += difference("what is printed without the option", plain.stdout, again.stdout)
            if visudo() and row.printed:
                problems += difference("status of visudo", int(bool(row.refused)), status_of_visudo(folder, row.printed))
                problems += problems_of_names(folder, row.names)
        stand.tally.note(f"{PART}: {row.name}", problems)


def run_worked(stand):
    """Each worked policy: what is printed for sudo is converted to what is printed without the option."""
    spelled = 0
    for text, where in worked_policies.texts(LONGEST).items():
        with Folder({"main": text}) as folder:
            plain, came = (stand.run(f"convert -f sudoers {option}main", folder) for option in ("", "--for sudo "))
            problems = difference("status", plain.status, came.status)
            if came.status == 0 and came.stdout != plain.stdout:
                spelled += 1
                with open(f"{folder}/again", "wb") as file:
                    file.write(came.stdout)
                problems += difference("converted again", plain.stdout, stand.run("convert -f sudoers again", folder).stdout)
                problems += difference("without quotes and backslashes", *(answer.stdout.translate(None, b'\\"') for answer in (plain, came)))
        stand.tally.note(f"{PART}: {where}", problems)
    stand.tally.note(f"{PART}: worked policies", [] if spelled >= LEAST_SPELLED else [f"too few are spelled otherwise: {spelled}"])


# What random names are made of, and the policies in which they stand.
BEGINS = ("/b", "10.0.0.1", "1.2.3.4/8", "sudoedit", "sha256", "^b$", "^b", "a>b", ">", "ROLE", "CWD", "X", "ALL", "!a", "a b", " a", " ", "a,b", "@include", "Defaults", "Defaultsx", "User_Alias")
ENDS = ("", "", "", "$", ">", '"', "\\", " ", "\t", "/", ":", "x41", ")", "=", "c")
FRAMES = (
    "{} ALL=ALL\n",
    "bob, !{} ALL=ALL\n",
    "User_Alias U = {}, {}\nU ALL=ALL\n",
    "bob {}=ALL\n",
    "Host_Alias H = bob, {}\nbob H=ALL\n",
    "bob ALL=({}) ALL\n",
    "bob ALL=(root, {} : {}) ALL\n",
    "bob ALL=(: {}) ALL : x=(x) /bin/a \"x\"\n",
    "Runas_Alias R = {}\nbob ALL=(R) ALL\n",
    "bob ALL=ROLE={} TYPE={} ALL\n",
    "bob ALL=(root) TYPE={} ROLE={} CWD=/c>\\(d NOPASSWD: /bin/a \"y\"\n",
    "Defaults:{} !use_pty\n",
    "Defaults@{} !use_pty\n",
    "Defaults>x,{} !use_pty\n",
    "{} {}=({}) /bin/a\n",
)


def quoted(name):
    """Returns a name as it stands in quotes."""
    return '"' + name.replace('"', '\\"') + '"'


def random_names(chance, frame):
    """Returns as many names as stand in a frame. None ends with a backslash, which no text in quotes can do."""
    count = frame.count("{}")
    return [name + "z" * name.endswith("\\") for name in (chance.choice(BEGINS) + chance.choice(ENDS) for _ in range(count))]


def problems_of_policy(stand, policy, names):
    """Spells one policy for sudo. Returns its problems, and whether visudo reads what is printed, and refuses what is printed without the option."""
    with Folder({"main": policy}) as folder:
        came, plain = (stand.run(f"convert -f sudoers {option}main", folder) for option in ("--for sudo ", ""))
        problems = difference("status", 0, came.status)
        was_refused = bool(status_of_visudo(folder, plain.stdout.decode()))
        is_refused = bool(status_of_visudo(folder, came.stdout.decode()))
        problems += difference("a line on standard error", is_refused, bool(came.stderr))
        if not is_refused:
            problems += problems_of_names(folder, names)
        with open(f"{folder}/again", "wb") as file:
            file.write(came.stdout)
        problems += difference("converted again", plain.stdout, stand.run("convert -f sudoers again", folder).stdout)
    return problems, was_refused and not is_refused


def run_random_names(stand):
    """Policies with random names: visudo reads what is printed, or a line on standard error says that it does not."""
    if not visudo():
        return
    chance, mended = random.Random(SEED), 0
    for number in range(POLICIES):
        frame = chance.choice(FRAMES)
        names = random_names(chance, frame)
        policy = frame.format(*map(quoted, names))
        problems, is_mended = problems_of_policy(stand, policy, names)
        mended += is_mended
        stand.tally.note(f"{PART}: random names {number}: {policy!r}", problems)
    stand.tally.note(f"{PART}: random names", [] if mended >= LEAST_MENDED else [f"too few are mended: {mended}"])


WRONG_WORDS = (
    ("convert -f json --for sudo main", b"'--for' goes with '-f sudoers' alone"),
    ("convert -f sudoers --for sudo-rs main", b"invalid value 'sudo-rs' for '--for <READER>'"),
    ("convert -f sudoers --for", b"a value is required for '--for <READER>'"),
)
WORST_LINES, WORST_SECONDS = 8_000, 10


def run_words(stand):
    """The other options, wrong words, errors, and many lines with quotes."""
    tree = {"main": 'Cmnd_Alias X = /bin/a "x"\nbob ALL = X\nann ALL = X\n', "broken": "bob ALL\n", "many": 'bob ALL = /bin/a "x" "y", /bin/b "\\,"\n' * WORST_LINES}
    tree["names"] = '"sha256", "/b" ALL = ("10.0.0.1") ROLE="X" /bin/a\n' * WORST_LINES
    tree["group"] = "Runas_Alias G = %wheel\nbob ALL=(root : G) /bin/a\n"
    with Folder(tree) as folder:
        for words, named in WRONG_WORDS:
            stand.note("wrong words", words, Wanted(b"", None, 2, stderr_has=(named,)), folder)
        stand.note("expanded", "convert -e -f sudoers --for sudo main", Wanted(b'bob ALL = /bin/a "x"\nann ALL = /bin/a "x"\n'), folder)
        stand.note("a group of an alias", "convert -e -f sudoers --for sudo group", Wanted(b"bob ALL = (root : %wheel) /bin/a\n", note_of("1:19")), folder)
        stand.note("filtered", "convert -m user=ann -f sudoers --for sudo main", Wanted(b'Cmnd_Alias X = /bin/a "x"\nann ALL = X\n'), folder)
        stand.note("no policy", "convert --plain -f sudoers --for sudo broken", Wanted(b"", b"sudoers_tool: broken:1:8: syntax error: EndOfLine\n", 1), folder)
        for name in ("many", "names"):
            came = stand.run(f"convert -f sudoers --for sudo {name}", folder, seconds=WORST_SECONDS)
            stand.tally.note(f"{PART}: {WORST_LINES} lines, {name}", Wanted(tree[name].encode()).problems(came))


def run_refused_growths(program, tally):
    """Each growth of memory is refused: the whole output comes, or the error and no part of it."""
    wanted = Wanted(b'bob ALL = /bin/a "x", /bin/b\n')
    words = ("convert", "-f", "sudoers", "--for", "sudo", "main")

    def check(library):
        with Folder({"main": 'bob ALL=/bin/a "x", /bin/b\n'}) as folder:
            refuse_growths(Devices(program, library, tally), Case("convert --for sudo", words, b"", wanted, folder=folder), wanted)

    with_library(tally, check)


def run_all(program, tally):
    """Runs all of it."""
    stand = Stand(PART, program, tally)
    if not visudo():
        tally.skip(f"{PART}: beside visudo", f"visudo of sudo {SUDO.decode()} is not installed")
    run_rows(stand)
    run_random_names(stand)
    run_worked(stand)
    run_words(stand)
    run_refused_growths(program, tally)
