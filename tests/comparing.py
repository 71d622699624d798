"""Lists the commands that never decide, with `check --overruled`, and compares policies, with `diff`.

A row of a table has texts in which `<1>`, `<2>` mark places. They are taken out, and `{1}` in the expected output is the place FILE:LINE:COL.
Then random policies are compared with texts that mean the same: as `convert` prints them, with aliases replaced or not, and with other
names of aliases. `diff` has to print nothing. Two random policies are compared, too: where `list` answers a request otherwise, `diff` has
to print a line. Growths of memory are refused. Each case is run again with `--json` (json_lines.py).
"""

import random
import re
from dataclasses import dataclass

from cases import Case
from explaining import stand_in
from json_lines import SpellingStand
from preload import with_library
from program import NAME, Answer, Wanted, fault
from stand import Folder
from tally import difference

PART = "comparing"
SEED = 20_261_201
MARK = re.compile(r"<(\d)>")


def without_marks(name, text, places):
    """Returns the text without its marks, and adds the places that they mark."""
    out = ""
    for number, piece in enumerate(MARK.split(text)):
        if number % 2 == 0:
            out += piece
            continue
        row = out.count("\n") + 1
        places[int(piece)] = f"{name}:{row}:{len(out) - (out.rfind(chr(10)) + 1) + 1}"
    return out


def filled_in(lines, places):
    """Returns the expected lines with the places in them."""
    return re.sub(r"\{(\d)\}", lambda found: places[int(found.group(1))], lines)


@dataclass(frozen=True)
class Overruled:
    """A policy, and the lines on its commands that never decide."""

    name: str
    text: str
    lines: str = ""


OVERRULED = (
    Overruled("a tag", "ann ALL=NOPASSWD: <1>/bin/a\nann ALL=<2>/bin/a\n", "{1}: overruled /bin/a: {2} decides\n"),
    Overruled("the same again", "ann ALL=<1>/bin/a\nann ALL=<2>/bin/a\n", "{1}: useless /bin/a: {2} decides\n"),
    Overruled("in one line", "ann ALL=<1>/bin/a, /bin/b, <2>/bin/a\n", "{1}: useless /bin/a: {2} decides\n"),
    Overruled("all commands", "ann ALL=<1>/bin/a, !<3>/bin/b\nann ALL=<2>ALL\n", "{1}: useless /bin/a: {2} decides\nmain:1:17: overruled !/bin/b: {2} decides\n"),
    Overruled("any arguments", "ann ALL=<1>/bin/a x\nann ALL=<2>/bin/a\n", "{1}: useless /bin/a x: {2} decides\n"),
    Overruled("any files", "ann ALL=<1>sudoedit /etc/a\nann ALL=<2>sudoedit\n", "{1}: useless sudoedit /etc/a: {2} decides\n"),
    Overruled("other arguments", "ann ALL=/bin/a\nann ALL=/bin/a x\n"),
    Overruled("more users", "ann ALL=<1>/bin/a\nbob, ann ALL=<2>/bin/a\n", "{1}: useless /bin/a: {2} decides\n"),
    Overruled("fewer users", "bob, ann ALL=/bin/a\nann ALL=/bin/a\n"),
    Overruled("a user who is left out", "ann ALL=/bin/a\nALL, !ann ALL=/bin/a\n"),
    Overruled("all users", "ann, !bob ALL=<1>/bin/a\n!ann, ALL ALL=<2>/bin/a\n", "{1}: useless /bin/a: {2} decides\n"),
    Overruled("another host", "ann h1=/bin/a\nann h2=/bin/a\n"),
    Overruled("other runas users", "ann ALL=(bob) /bin/a\nann ALL=(carl) /bin/a\n"),
    Overruled("more runas users", "ann ALL=(bob) <1>/bin/a\nann ALL=(carl, bob) <2>/bin/a\n", "{1}: useless /bin/a: {2} decides\n"),
    Overruled("all runas users", "ann ALL=<1>/bin/a\nann ALL=(ALL) <2>/bin/a\n", "{1}: useless /bin/a: {2} decides\n"),
    Overruled("a digest decides nothing for sure", "ann ALL=/bin/a\nann ALL=sha224:0000000000000000000000000000000000000000000000000000000000000000 /bin/a\n".replace("0" * 64, "0" * 56)),
    Overruled("a time", "ann ALL=/bin/a\nann ALL=NOTBEFORE=20300101000000Z /bin/a\n"),
    Overruled("an option", "ann ALL=CWD=/x <1>/bin/a\nann ALL=<2>/bin/a\n", "{1}: overruled /bin/a: {2} decides\n"),
    Overruled("aliases", "User_Alias OPS = ann, bob\nCmnd_Alias RUN = /bin/a, /bin/b\nOPS ALL=<1>RUN\nbob, ann ALL=<2>/bin/b\n", "{1}: useless /bin/b: {2} decides\n"),
    Overruled("a denial behind", "ann ALL=<1>/bin/a\nann ALL=!<2>/bin/a\n", "{1}: overruled /bin/a: main:2:9 decides\n"),
    Overruled("the cloud's rule", "ubuntu ALL=(ALL) NOPASSWD:<1>ALL\nubuntu ALL=(ALL:ALL) <2>ALL\n", "{1}: overruled ALL: {2} decides\n"),
    Overruled("nothing", "ann ALL=/bin/a\nbob ALL=/bin/a\n"),
)


def run_overruled(stand, row):
    """Runs one row."""
    places = {}
    text = without_marks("main", row.text, places)
    wanted = b"main: parsed OK\n" + filled_in(row.lines, places).encode()
    with Folder({"main": text}) as folder:
        stand.note(row.name, "check --overruled main", Wanted(wanted), folder)
        stand.note(row.name, "check -q --overruled main", Wanted(b""), folder)


@dataclass(frozen=True)
class Change:
    """Two policies, and what `diff` prints of them."""

    name: str
    old: str
    new: str
    lines: str = ""


HEADING = "Defaults that this program does not weigh:\n"
CHANGES = (
    Change("the same", "ann ALL=/bin/a\n", "# a comment\nann  ALL = /bin/a\n"),
    Change("a rule that came", "ann ALL=/bin/a\n", "ann ALL=/bin/a\nbob ALL = (root) NOPASSWD: <1>/bin/b -l\n", "+ bob ALL = (root) NOPASSWD: /bin/b -l  {1}\n"),
    Change("a rule that went", "ann ALL=/bin/a, <1>/bin/b\n", "ann ALL=/bin/a\n", "- ann ALL = /bin/b  {1}\n"),
    Change("a tag", "ann ALL=<1>/bin/a\nbob ALL=/bin/c\n", "ann ALL=NOPASSWD: <2>/bin/a\nbob ALL=/bin/c\n", "- ann ALL = /bin/a  {1}\n+ ann ALL = NOPASSWD: /bin/a  {2}\n"),
    Change("a member of an alias", "Cmnd_Alias RUN=/bin/a\nann ALL=RUN\n", "Cmnd_Alias RUN=/bin/a, /bin/b\nann ALL=<1>RUN\n", "+ ann ALL = /bin/b  {1}\n"),
    Change("an alias replaced", "User_Alias OPS=ann, bob\nOPS ALL=/bin/a\n", "ann, bob ALL=/bin/a\n"),
    Change("a name in an alias", "User_Alias OPS=ann\nOPS ALL=<1>/bin/a\n", "User_Alias OPS=ann, eve\nOPS ALL=<2>/bin/a\n", "- ann ALL = /bin/a  {1}\n+ ann, eve ALL = /bin/a  {2}\n"),
    Change("two rules change places", "ann ALL=<1>/bin/a\nann ALL=!/bin/b\n", "ann ALL=!/bin/b\nann ALL=<2>/bin/a\n", "- ann ALL = /bin/a  {1}\n+ ann ALL = /bin/a  {2}\n"),
    Change("host groups", "ann h1=/bin/a : h2=/bin/b\n", "ann h1=/bin/a\nann h2=/bin/b\n"),
    Change("a Runas_Spec that holds on", "ann ALL=(bob) /bin/a, /bin/b\n", "ann ALL=(bob) /bin/a, (bob) /bin/b\n"),
    Change("runas_default", "<1>Defaults runas_default=bob\nann ALL=/bin/a\n", "<2>Defaults:ann runas_default=bob\nann ALL=/bin/a\n", "- Defaults runas_default=bob  {1}\n+ Defaults:ann runas_default=bob  {2}\n"),
    Change("a parameter", "<1>Defaults use_pty\nann ALL=/bin/a\n", "Defaults:ann use_pty\nann ALL=/bin/a\n<2>Defaults !insults\n", HEADING + "- Defaults use_pty  {1}\n+ Defaults:ann use_pty  new:1:1\n+ Defaults !insults  {2}\n"),
    Change("a scope by an alias", "User_Alias OPS=ann\n<1>Defaults:OPS !authenticate\n", "User_Alias OPS=ann, eve\n<2>Defaults:OPS !authenticate\n", HEADING + "- Defaults:ann !authenticate  {1}\n+ Defaults:ann, eve !authenticate  {2}\n"),
    Change("parameters on one line or on two", "Defaults use_pty, insults\n", "Defaults use_pty\nDefaults insults\n"),
    Change("all", "", "<1>ann ALL=<2>ALL\n", "+ ann ALL = ALL  {2}\n"),
)


GRANTED = (
    Change("the same", "ann ALL=/bin/a\n", "ann  ALL = /bin/a # x\n"),
    Change("a rule that came", "ann ALL=/bin/a\n", "ann ALL=/bin/a\nbob ALL=<1>/bin/b\n", "+ bob ALL = /bin/b  {1}\n"),
    Change("a rule that went", "ann ALL=/bin/a, /bin/b\n", "ann ALL=/bin/a\n"),
    Change("a denial that came", "ann ALL=ALL\n", "ann ALL=ALL, !/bin/b\n"),
    Change("a denial that went", "ann ALL=ALL, <1>!/bin/b\n", "ann ALL=ALL\n", "- ann ALL = !/bin/b  {1}\n"),
    Change("a denial before its rule", "ann ALL=ALL, !<1>/bin/b\n", "ann ALL=!/bin/b, <2>ALL\n", "+ ann ALL = ALL  {2}\n"),
    Change("another tag", "ann ALL=/bin/a\n", "ann ALL=NOPASSWD: <1>/bin/a\n", "+ ann ALL = NOPASSWD: /bin/a  {1}\n"),
    Change("a member less", "ann, bob ALL=/bin/a\n", "ann ALL=/bin/a\n"),
    Change("a member less in an alias", "User_Alias OPS=ann, bob\nOPS ALL=/bin/a, NOPASSWD: /bin/b\n", "User_Alias OPS=ann\nOPS ALL=/bin/a, NOPASSWD: /bin/b\n"),
    Change("a member more", "ann ALL=/bin/a\n", "ann, bob ALL=<1>/bin/a\n", "+ ann, bob ALL = /bin/a  {1}\n"),
    Change("a member less of a denial", "ann ALL=ALL\nann, bob ALL=<1>!/bin/a\n", "ann ALL=ALL\nann ALL=!/bin/a\n", "- ann, bob ALL = !/bin/a  {1}\n"),
    Change("a member less and another tag", "ann, bob ALL=/bin/a\n", "ann ALL=NOPASSWD: <1>/bin/a\n", "+ ann ALL = NOPASSWD: /bin/a  {1}\n"),
    Change("a rule less before a member less", "ann ALL=/bin/x\nann, bob ALL=/bin/a\n", "ann ALL=/bin/a\n"),
    Change("arguments", "ann ALL=/bin/a\n", "ann ALL=/bin/a -l\n"),
    Change("a target less", "ann ALL=(ALL) /bin/a\n", "ann ALL=(root) /bin/a\n"),
    Change("a host in the place of all", "ann ALL=/bin/a\nbob ALL=/bin/b\n", "ann h1=/bin/a\nbob h1=/bin/b\n"),
    Change("a wider rule behind", "ann ALL=/bin/a -l\n", "ann ALL=<1>/bin/a\n", "+ ann ALL = /bin/a  {1}\n"),
    Change("runas_default", "ann ALL=/bin/a\n", "<1>Defaults runas_default=bob\nann ALL=/bin/a\n", "+ Defaults runas_default=bob  {1}\n"),
)
WEIGHED_NOT = (
    Change("a parameter", "ann ALL=/bin/a\n", "<1>Defaults !authenticate\nann ALL=/bin/a\n", HEADING + "+ Defaults !authenticate  {1}\n"),
)


def run_change(stand, row, words="diff", status=1):
    """Runs one row with these words. The status is that one where lines are printed."""
    places = {}
    old, new = without_marks("old", row.old, places), without_marks("new", row.new, places)
    lines = filled_in(row.lines, places)
    with Folder({"old": old, "new": new}) as folder:
        stand.note(row.name, f"{words} old new", Wanted(lines.encode(), status=status if lines else 0), folder)
        stand.note(row.name, f"{words} new new", Wanted(b""), folder)


# ---- files, errors and limits ------------------------------------------------------------

TREES = {
    "before/etc/sudoers": "@includedir /etc/sudoers.d\n",
    "before/etc/sudoers.d/a": "ann ALL=/bin/a\n",
    "after/etc/sudoers": "@includedir /etc/sudoers.d\n",
    "after/etc/sudoers.d/a": "ann ALL=/bin/a\n",
    "after/etc/sudoers.d/b": "eve ALL=ALL\n",
    "cycle": "User_Alias A=B : B=A\nA ALL=/bin/a\n",
    "idle": "User_Alias A=B : B=A\nann ALL=/bin/a\n",
    "broken/etc/sudoers": "ann ALL\n",
    "wrong": "ann ALL\n",
    "lost": "@include none\n",
    "dialect": "ann ALL=/bin/a x=y\n",
    "adapted": "ann ALL=/bin/a x\\=y\n",
}
ROOTS = "--old-root before --new-root after"
CAME = "+ eve ALL = ALL  /etc/sudoers.d/b:1:9\n"


def run_files(stand):
    """Policies of several files, images and standard input; then what is wrong."""
    with Folder(TREES) as folder:
        stand.note("images", f"diff {ROOTS} /etc/sudoers /etc/sudoers", Wanted(CAME.encode(), status=1), folder)
        stand.note("standard input", "diff - adapted", Wanted(b"", status=0), folder, TREES["adapted"].encode())
        stand.note("standard input", "diff adapted -", Wanted(b"", status=0), folder, TREES["adapted"].encode())
        stand.note("the dialect", "diff --dialect sudo dialect adapted", Wanted(b""), folder)
        stand.note("a cycle that is not reached", "diff idle idle", Wanted(b""), folder)
        stand.note("a cycle that is not reached", "check --overruled idle", Wanted(None, stdout_has=(b"idle: parsed OK\n",)), folder)
        for words in ("diff cycle idle", "diff idle cycle", "diff --granted idle cycle"):
            stand.note("a cycle", words, fault("cycle: Cycle", 3), folder)
        stand.note("a cycle", "diff cycle cycle", fault("OLD: cycle: Cycle", 3), folder)
        for words, label in (("--old-root after --new-root broken", "NEW"), ("--old-root broken --new-root after", "OLD")):
            named = f"{label}: /etc/sudoers:1:8: syntax error: EndOfLine"
            stand.note("an error of an image", f"diff --plain {words} /etc/sudoers /etc/sudoers", fault(named, 3), folder)
        wanted = Wanted(b"", None, 3, stderr_has=(b"cycle: Cycle\n", b"`check` prints the aliases of the circle"))
        stand.note("a cycle is explained", "diff --explain cycle idle", wanted, folder)
        wanted = Wanted(None, None, 3, stdout_has=(b"cycle: parsed OK\n",), stderr_has=(b"sudoers_tool: Cycle\n",))
        stand.note("a cycle", "check --overruled cycle", wanted, folder)
        stand.note("a cycle", "check --overruled --error-status 7 cycle", Wanted(None, None, 7, stdout_has=(b"cycle: parsed OK\n",)), folder)
        stand.note("an error of one", "diff --plain adapted wrong", fault("wrong:1:8: syntax error: EndOfLine", 3), folder)
        stand.note("an error of one", "diff --plain wrong adapted", fault("wrong:1:8: syntax error: EndOfLine", 3), folder)
        stand.note("an error of one", "diff --plain lost adapted", fault("lost:1:1: include none not loaded", 3), folder)
        stand.note("no file", "diff --plain none adapted", fault("none: NoRoot", 3), folder)
        wanted = Wanted(b"", None, 3, stderr_has=(b"wrong:1:8: syntax error", b"ann ALL\n"))
        stand.note("an error is explained", "diff --explain adapted wrong", wanted, folder)
        stand.note("a policy with an error", "check --overruled --plain wrong", Wanted(b"wrong:1:8: syntax error: EndOfLine\n", status=1), folder)
        for words, named in WRONG_WORDS:
            stand.note("wrong words", words, Wanted(b"", None, 2, stderr_has=(named,)), folder)


WRONG_WORDS = (
    ("diff old", b"<NEW>"),
    ("diff --granted old", b"<NEW>"),
    ("diff", b"<OLD>"),
    ("diff - -", b"standard input can be one policy only"),
    ("diff --old-root none old new", b"invalid value 'none' for '--old-root <DIR>'"),
    ("diff --new-root none old new", b"invalid value 'none' for '--new-root <DIR>'"),
    ("diff --root before old new", b"unexpected argument '--root'"),
    ("check --overruled --for sudo --json main", b"cannot be used with"),
)

MEMBER_LIMIT = 65_536
COMPARED = 64
WORST_SECONDS = 10
PAIRS_LIMIT = 16_777_216
LONG_USERS = 500


def alias_of(name, members):
    """Returns an alias of users."""
    return f"User_Alias {name} = {', '.join(members)}\n"


def policy_of_long_users(count, step=1):
    """Returns a policy of one rule with this number of commands, whose users have long names and stand in aliases."""
    users = ["x" * 900 + f"{number:03}" for number in range(LONG_USERS)][::step]
    aliases = "".join(alias_of(f"U{first}", users[first : first + 50]) for first in range(0, LONG_USERS, 50))
    mentions = ", ".join(f"U{first}" for first in range(0, LONG_USERS, 50))
    return aliases + f"{mentions} ALL = " + ", ".join(f"/bin/c{number}" for number in range(count)) + "\n"


def run_limits(stand):
    """All lists have at most 65,536 members; 64 later rows of a command are compared; policies of many rows take little time."""
    users = alias_of("U", (f"u{number}" for number in range(4096)))
    more = 4095
    for name, count, is_read in (("as many members as there may be", MEMBER_LIMIT // more, True), ("too many members", MEMBER_LIMIT // more + 1, False)):
        text = users + "U ALL=/bin/a\n" * count + "ann ALL=/bin/b\n"
        wanted = Wanted(None, status=0) if is_read else fault("OLD: main: TooLarge", 3)
        with Folder({"main": text, "none": ""}) as folder:
            stand.note(name, "diff main main", wanted, folder, seconds=WORST_SECONDS)
            if not is_read:
                stand.note(name, "diff none main", fault("main: TooLarge", 3), folder, seconds=WORST_SECONDS)
            if is_read:
                stand.note(name, "check --overruled main", Wanted(None, stdout_has=(b"main:2:7: useless /bin/a: main:3:7 decides\n",)), folder)
    for name, count, is_decided in (("as many later rows as are compared", COMPARED, True), ("more later rows", COMPARED + 1, False)):
        text = "".join(f"u{number} ALL=/bin/a\n" for number in range(count + 1))
        note = b"" if is_decided else b"main:1:8: not decided: /bin/a; commands with more than 64 later rows: 1\n"
        with Folder({"main": text}) as folder:
            stand.note(name, "check --overruled main", Wanted(b"main: parsed OK\n" + note), folder)
    shapes = {
        "rules of one command": lambda number: f"u{number} ALL=/bin/a\n",
        "rules of other commands": lambda number: f"u{number} ALL = (root) NOPASSWD: /usr/bin/a{number}, /bin/b -l\n",
        "the same rule": lambda number: "ann ALL=/bin/a\n",
    }
    for name, line in shapes.items():
        text = ""
        number = 0
        while len(text) < 700_000 and number < 16_000:
            text += line(number)
            number += 1
        with Folder({"old": text, "new": "# x\n" + text + "eve ALL=ALL\n"}) as folder:
            came = stand.run("check --overruled old", folder, seconds=WORST_SECONDS)
            stand.tally.note(f"{PART}: {name}, --overruled", difference("status", 0, came.status))
            came = stand.run("diff old new", folder, seconds=WORST_SECONDS)
            stand.tally.note(f"{PART}: {name}, diff", difference("last line", b"+ eve ALL = ALL", came.stdout[-200:].split(b"\n")[-2][:15] if came.stdout else b""))
    for name, count, left in (("as many pairs of members as are compared", PAIRS_LIMIT // LONG_USERS**2, 0), ("more pairs of members", 80, 80 - PAIRS_LIMIT // LONG_USERS**2)):
        with Folder({"old": policy_of_long_users(count), "new": policy_of_long_users(count, -1)}) as folder:
            came = stand.run("diff --granted old new", folder, seconds=WORST_SECONDS)
            stand.tally.note(f"{PART}: {name}, --granted", difference("status", 1 if left else 0, came.status) or difference("lines", left, came.stdout.count(b"\n")))


# ---- random policies -----------------------------------------------------------------------

PAIRS = 200
USERS, HOSTS, COMMANDS = ("ann", "bob", "eve", "%adm", "ALL"), ("ALL", "h1", "h2"), ("/bin/a", "/bin/a x", "/bin/b", "ALL", "sudoedit /etc/a", "/bin/c")
ALIASES = {"User": ("U1", "U2"), "Cmnd": ("C1", "C2")}


def some(draw, choices, most=3):
    """Returns a list of some of these, some of them negated."""
    members = [draw.choice(choices) for _ in range(draw.randint(1, most))]
    return ", ".join(("!" if draw.random() < 0.15 else "") + member for member in members)


def random_policy(draw):
    """Returns a random policy with aliases."""
    text = f"User_Alias U1 = {some(draw, USERS[:4])}\nUser_Alias U2 = {some(draw, (*USERS[:4], 'U1'))}\n"
    text += f"Cmnd_Alias C1 = {some(draw, COMMANDS[:3])}\nCmnd_Alias C2 = {some(draw, (*COMMANDS[:3], 'C1'))}\n"
    if draw.random() < 0.3:
        text += f"Defaults:{some(draw, ('ann', 'U1'), 2)} runas_default=bob\n"
    for _ in range(draw.randint(1, 6)):
        runas = draw.choice(("", "", "(root) ", "(ALL) ", "(bob : adm) ", "(ALL : ALL) "))
        tag = draw.choice(("", "", "NOPASSWD: ", "SETENV: ", "CWD=/x "))
        text += f"{some(draw, (*USERS, 'U1', 'U2'))} {draw.choice(HOSTS)} = {runas}{tag}{some(draw, (*COMMANDS, 'C1', 'C2'))}\n"
    return text


def renamed(text):
    """Returns the policy with other names of its aliases, a comment behind each line."""
    for name in ("U1", "U2", "C1", "C2"):
        text = re.sub(rf"\b{name}\b", f"{name}_X", text)
    return text.replace("\n", " # note\n")


def narrowed(draw, text):
    """Returns the policy with a rule less, a user less or a denial more."""
    lines = text.splitlines(keepends=True)
    rules = [number for number, line in enumerate(lines) if " = " in line and "_Alias" not in line and "!" not in line and "C1" not in line and "C2" not in line]
    chance = draw.random()
    if rules and chance < 0.3:
        del lines[draw.choice(rules)]
    elif rules and chance < 0.6:
        number = draw.choice(rules)
        users, rest = lines[number].split(" ALL = ", 1) if " ALL = " in lines[number] else ("", "")
        if ", " in users:
            lines[number] = users.partition(", ")[2] + " ALL = " + rest
    else:
        lines.insert(draw.randint(4, len(lines)), f"{draw.choice(USERS)} ALL = !/bin/b\n")
    return "".join(lines)


REQUESTS = [(user, command) for user in ("ann", "bob", "eve", "dan") for command in ("/bin/a", "/bin/a x", "/bin/b", "/bin/c", "/bin/d")]
PASSWD = "root:x:0:0::/:\nann:x:1:1::/:\nbob:x:2:2::/:\neve:x:3:3::/:\ndan:x:4:4::/:\n"
PEOPLE = {"passwd": PASSWD, "group": "adm:x:9:eve\n"}


def answers(stand, folder, name):
    """Returns what `why` answers to some requests, without places."""
    machine = f"--policy {name} --passwd passwd --group-file group --host h1 --moment 20300101000000Z --no-same"
    return [stand.run(f"why {machine} {user} {command}", folder).status for user, command in REQUESTS]


def run_pairs(stand):
    """Policies that mean the same are silent. Where an answer differs, a line is printed."""
    draw = random.Random(SEED)
    for number in range(PAIRS):
        text = random_policy(draw)
        with Folder({"old": text, "renamed": renamed(text)}) as folder:
            for words in ("", "-e"):
                came = stand.run(f"convert -f sudoers {words} old", folder)
                stand.note(f"pair {number}, as convert prints it", "diff old -", Wanted(b""), folder, came.stdout)
            stand.note(f"pair {number}, other names of aliases", "diff old renamed", Wanted(b""), folder)
    for number in range(PAIRS // 5):
        old, new = random_policy(draw), random_policy(draw)
        with Folder({"old": old, "new": new, **PEOPLE}) as folder:
            came = stand.run("diff old new", folder)
            granted = stand.run("diff --granted old new", folder)
            stand.note_documents(f"other policies {number}", "diff old new", came, folder)
            stand.note_documents(f"other policies {number}", "diff --granted old new", granted, folder)
            before, behind = answers(stand, folder, "old"), answers(stand, folder, "new")
        problems = ["nothing is printed"] if before != behind and came.status == 0 else []
        stand.tally.note(f"{PART}: other policies {number}", problems + difference("status", bool(came.stdout), came.status == 1))
        is_more = any(was and not now for was, now in zip(before, behind))
        stand.tally.note(f"{PART}: what is granted {number}", ["status 0, but something is granted"] if is_more and granted.status == 0 else [])
    for number in range(PAIRS // 5):
        old = random_policy(draw)
        new = narrowed(draw, old)
        with Folder({"old": old, "new": new, **PEOPLE}) as folder:
            granted = stand.run("diff --granted old new", folder)
            before, behind = answers(stand, folder, "old"), answers(stand, folder, "new")
        is_more = any(was and not now for was, now in zip(before, behind))
        stand.tally.note(f"{PART}: a narrower policy {number}", difference("status", 0, granted.status) + (["something is granted"] if is_more else []))


# ---- refused growths of memory ---------------------------------------------------------------

ERROR_STATUS = 3
GROWN = {
    "old": "@include inc\nDefaults:OPS runas_default=bob, use_pty\nOPS ALL=(R) RUN, /bin/b\nann ALL=NOPASSWD: ALL\nann, eve ALL=ALL\n",
    "inc": "User_Alias OPS=ann, NIGHT : NIGHT=eve\nRunas_Alias R=root\nCmnd_Alias RUN=/bin/a, !/bin/b\n",
    "new": "Defaults !insults\nann ALL=(root : adm) SETENV: /bin/a x, CWD=/x /bin/b\nann, eve ALL=ALL\n",
    "cycle": "User_Alias A=B : B=A\nA ALL=/bin/a\n",
    "many": "".join(f"u{number} ALL=/bin/a\n" for number in range(COMPARED + 2)),
}
REPORT_END = b"parsed OK\n"
GROWTHS = ("check --overruled --plain old", "check --overruled --plain many", "diff --plain old new", "diff --plain old old", "diff --plain --granted old new", "diff --plain cycle new")


def run_growths(stand):
    """If a growth is refused, the answer comes, or the error of memory: behind the report of `check`, or alone. `diff` may name the policy.

    Before the command line is read, the program does not know the command, and the error of memory has the status 1.
    """

    def check(library):
        for words in GROWTHS:
            with Folder(GROWN) as folder:
                ample = stand.run(words, folder)
                report = b"".join(ample.stdout.partition(REPORT_END)[:2]) if words.startswith("check") else b""
                refused = Answer(report, NAME + b"NoMemory\n", ERROR_STATUS)
                told = (b"", refused.stderr, NAME + b"Cycle\n")
                failed = {Answer(out, text, status) for out in (b"", report) for text in told for status in (1, ERROR_STATUS)}
                allowed = {ample, *failed}
                case = Case(words, tuple(words.split(" ")), b"", stand_in(ample), folder=folder)
                came = set()
                for refusal in ("refuse_growth", "refuse_from"):
                    for number, (answer, _) in enumerate(library.run_each(stand.program, case, refusal), 1):
                        stand.tally.note(f"{PART}: {words}, {refusal} {number}", [] if answer in allowed else [f"came {answer}"])
                        came.add(answer)
                stand.tally.note(f"{PART}: {words}, answers", [] if {ample, refused} <= came else [f"came only {came}"])

    with_library(stand.tally, check)


def run_all(program, tally):
    """Runs all of it."""
    stand = SpellingStand(PART, program, tally)
    for row in OVERRULED:
        run_overruled(stand, row)
    for row in CHANGES:
        run_change(stand, row)
    for row in GRANTED:
        run_change(stand, row, "diff --granted")
    for row in WEIGHED_NOT:
        run_change(stand, row, "diff --granted", 0)
    run_files(stand)
    run_limits(stand)
    run_pairs(stand)
    run_growths(stand)
