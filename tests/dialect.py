"""Reads policies in the dialect of sudo, with `--dialect sudo` and `adapt`, and compares them with sudo.

A row of ROWS has a text, and the text that says the same to both programs. `adapt` has to print that. Without the option the program
refuses each text that changes, and with it each row that is refused. `cvtsudoers` has to print the same of both texts.

With `--dialect sudo` each command has to print what it prints of the adapted files without the option. Then random lines are compared with
cvtsudoers of sudo 1.9.13p3, if it is installed.
"""

import os
import random
import shutil
import subprocess
from collections import Counter
from dataclasses import dataclass

from cases import Case
from devices import Stand as Devices
from devices import refuse_growths
from documents import SUDO, visudo
from preload import with_library
from program import SECONDS, Wanted, fault
from stand import Folder, Stand
from tally import difference

PART = "dialect"
SEED = 20_261_130


@dataclass(frozen=True)
class Row:
    """A text, and its adapted text. None is a text that stays. `error` is the error that stays."""

    name: str
    text: str
    adapted: object = None
    error: str = ""
    sudo_reads: bool = True

    def result(self):
        """Returns the adapted text."""
        return self.text if self.adapted is None else self.adapted


BEGIN = "bob ALL="
ROWS = (
    Row("an option with a value", f"{BEGIN}/bin/a --json=o\n", f"{BEGIN}/bin/a --json\\=o\n"),
    Row("a setting", f"{BEGIN}/usr/bin/env PATH=/usr/lib x\n", f"{BEGIN}/usr/bin/env PATH\\=/usr/lib x\n"),
    Row("what ceph ships", "ceph ALL=NOPASSWD: /usr/sbin/smartctl -x --json=o /dev/*\n", "ceph ALL=NOPASSWD: /usr/sbin/smartctl -x --json\\=o /dev/*\n"),
    Row(
        "what sshuttle prints",
        "Cmnd_Alias SSHUTTLE304 = /usr/bin/env PYTHONPATH=/usr/lib/python3/dist-packages /usr/bin/python3 /usr/bin/sshuttle *\nbob ALL=NOPASSWD: SSHUTTLE304\n",
        "Cmnd_Alias SSHUTTLE304 = /usr/bin/env PYTHONPATH\\=/usr/lib/python3/dist-packages /usr/bin/python3 /usr/bin/sshuttle *\nbob ALL=NOPASSWD: SSHUTTLE304\n",
    ),
    Row("several", f"{BEGIN}/bin/a x=y=z =w\n", f"{BEGIN}/bin/a x\\=y\\=z \\=w\n"),
    Row("two in a row", f"{BEGIN}/bin/a ==\n", f"{BEGIN}/bin/a \\=\\=\n"),
    Row("at the end of a word", f"{BEGIN}/bin/a x=\n", f"{BEGIN}/bin/a x\\=\n"),
    Row("at the end of a word, before a comma", f"{BEGIN}/bin/a x=, /bin/b\n", f"{BEGIN}/bin/a x\\=, /bin/b\n"),
    Row("directly behind a path", f"{BEGIN}/bin/a=b\n", f"{BEGIN}/bin/a \\=b\n"),
    Row("behind a path and a blank", f"{BEGIN}/bin/a =b\n", f"{BEGIN}/bin/a \\=b\n"),
    Row("in quotes", f'{BEGIN}/bin/a "a=b"\n', f'{BEGIN}/bin/a "a\\=b"\n'),
    Row("alone in quotes", f'{BEGIN}/bin/a "="\n', f'{BEGIN}/bin/a "\\="\n'),
    Row("in an alias", "Cmnd_Alias X=/bin/a b=c:Y=/bin/d\nbob ALL=X, Y\n", "Cmnd_Alias X=/bin/a b\\=c:Y=/bin/d\nbob ALL=X, Y\n"),
    Row("behind an escaped comma", f"{BEGIN}/bin/a \\,=x\n", f"{BEGIN}/bin/a \\,\\=x\n"),
    Row("in two host groups", f"{BEGIN}/bin/a x=y : h2 = /bin/b z=w\n", f"{BEGIN}/bin/a x\\=y : h2 = /bin/b z\\=w\n"),
    Row("behind a continuation", f"{BEGIN}/bin/a \\\n  x=y\n", f"{BEGIN}/bin/a \\\n  x\\=y\n"),
    Row("before a continuation", f"{BEGIN}/bin/a x=\\\n  y\n", f"{BEGIN}/bin/a x\\=\\\n  y\n"),
    Row("without a line end", f"{BEGIN}/bin/a x=y", f"{BEGIN}/bin/a x\\=y"),
    Row("beside a comment with one", f"{BEGIN}/bin/a x=y # z=w\n", f"{BEGIN}/bin/a x\\=y # z=w\n"),
    Row("escaped already", f"{BEGIN}/bin/a x\\=y\n"),
    Row("as a word of Defaults", "Defaults!/bin/a passprompt=y\nbob ALL=ALL\n"),
    Row("in a comment", "# /bin/a x=y\nbob ALL=ALL\n"),
    Row("a colon in parentheses", "bob ALL=(:) ALL\n", "bob ALL=( ) ALL\n"),
    Row("a colon and blanks in parentheses", "bob ALL=( :\t) /bin/a\n", "bob ALL=(  \t) /bin/a\n"),
    Row("a colon and a continuation", "bob ALL=(:\\\n) ALL\n", "bob ALL=( \\\n) ALL\n"),
    Row("a colon and an `=`", "bob ALL=(:) /bin/a x=y\n", "bob ALL=( ) /bin/a x\\=y\n"),
    Row("a colon before a group", "bob ALL=(: adm) ALL\n"),
    Row("a colon behind a user", "bob ALL=(root :) ALL\n", error="main:1:16: syntax error: UnexpectedToken\n", sudo_reads=False),
    Row("alone", f"{BEGIN}/bin/a x = y\n", error="main:1:18: syntax error: UnexpectedToken\n", sudo_reads=False),
    Row("alone in quotes, between blanks", f'{BEGIN}/bin/a "x = y"\n', error="main:1:19: syntax error: UnexpectedByte\n", sudo_reads=False),
    Row("at the end of a path", f"{BEGIN}/bin/a=\n", error="main:1:15: syntax error: UnexpectedToken\n", sudo_reads=False),
    Row("before an ID", f"{BEGIN}/bin/a x=#5\n", error="main:1:17: syntax error: UnexpectedToken\n", sudo_reads=False),
    Row("before an ID on the next row", f"{BEGIN}/bin/a x=\\\n#5\n", error="main:1:17: syntax error: UnexpectedToken\n", sudo_reads=False),
    Row("behind an escaped byte", f"{BEGIN}/bin/a \\==\n", error="main:1:18: syntax error: UnexpectedToken\n", sudo_reads=False),
    Row("behind sudoedit", f"{BEGIN}sudoedit =x\n", f"{BEGIN}sudoedit \\=x\n"),
    Row("directly behind sudoedit", f"{BEGIN}sudoedit=x, /bin/a\n", f"{BEGIN}sudoedit \\=x, /bin/a\n"),
    Row("behind a denied sudoedit with a tag", f"{BEGIN}NOEXEC: !sudoedit =x=y\n", f"{BEGIN}NOEXEC: !sudoedit \\=x\\=y\n"),
    Row("behind sudoedit in an alias", "Cmnd_Alias X = /bin/b, sudoedit =x\nbob ALL=X\n", "Cmnd_Alias X = /bin/b, sudoedit \\=x\nbob ALL=X\n"),
    Row("behind sudoedit and an argument", f"{BEGIN}sudoedit /a =b\n", f"{BEGIN}sudoedit /a \\=b\n"),
    Row("alone behind sudoedit", f"{BEGIN}sudoedit = x\n", error="main:1:18: syntax error: UnexpectedToken\n", sudo_reads=False),
    Row("before an ID behind sudoedit", f"{BEGIN}sudoedit =#5\n", error="main:1:18: syntax error: UnexpectedToken\n", sudo_reads=False),
    Row("behind a host sudoedit", "bob h, sudoedit = /bin/a : sudoedit = /bin/b\n", sudo_reads=False),
    Row("behind a value sudoedit", "bob ALL=ROLE=sudoedit /bin/a : sudoedit=/bin/b\n", sudo_reads=False),
)

SYNTAX_ERROR = "syntax error"


def run_row(stand, row):
    """Runs one row."""
    with Folder({"main": row.text}) as folder:
        checked = stand.run("check --dialect sudo main", folder)
        report = (row.error or "main: parsed OK\n").encode()
        problems = difference("report", report, checked.stdout if row.error else checked.stdout[-len(report) :])
        plain = stand.run("check main", folder)
        is_read_without = row.adapted is None and not row.error
        problems += difference("read without the option", is_read_without, plain.status == 0)
        adapted = stand.run("adapt --plain main", folder)
        wanted = fault_of(row.error) if row.error else Wanted(row.result().encode())
        problems += wanted.problems(adapted)
    stand.tally.note(f"{PART}: {row.name}", problems)


def fault_of(error):
    """Returns what `adapt` answers of a policy with this error."""
    return fault(error.strip())


def rules_of_sudo(folder, text):
    """Returns what cvtsudoers prints of a text, or None if it refuses the text."""
    with open(os.path.join(folder, "p"), "wb") as file:
        file.write(text.encode())
    os.chmod(os.path.join(folder, "p"), 0o440)
    words = ["cvtsudoers", "-f", "sudoers", "p"]
    done = subprocess.run(words, capture_output=True, cwd=folder, env={"LC_ALL": "C", "PATH": os.environ["PATH"]}, timeout=SECONDS, check=False)
    if done.returncode != 0 or SYNTAX_ERROR.encode() in done.stderr:
        return None
    return done.stdout


def run_row_by_sudo(stand, row):
    """Compares the rules of sudo for both texts of a row."""
    with Folder({}) as folder:
        of_text, of_adapted = rules_of_sudo(folder, row.text), rules_of_sudo(folder, row.result())
    problems = difference("sudo reads it", row.sudo_reads, of_text is not None)
    problems += difference("rules", of_text, of_adapted)
    stand.tally.note(f"{PART}: {row.name}, by sudo", problems)


# ---- several files, and the commands --------------------------------------------------

TREE = {
    "main": "# first=1\n@include inc\nDefaults insults\n@includedir d\nann ALL = (:) /bin/a\n",
    "inc": "Cmnd_Alias RUN = /bin/a x=y\n",
    "d/a": "bob ALL = RUN, /bin/b\n",
    "d/b": "carl ALL = NOPASSWD: /bin/c --k=v \\\n  z\n",
    "d/c.x": "dan ALL = /bin/d q=r\n",
}
ADAPTED = {
    **TREE,
    "main": "# first=1\n@include inc\nDefaults insults\n@includedir d\nann ALL = ( ) /bin/a\n",
    "inc": "Cmnd_Alias RUN = /bin/a x\\=y\n",
    "d/b": "carl ALL = NOPASSWD: /bin/c --k\\=v \\\n  z\n",
}
PEOPLE = {
    "passwd": "root:x:0:0::/:/bin/sh\nann:x:1:1::/:/bin/sh\nbob:x:2:2::/:/bin/sh\ncarl:x:3:3::/:/bin/sh\n",
    "group": "root:x:0:\nann:x:1:\nbob:x:2:\ncarl:x:3:\n",
}
MACHINE = "--policy main --passwd passwd --group-file group --host h1 --moment 20300101000000Z --no-same"
COMMANDS = (
    "check main",
    "check -s main",
    "check --skipped main",
    "check --for sudo main",
    "check --all main",
    "check --json main",
    "show main",
    "show --json main",
    "show --members main",
    "convert -f sudoers main",
    "convert -f sudoers -e main",
    "convert -f json main",
    "convert -f sudoers -m user=bob main",
    f"who {MACHINE} /bin/a x=y",
    f"who {MACHINE.replace(' --no-same', '')} --json /bin/c --k=v z",
    f"what {MACHINE.replace(' --no-same', '')} bob",
    f"why {MACHINE} bob /bin/a x=y",
    f"why {MACHINE} bob /bin/a x",
    f"why {MACHINE} ann /bin/a",
)


def with_dialect(command):
    """Returns the words of a command with the option behind its name."""
    name, rest = command.split(" ", 1)
    return f"{name} --dialect sudo {rest}"


def bundle_of(tree, names):
    """Returns the bundle of files of a tree."""
    return "".join(f"%% {len(tree[name])} {name}\n{tree[name]}" for name in names)


def run_several_files(stand):
    """Prints the files that change, and has each command read both trees alike."""
    with Folder({**TREE, **PEOPLE}) as folder, Folder({**ADAPTED, **PEOPLE}) as adapted:
        stand.note("several files", "adapt main", Wanted(bundle_of(ADAPTED, ("main", "inc", "d/b")).encode()), folder)
        stand.note("several files of an image", "adapt --root . main", Wanted(bundle_of(ADAPTED, ("main", "inc", "d/b")).encode()), folder)
        stand.note("nothing changes", "adapt main", Wanted(b""), adapted)
        stand.note("one file of several", "adapt inc", Wanted(ADAPTED["inc"].encode()), folder)
        stand.note("one file that stays", "adapt d/a", Wanted(TREE["d/a"].encode()), folder)
        for command in COMMANDS:
            came, wanted = stand.run(with_dialect(command), folder), stand.run(command, adapted)
            problems = difference("output", wanted.stdout, came.stdout) + difference("status", wanted.status, came.status)
            problems += difference("errors", wanted.stderr, came.stderr)
            stand.tally.note(f"{PART}: {with_dialect(command)}", problems)
        for command in ("check -", "show -", "adapt -"):
            words = command if command.startswith("adapt") else with_dialect(command)
            came, wanted = stand.run(words, folder, TREE["inc"].encode()), stand.run(command, folder, ADAPTED["inc"].encode())
            stand.tally.note(f"{PART}: {words}", difference("output", wanted, came))


WRONG_WORDS = (
    ("check --dialect papers main", b"invalid value 'papers' for '--dialect <DIALECT>'"),
    ("check --dialect", b"a value is required for '--dialect <DIALECT>'"),
    ("edit --dialect sudo main", b"unexpected argument '--dialect'"),
    ("plan --dialect sudo main", b"unexpected argument '--dialect'"),
    ("adapt --dialect sudo main", b"unexpected argument '--dialect'"),
    ("adapt", b"<FILE>"),
    ("adapt main main", b"unexpected argument 'main'"),
)


def run_errors(stand):
    """Wrong words, missing files, and policies that are wrong in the dialect too."""
    tree = {"main": f"{BEGIN}/bin/a x=y\nbob ALL\n", "nul": "bob ALL=/bin/a x=y\n\0", "lost": "@include none\nbob ALL=/bin/a x=y\n"}
    with Folder(tree) as folder:
        for words, named in WRONG_WORDS:
            stand.note("wrong words", words, Wanted(b"", None, 2, stderr_has=(named,)), folder)
        stand.note("no file", "adapt none", fault("NoRoot"), folder)
        stand.note("no file", "adapt --error-status 7 none", fault("NoRoot", 7), folder)
        stand.note("another error", "adapt --plain main", fault("main:2:8: syntax error: EndOfLine"), folder)
        stand.note("NUL", "adapt --plain nul", fault("nul: NUL at byte 19"), folder)
        stand.note("missing", "adapt --plain lost", fault("lost:1:1: include none not loaded"), folder)


# ---- limits, memory and time ------------------------------------------------------------

LINE_LIMIT, TEXT_LIMIT, WORST_SECONDS = 65_536, 1_048_576, 10


def run_limits(stand):
    """The limits hold of the adapted text, and policies of `=` alone are read in time."""
    begin = f"{BEGIN}/bin/a "
    most = (LINE_LIMIT - len(begin) - 1) // 3
    for name, count, is_read in (("as long as a line may be", most, True), ("too long", most + 1, False)):
        text = begin + "x=" * count + "y" * ((LINE_LIMIT - len(begin) - 1) % 3) + "\n"
        adapted = text.replace("x=", "x\\=")
        with Folder({"main": text}) as folder:
            wanted = Wanted(adapted.encode()) if is_read else fault("main:1:1: line too long")
            came = stand.run("adapt --plain main", folder, seconds=WORST_SECONDS)
        stand.tally.note(f"{PART}: a line, {name}", wanted.problems(came))
    lines = TEXT_LIMIT // LINE_LIMIT - 1
    shapes = {"x=": "x\\=", "=": "\\=", '"=" ': '"\\=" ', "a=!!!!!!!! ": "a\\=!!!!!!!! "}
    for shape, adapted in shapes.items():
        count = (LINE_LIMIT - len(begin) - 1) // len(adapted)
        with Folder({"main": (begin + shape * count + "\n") * lines}) as folder:
            came = stand.run("adapt --plain main", folder, seconds=WORST_SECONDS)
        problems = Wanted(((begin + adapted * count + "\n") * lines).encode()).problems(came)
        stand.tally.note(f"{PART}: {lines * count} times {shape!r}", problems)
    with Folder({"main": (begin + "x=y\n") * (TEXT_LIMIT // (len(begin) + 4))}) as folder:
        stand.note("a text too large when it is adapted", "check --plain --dialect sudo main", Wanted(b"main: TooLarge\n", status=1), folder)


def run_refused_growths(program, tally):
    """Each growth of memory is refused: the whole output comes, or the error and no part of it."""
    inputs = (("adapt main", TREE, bundle_of(ADAPTED, ("main", "inc", "d/b"))), ("adapt inc", TREE, ADAPTED["inc"]))
    inputs += (("check --dialect sudo main", TREE, "main: parsed OK\n"),)

    def check(library):
        for words, tree, end in inputs:
            with Folder(tree) as folder:
                wanted = Wanted(None, stdout_has=(end.encode(),))
                refuse_growths(Devices(program, library, tally), Case(words, tuple(words.split()), b"", wanted, folder=folder), wanted)

    with_library(tally, check)


# ---- random lines beside sudo --------------------------------------------------------------

PIECES = (
    *("=", "=", "=", "a", "b", "x=y", "\\=", "\\,", " ", " ", '"', '"', '"a b"', "--json=o", "#5", "# c", "!", "(", ")", "%"),
    *("\\\n", "\\\n ", "\\:", "\\ ", "\\#", "@", ">", "==", "\t", "a=", "=b", "/", "*", "\\*", "[a]"),
)
COMMANDS_OF_LINES = (
    *("/bin/a", "/bin/b", "/usr/bin/env", "/d/", "ALL", "list", "/bin/a\\,b", "/bin/a\\=b", "!/bin/c", "CWD=/x /bin/a", "NOPASSWD: /bin/a"),
    *("(root) /bin/a", "(:) /bin/a", "( : ) /bin/b", "(root:) /bin/a", "(:adm) /bin/a", "X"),
)
RANDOM_LINES = 700
FEWEST_GAINED = 80


def random_command(draw):
    """Returns a command with random arguments."""
    command = draw.choice(COMMANDS_OF_LINES)
    if draw.random() < 0.85:
        command += " " if draw.random() < 0.8 else ""
        command += "".join(draw.choice(PIECES) for _ in range(draw.randint(1, 5)))
    return command


def random_line(draw):
    """Returns a line with random commands."""
    begin = draw.choice(("bob ALL=", "bob ALL=", "bob ALL=", "Cmnd_Alias Q = ", "bob, ann h1 = "))
    line = begin + ", ".join(random_command(draw) for _ in range(draw.choice((1, 1, 1, 2, 3))))
    if draw.random() < 0.2:
        line += draw.choice((":", " : ")) + ("h2 = " if begin[0] == "b" else "R = ") + random_command(draw)
    line = line.rstrip("\\\n")
    return f"{line}z" if line.endswith("\\ ") else line


def run_random(stand):
    """Lines that the program reads stay. Where the dialect gains a line, sudo reads the same rules of both spellings."""
    draw, counts = random.Random(SEED), Counter()
    for number in range(RANDOM_LINES):
        text = f"Cmnd_Alias X = /bin/zz\n{random_line(draw)}\n"
        with Folder({"main": text}) as folder:
            is_read = stand.run("check --plain main", folder).status == 0
            came = stand.run("adapt --plain main", folder)
            adapted = came.stdout.decode()
            problems = [f"{text!r} is changed: {adapted!r}"] if is_read and adapted != text else []
            if came.status == 0 and not is_read:
                of_text = rules_of_sudo(folder, text)
                counts["gained"] += 1
                counts["read by sudo"] += of_text is not None
                if of_text is not None:
                    problems += difference(f"rules of {text!r}", of_text, rules_of_sudo(folder, adapted))
        stand.tally.note(f"{PART}: random line {number}", problems)
    is_enough = counts["read by sudo"] >= FEWEST_GAINED
    stand.tally.note(f"{PART}: random lines", [] if is_enough else [f"too few are gained: {counts}"])
    print(f"{PART}: random lines, {dict(counts)}")


def run_all(program, tally):
    """Runs all of it."""
    stand = Stand(PART, program, tally)
    for row in ROWS:
        run_row(stand, row)
    run_several_files(stand)
    run_errors(stand)
    run_limits(stand)
    if visudo() and shutil.which("cvtsudoers"):
        for row in ROWS:
            run_row_by_sudo(stand, row)
        run_random(stand)
    else:
        tally.skip(f"{PART}: beside sudo", f"cvtsudoers of sudo {SUDO.decode()} is not installed")
    run_refused_growths(program, tally)
