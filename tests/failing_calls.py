"""Runs each command over files of which one call fails: each call in turn, until none fails.

The files are those of a tree with an include, an included folder and links. A call opens a file or a folder, looks at a
file, reads the target of a link, the names of a folder, or a file. A run has to end in an error that names the failed
device, with its status and nothing on standard output. So no run may answer as if a file were missing or empty.

The program `cases` runs commands over files in memory in the same way.
"""

import os
import re
from dataclasses import dataclass

from bundles import bundle
from cases import Case
from growth_frames import LIST, LOADED, of_command
from included_rows import ASKED, PEOPLE
from preload import SORTS, with_library
from program import Wanted, fault
from stand import Folder, Link
from tables import PROGRAM, asked, programs
from tally import difference

ROOT = "etc/sudoers"
TREE = {
    ROOT: "User_Alias OPS = bob, ann\n@include local\n@includedir sudoers.d\nOPS ALL = WEB\n",
    "etc/local": Link("../real/local"),
    "etc/sudoers.d": Link("../real/d"),
    "real/local": "Cmnd_Alias WEB = /bin/a, \\\n  /bin/b\nRunas_Alias IDLE = root\n",
    "real/d/10": "bob ALL = /bin/c\n",
    "real/d/20": Link("../twenty"),
    "real/d/dangling": Link("none"),
    "real/d/sub/e": "no policy\n",
    "real/d/x.conf": "no policy\n",
    "real/twenty": "ann ALL = !/bin/z\n",
}
# The files that are read, in their order; and the names of which an error of `edit --files` may speak.
READ = (
    (ROOT, TREE[ROOT]),
    ("etc/local", TREE["real/local"]),
    ("etc/sudoers.d/10", TREE["real/d/10"]),
    ("etc/sudoers.d/20", TREE["real/twenty"]),
)
NAMED = (ROOT, "etc/local", "etc/sudoers.d", "etc/sudoers.d/10", "etc/sudoers.d/20")

NOTES = b"etc/local:3:13: unused Runas_Alias IDLE\netc/sudoers: parsed OK\n"
SKIPPED = (
    b"etc/sudoers.d/dangling: not read: no regular file\netc/sudoers.d/sub: not read: no regular file\n"
    b"etc/sudoers.d/x.conf: not read: its name contains '.'\n"
)
SHOWN = (
    b"file 1 etc/sudoers\n1 alias 1\n1.1 User_Alias OPS 2\n2 include 2\n3 include 3\n4 spec 4\n"
    b"file 2 etc/local\n1 alias 1\n1.1 Cmnd_Alias WEB 2\n2 alias 3\n2.1 Runas_Alias IDLE 1\n"
    b"file 3 etc/sudoers.d/10\n1 spec 1\nfile 4 etc/sudoers.d/20\n1 spec 1\n"
)
EXPANDED = b"bob ALL = /bin/c\nann ALL = !/bin/z\nbob, ann ALL = /bin/a, /bin/b\n"
LISTED = b"bob on h:\n    (root) /bin/c\n    (root) WEB\n"
WHY = b"etc/sudoers:4:11: allowed by: (root) WEB\netc/local:1:18: in Cmnd_Alias WEB: /bin/a\n"
WHO = b"".join(name + b": " + line for name in (b"bob", b"ann") for line in WHY.splitlines(keepends=True))
RIGHTS = b"bob on h:\n    etc/sudoers.d/10:1:11: (root) /bin/c\n    etc/sudoers:4:11: (root) WEB\n"
FILES = bundle([(name.encode(), text.encode()) for name, text in READ])
UNUSED = b"sudoers_tool: etc/new: no line of the edited policy includes this file\n"
MACHINE = "--policy FILE --passwd passwd --group-file group --host h"
ASKED_PEOPLE = ("passwd: Read",) * 3 + ("group: Read",) * 3
LINKS = ("image/bin: Read", "image/sbin: Read")


@dataclass(frozen=True)
class Row:
    """A command with FILE for the policy, and what it answers if no call fails.

    The first calls and the last ones, of the counts `people`, are those for passwd and group. Their error is `Read`. The last
    calls have the errors `last`. In the error of a command that has names `named` one of these comes first: that of the file or
    the folder. An error has the status `status`. A row that is `rooted` runs below a folder alone.
    """

    words: str
    wanted: Wanted
    people: tuple = (0, 0)
    named: tuple = ()
    last: tuple = ()
    status: int = 1
    rooted: bool = False


ROWS = (
    Row("check FILE", Wanted(NOTES)),
    Row("check -q FILE", Wanted()),
    Row("check -s --skipped FILE", Wanted(NOTES + SKIPPED)),
    Row("show FILE", Wanted(SHOWN)),
    Row("convert -f sudoers -e FILE", Wanted(EXPANDED)),
    Row(f"{ASKED} bob FILE", Wanted(LISTED), people=(2, 4)),
    Row(f"{ASKED} bob --why FILE /bin/a", Wanted(WHY), people=(2, 4)),
    Row(f"who --no-same {MACHINE} /bin/a", Wanted(WHO), last=ASKED_PEOPLE, status=3),
    Row(f"what {MACHINE} bob", Wanted(RIGHTS), last=ASKED_PEOPLE, status=3),
    Row(f"why {MACHINE} bob /bin/a", Wanted(WHY), last=(*ASKED_PEOPLE, *LINKS), status=3, rooted=True),
    Row("edit --files - FILE", Wanted(FILES), named=NAMED),
    Row("edit --files - --also etc/new FILE", Wanted(FILES + b"%% 0 etc/new\n", UNUSED), named=(*NAMED, "etc/new")),
)

# The commands over files in memory, by the bytes that ask for them.
IN_MEMORY = {"check": b"c", "convert": b"v", "list": b"l", "show": b"s"}


def words_of(row, top):
    """Returns the words of a row for the policy below the folder `top`, or for that of the current folder."""
    command, *others = row.words.split(" ")
    root = ("--root", top) if top else ()
    return (command, *root, *(ROOT if word == "FILE" else word for word in others))


def name_in(row, answer):
    """Returns the name in the error of a row that has names, if there is one."""
    found = re.fullmatch(r"sudoers_tool: (.*): Failed\n", answer.stderr.decode())
    return found[1] if found and found[1] in row.named else ""


def wanted_of(row, name, calls, number):
    """Returns what a row has to answer of which the call with this number fails; `name` is the name in its error."""
    left = calls - number
    if left < len(row.last):
        return fault(row.last[-1 - left], row.status)
    before, behind = row.people
    if number <= before or number > calls - behind:
        return fault("Read")
    return fault(f"{name}: Failed" if row.named else "Failed", row.status)


class Calls:
    """The program, the library that is preloaded into it, the count of cases, and the sorts of calls that failed."""

    def __init__(self, program, library, tally):
        self.program = program
        self.library = library
        self.tally = tally
        self.sorts = set()

    def fail_each(self, row, top=""):
        """Lets each call fail of a row, below the folder `top` if there is one, and compares the names in its errors."""
        tree = {os.path.join(top, name): what for name, what in TREE.items()}
        words, names = words_of(row, top), []
        # The first call looks at the folder `top`.
        passed = 1 if top else 0
        with Folder({**PEOPLE, **tree}) as folder:
            case = Case(" ".join(words), words, b"", row.wanted, folder=folder)
            calls = self.library.run(self.program, case)[1].calls - passed
            runs = self.library.run_each(self.program, case, "fail_call", passed + 1)
            for number, (answer, report) in enumerate(runs, 1):
                name = name_in(row, answer)
                names += [name] * (name not in names[-1:])
                self.sorts.add(SORTS[report.call_sort])
                wanted = wanted_of(row, name, calls, number) if report.met else row.wanted
                self.tally.note(f"{case.name}, call {number} fails", wanted.problems(answer))
        problems = difference("the names in errors", [*row.named, ""], names)
        problems += difference("runs", (calls + 1, True), (number, calls > len(TREE)))
        self.tally.note(f"{case.name}, calls that fail", problems)


def fail_each_in_memory(tally):
    """Lets each call fail of commands over files in memory, which the program `cases` runs."""
    built = programs()[0]
    if not os.access(built, os.X_OK):
        tally.note("failing_calls", [f"no program: run `rt run < /dev/null` in crates/{PROGRAM}"])
        return
    for command, byte in IN_MEMORY.items():
        honest = asked(built, [of_command(LOADED, byte, LIST)])
        calls = int(honest[0].rpartition("\t")[2])
        found = honest[0][:1], calls > 3
        tally.note(f"{command} over files in memory", difference("its status and enough calls", ("0", True), found))
        lines = asked(built, [of_command(LOADED, byte, LIST, number) for number in range(1, calls + 2)])
        wanted = [f"fault: Failed\t\t{number}" for number in range(1, calls + 1)] + honest
        tally.note(f"{command} over files in memory of which a call fails", difference("answers", wanted, lines))


def run_all(program, tally):
    """Lets each call for a file fail of each row, also below a folder, and of commands over files in memory."""

    def check(library):
        calls = Calls(program, library, tally)
        for row in ROWS:
            if not row.rooted:
                calls.fail_each(row)
            calls.fail_each(row, "image")
        tally.note("sorts of calls that fail", difference("sorts", set(SORTS), calls.sorts))

    with_library(tally, check)
    fail_each_in_memory(tally)
