"""Makes 200 changes of a policy of five files by the program `cases`.

The changes are drawn from fixed numbers. Each is of one line, or of several lines of several files. What comes of it has
to be what the changed texts answer, which are loaded anew: the walk, the lines of all files and what they say, and where
every name is defined and mentioned; or the error, and then the policy has to be as before.
"""

import os
import re
import subprocess
from collections import Counter

from changed_files import (
    LOGICAL,
    Change,
    Session,
    Step,
    changed_call,
    drawn_walk,
    files_changed,
    frame_of,
    run_sessions,
)
from policies import KINDS
from table_calls import named
from tables import PROGRAM, asked, call, programs
from tally import difference

FILES = [
    (b"main", b"# people\nUser_Alias A = ann, \\\n    bob : B = A\n@include a\n@includedir d\nA h1 = C\n"),
    (b"a", b"Cmnd_Alias C = /bin/sh, E : E = /bin/e\n@include b\nB, !A h2 = (F) C\n"),
    (b"b", b"Runas_Alias F = root\n\nDefaults>F env_reset\n"),
    (b"d/x", b"Host_Alias G = h1, H\nann G = ALL\n"),
    (b"d/y", b"Host_Alias H = h2\n# last\n"),
]
COUNT = 200
LONGEST = 9  # a file of more lines loses one, and gets none
NAMES = "ABCEFGHIKLMN"
ALIASES = [named(kind, name.encode()) for kind in KINDS for name in NAMES]
MEMBERS = {"User": "cho", "Runas": "root", "Host": "h3", "Cmnd": "/bin/x"}
# Lines without a definition. `{0}`, `{1}` and `{2}` are names.
OTHERS = (
    "# {0}",
    "",
    "{0}, bob {1} = {2}",
    "{0} h1 = ({1}) {2}, !{0} : {2} = \\\n  ALL",
    "Defaults:{0} lecture",
    "Defaults@{1} log_host",
    "Defaults!{2} noexec",
    "bob \\\n \\\n  {1} = ({0} : {2}) /bin/{0} {1}",
    "%{0} {1} = NOPASSWD: {2}",
)
INCLUDES = ("@include a", "@include b", "#includedir d", "@include d/x", "@include ../b", "@include main", "@include y")
FAULTS = ("bob ALL", "User_Alias ALL = x", "Cmnd_Alias b = /b")
# How many of the changes have at least to come to this.
LEAST = {"ok": 100, "is defined twice": 5, "Twice": 5, "NotLoaded": 3, "is reserved": 3, "EndOfLine": 3}


class Draws:
    """Numbers that are drawn, always the same."""

    def __init__(self):
        self.number = 1

    def below(self, limit):
        """The next number, below a limit."""
        self.number = (self.number * 1664525 + 1013904223) % 2**32
        return (self.number >> 16) % limit

    def one_of(self, those):
        """One of those."""
        return those[self.below(len(those))]


def definition_of(draws, files):
    """A definition, mostly of a name that no file has defined in the kind."""
    kind = draws.one_of(sorted(MEMBERS))
    texts = b"".join(text for _, text in files)
    taken = b" ".join(re.findall(kind.encode() + rb"_Alias ([^\n]*)", texts)).decode()
    free = [name for name in NAMES if f"{name} =" not in taken]
    name = draws.one_of(NAMES if draws.below(4) == 0 or not free else free)
    return f"{kind}_Alias {name} = {MEMBERS[kind]}, {draws.one_of(NAMES)}"


def line_of(draws, files, number):
    """A line that is put into the file with a number. The first mostly gets the includes that it lacks."""
    sort = draws.below(60)
    missing = [line for line in INCLUDES[:3] if number == 0 and line.encode() not in files[0][1]]
    if missing and sort < 30:
        line = draws.one_of(missing)
    elif sort < 24:
        line = definition_of(draws, files)
    elif sort < 52:
        line = draws.one_of(OTHERS).format(*(draws.one_of(NAMES) for _ in range(3)))
    else:
        line = draws.one_of(INCLUDES if sort < 58 else FAULTS)
    return line.encode() + b"\n"


def changes_of_file(draws, files, number, count):
    """So many changes of a file, at places that ascend."""
    lines = LOGICAL.findall(files[number][1])
    changes, least = [], 0
    for _ in range(count):
        sort = draws.one_of(("put", "put", "swap", "take"))
        at = least + draws.below(len(lines) - least + 1)
        if len(lines) > LONGEST:
            sort = "take"
        if at == len(lines) or lines[at][1:8] == b"include" and draws.below(4):
            sort = "put"
        if sort == "put" and len(lines) > LONGEST:
            break
        changes.append(Change(sort, number, at, b"" if sort == "take" else line_of(draws, files, number)))
        least = at if sort == "put" else at + 1
    return changes


def changes_of(draws, files):
    """Changes: of one line, or of several files."""
    if draws.below(4) == 0:
        return changes_of_file(draws, files, draws.below(len(files)), 1)
    changes = []
    for number in range(len(files)):
        changes += changes_of_file(draws, files, number, (0, 0, 1, 1, 2, 3)[draws.below(6)])
    return changes


def outcome_of(program, files):
    """What comes of files that are loaded: `ok`, or the error."""
    (line,) = asked(program, [frame_of(files, [call(b"f")])])
    return "ok" if line.startswith("[") else drawn_walk([name for name, _ in files], line)


def all_steps(program):
    """All changes, each with what comes of the changed texts."""
    draws, files, steps = Draws(), FILES, []
    for number in range(1, COUNT + 1):
        changes = changes_of(draws, files)
        after = files_changed(files, changes)
        outcome = outcome_of(program, after)
        files = after if outcome == "ok" else files
        is_one = len(changes) == 1 and draws.below(2) == 0
        said = " / ".join(f"{one.sort} {one.file} {one.at} {one.text!r}" for one in changes)
        asking = changes[0].call() if is_one else changed_call(changes)
        steps.append(Step(f"change {number}: {said}", asking, outcome, changes))
    return steps


def run_changes(program, tally):
    """Makes the changes, and notes each."""
    steps = all_steps(program)
    for ending, least in LEAST.items():
        count = sum(ending in step.wanted for step in steps)
        tally.note(f"many_changes: {ending}", [] if count >= least else [f"{count} times, not {least}"])
    sorts = Counter(change.sort for step in steps for change in step.changes)
    tally.note("many_changes: sorts", difference("sorts", {"put", "swap", "take"}, set(sorts)))
    run_sessions(program, [Session("many_changes", FILES, steps, ALIASES)], tally)


def run_all(_program, tally):
    """Asks each build of the program `cases`."""
    built = programs()
    if not os.access(built[0], os.X_OK):
        tally.note("many_changes", [f"no program: run `rt run < /dev/null` in crates/{PROGRAM}"])
        return
    for program in built:
        try:
            run_changes(program, tally)
        except (LookupError, OSError, TypeError, ValueError, subprocess.SubprocessError) as error:
            tally.note("many_changes", [f"{type(error).__name__}: {error}"])
