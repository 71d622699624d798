"""Refuses growths of memory of the calls that change a policy, on the program `cases`; and counts those of a change.

The growths of a change do not depend on how many aliases a policy has. A comment is replaced before many lines of aliases
and before few. The growths of the same policy with a call that changes nothing are taken off.

Each growth of an edit of each kind, of its undo and of its redo, is refused in turn: on a policy of one file and on one of
two. Then the policy, its names and the journal have to be as before, and the same call, made again, has to answer as with
ample memory. So it is with changes of three files at once, with changes of one line, and with edits of policies of one
alias, of two and so on: a table that is full grows.

A list of edits that is refused memory has made the edits before the one that it tells. The edits from that one on are
handed in then, and have to lead to the same.
"""

import os
from dataclasses import dataclass

from changed_files import Change, changed_call
from growth_frames import parts_of
from preload import with_library
from refusals import REFUSED, Asking, Stand, is_refused
from table_calls import SUBJECT, named
from tables import PROGRAM, call, frame, joined, part, programs
from tally import difference

KIND_OF = {b"U": "user", b"R": "runas", b"H": "host", b"C": "cmnd"}
FEW, MANY = 10, 1_000
# the file and the line with the number 0, from 0, and the new line
BODY = bytes(16) + b"# b\n"
# The calls that change a policy or an editor, or that tell what an editor took back, by their bytes.
CHANGING = {
    b"1": "edit::Editor::apply",
    b"-": "edit::Editor::undo",
    b">": "edit::Editor::redo",
    b"<": "edit::Editor::inverse",
    b"+": "edit::Editor::apply_all",
    b"c": "tree::Policy::changed",
    b"w": "tree::Policy::with_line",
    b"o": "tree::Policy::without_line",
    b"i": "tree::Policy::replaced",
}

# A policy, and an edit of each kind that it accepts.
EDITED = b"""# people
User_Alias A = x, y : B = A
Host_Alias H = h1
Cmnd_Alias UNUSED = /bin/a : USED = /bin/b
Cmnd_Alias GONE = UNUSED
A, B H = USED, /bin/c
"""
EDITS = (
    b"insert 2\n|Runas_Alias R = root\n",
    b"delete 3\n",
    b"move 2 4\n",
    b"add user A 3\n>, z\n",
    b"drop user A 1\n",
    b"adddef 3 2\n> : I = h2\n",
    b"dropdef 4 1\n",
    b"rename user A C\n",
    b"openend\n",
    b"prune\n",
)

# A policy of two files, and edits that it accepts. Before the last edit of a list the others are made.
EDITED_FILES = ((b"main", b"@include a\nbob ALL=SH\n"), (b"a", b"Cmnd_Alias SH = /bin/sh\n"))
EDITS_OF_FILES = (
    (b"insert 2\n|@includedir d\n",),
    (b"delete 1\n",),
    (b"delete 1\n", b"insert 1\n|@include a\n"),
    (b"move 1 2\n",),
    (b"file 2\ninsert 1\n|User_Alias A = x\n",),
    (b"file 2\ndelete 1\n",),
    (b"add cmnd SH 2\n>, /bin/b\n",),
    (b"add cmnd SH 2\n>, /bin/b\n", b"drop cmnd SH 1\n"),
    (b"file 2\nadddef 1 2\n> : USED = /bin/b\n",),
    (b"file 2\nadddef 1 2\n> : USED = /bin/b\n", b"file 2\ndropdef 1 2\n"),
    (b"rename cmnd SH USED\n",),
    (b"file 2\nopenend\n",),
    (b"file 2\nopenend\n", b"file 2\nendline\n"),
    (b"file 2\ninsert 1\n|User_Alias A = x : B = A\n", b"insert 1\n|Runas_Alias R = x\n", b"prune\n"),
)

# Files of a policy, and changes of lines of all three.
FILES = (
    (b"main", b"@include a\n@include b\nA h1 = C\n# m\n"),
    (b"a", b"User_Alias A = x\n# n\n# o\n"),
    (b"b", b"Cmnd_Alias C = /bin/c\n# p\n# q\n"),
)
CHANGES = {
    "changes of names": (
        Change("put", 0, 2, b"Host_Alias H = h1\n"),
        Change("swap", 0, 2, b"A H = D\n"),
        Change("take", 0, 3),
        Change("put", 1, 0, b"User_Alias B = A\n"),
        Change("swap", 1, 1, b"# r\n"),
        Change("take", 1, 2),
        Change("put", 2, 0, b"# s\n"),
        Change("swap", 2, 0, b"Cmnd_Alias D = /bin/d\n"),
        Change("take", 2, 1),
    ),
    "changes beside the names": (
        Change("put", 0, 0, b"# t\n"),
        Change("swap", 0, 3, b"bob h2 = (root) C, \\\n  !C\n"),
        Change("put", 1, 1, b"A h3 = ALL\n"),
        Change("take", 1, 2),
        Change("swap", 2, 1, b"# u\n"),
        Change("put", 2, 3, b"Defaults:A lecture\n"),
    ),
    "changes of includes": (
        Change("take", 0, 0),
        Change("put", 0, 4, b"User_Alias A = y\n"),
        Change("put", 1, 3, b"# v\n"),
        Change("put", 2, 0, b"@includedir d\n"),
    ),
}
NAMES = (
    *((b"U", name) for name in (b"A", b"B", b"C")),
    *((b"H", name) for name in (b"H", b"I")),
    *((b"C", name) for name in (b"USED", b"UNUSED", b"SH")),
    (b"R", b"R"),
)
ALIASES = [call(byte, named(KIND_OF[kind], name)) for kind, name in NAMES for byte in (b"d", b"m")]


LINE_CHANGES = (
    Change("put", 1, 1, b"User_Alias B = A, !x : C = y\n"),
    Change("swap", 2, 0, b"Cmnd_Alias C = /bin/d, \\\n  !/bin/e\n"),
    Change("take", 0, 3),
)

# So many aliases a policy has: with some of these counts a table of lines or of names is full, and has to grow.
FILLS = range(1, 37)
EDITS_OF_FILLS = (
    b"rename host A0 B\n",
    b"insert 2\n|Host_Alias B = x\n",
    b"adddef 2 2\n> : B = x\n",
    b"add host A0 1\n>x, \n",
)

# A list of edits of the two files, each with the number of its file if it names a line. The last one is refused.
LIST = (
    (1, b"insert 2\n|User_Alias A = x : B = A\n"),
    (0, b"add user A 2\n>, y\n"),
    (0, b"drop user A 1\n"),
    (1, b"adddef 2 3\n> : C = z\n"),
    (2, b"insert 1\n|# a\n"),
    (1, b"dropdef 2 3\n"),
    (0, b"rename user A D\n"),
    (2, b"move 1 2\n"),
    (2, b"openend\n"),
    (2, b"endline\n"),
    (1, b"delete 3\n"),
    (0, b"prune\n"),
    (1, b"delete 99\n"),
)


def policy_of(count):
    """Returns a comment, and so many lines of aliases."""
    return b"# a\n" + b"".join(b"Host_Alias A%d = h%d\n" % (n, n) for n in range(count))


def count_growths_of_change(stand, count):
    """Notes how many growths the change of the first line makes before so many lines of aliases, and returns it."""
    of_call = {byte: frame(SUBJECT, b"p", joined(policy_of(count)) + call(byte, BODY)) for byte in (b"i", b"L")}
    answers, growths = stand.run(of_call[b"i"])
    stand.tally.note(f"a comment is replaced before {count} lines", difference("answer", (b"Some(Ok(()))",), answers))
    return growths - stand.run(of_call[b"L"])[1]


@dataclass(frozen=True)
class Subject:
    """What calls are of: its sort and its text, and what is asked before them and after each."""

    sort: bytes
    text: bytes
    queries: tuple

    def frame(self, calls, after=b""):
        """Returns the frame of calls, with the queries before them and behind each, and of a call after them."""
        asking = b"".join(self.queries)
        return frame(SUBJECT, self.sort, part(self.text) + asking + b"".join(one + asking for one in calls) + after)


EDITOR = Subject(b"e", EDITED, (call(b"t"), call(b"s"), call(b"e"), call(b"a"), *ALIASES))
OF_FILES = (call(b"f"), call(b"n"), call(b"N"), *ALIASES)
EDITOR_OF_FILES = Subject(b"g", parts_of(EDITED_FILES), (call(b"s"), call(b"e"), *OF_FILES))
POLICY = Subject(b"f", parts_of(FILES), OF_FILES)


@dataclass(frozen=True)
class Turns(Asking):
    """Calls in turn, of which the last two are the same, and the state before them and after each.

    The state has so many answers, `size`. After a call that is refused memory it is as before. The calls before the last
    two, `first`, lead to the state of these.
    """

    size: int
    first: int

    def problems(self, lines):
        """Returns what is wrong with the answers to the calls, of which some may be refused."""
        if all(map(is_refused, lines)):
            return []
        state, made, step = lines[: self.size], 0, 1 + self.size
        problems = difference("the first state", self.ample[: self.size], state)
        for at in range(self.size, len(lines), step):
            outcome, after = lines[at], lines[at + 1 : at + step]
            if is_refused(outcome):
                problems += difference("the state after a refused growth", state, after)
                if made < self.first:
                    break
            else:
                wanted = self.size + made * step
                problems += difference("the outcome", self.ample[wanted], outcome)
                problems += difference("the state after the call", self.ample[wanted + 1 : wanted + step], after)
                made += 1
            state = after
        return problems


def refuse_turns(stand, subject, calls, what=""):
    """Refuses each growth of the last of these calls, with those before it, and makes it again."""
    *first, last = calls
    name = f"{CHANGING[last[:1]]} behind {len(first)} calls of the sort {subject.sort!r}{what}: {calls[0][9:]!r}"
    both, before = subject.frame([*calls, last]), subject.frame(first)
    upto = subject.frame(first, after=last)
    stand.refuse_each(Turns(name, both, stand.ample(both), before, upto, len(subject.queries), len(first)))


def refuse_edits(stand, subject, edits):
    """Refuses each growth of the last of these edits, of its undo, of its redo, and of the inverse."""
    made, undo = [call(b"1", edit) for edit in edits], call(b"-")
    for calls in (made, [*made, undo], [*made, undo, call(b">")], [*made, call(b"<")]):
        refuse_turns(stand, subject, calls)


def refuse_fills(stand):
    """Refuses each growth of edits of policies of FILLS aliases. How many growths an edit has differs with the counts."""
    aliases = [call(byte, named("host", name)) for name in (b"A0", b"B") for byte in (b"d", b"m")]
    for edit in EDITS_OF_FILLS:
        calls, found = [call(b"1", edit)], set()
        for count in FILLS:
            subject = Subject(b"e", policy_of(count), (call(b"t"), call(b"s"), *aliases))
            refuse_turns(stand, subject, calls, f" with {count} aliases")
            found.add(stand.growths(subject.frame([], after=calls[0])) - stand.growths(subject.frame([])))
        stand.tally.note(f"growths of {edit!r} with {FILLS} aliases", difference("several counts", True, len(found) > 1))


def refuse_changes(stand):
    """Refuses each growth of changes of three files, and of one line. If most bytes are unused, all lines are read anew."""
    unused = [changed_call([Change("swap", 1, 1, text)]) for text in (b"#" * 4_000 + b"\n", b"# n\n")]
    for changes in CHANGES.values():
        refuse_turns(stand, POLICY, [changed_call(changes)])
        refuse_turns(stand, POLICY, [*unused, changed_call(changes)])
    for change in LINE_CHANGES:
        refuse_turns(stand, POLICY, [change.call()])


# ---- lists of edits


def script_of(edits):
    """Returns the script of edits, each with the number of its file. The first file is that of a new script."""
    script, current = b"", 1
    for file, edit in edits:
        if file and file != current:
            script, current = script + b"file %d\n" % file, file
        script += edit
    return script


@dataclass(frozen=True)
class Resumed(Asking):
    """A list of edits, and then those from the place `at` on; with the state before both and after each.

    `states` has the states after none of the edits, after the first, and so on. `rest` is the answer to the others if the
    edits before the place are made. `met` gets each place whose edit was refused memory.
    """

    states: tuple
    at: int
    rest: bytes
    met: set

    def problems(self, lines):
        """Returns what is wrong with the answers to both lists, of which one may be refused memory."""
        if all(map(is_refused, lines)):
            return []
        size = len(self.states[0])
        problems = difference("the first state", self.states[0], lines[:size])
        refused = REFUSED.fullmatch(lines[size])
        if refused is None:
            second = lines[2 * size + 1]
            same = len(lines) if not is_refused(second) else 2 * size + 1
            return problems + difference("the answers", self.ample[:same], lines[:same])
        made = int(refused[1] or 0)
        self.met.add(made)
        problems += difference("the state after the edits before", self.states[made], lines[size + 1 : 2 * size + 1])
        if made == self.at:
            problems += difference("the answer to the others", self.rest, lines[2 * size + 1])
            problems += difference("the state after the others", self.states[-1], lines[2 * size + 2 :])
        return problems


def refuse_list(stand, subject, edits):
    """Refuses each growth of a list of edits, of which the last is refused, and hands in those that are not made."""
    size, last = len(subject.queries), len(edits) - 1
    lines = stand.ample(subject.frame([call(b"1", script_of([edit])) for edit in edits]))
    states = tuple(lines[at : at + size] for at in range(0, last * (size + 1) + 1, size + 1))
    outcomes = lines[size :: size + 1]
    stand.tally.note("edits of a list", difference("the outcomes", (b"Ok(())",) * last + (b"Err(NoLine)",), outcomes))
    met = set()
    for at in range(len(edits)):
        name = f"{CHANGING[b'+']} of {len(edits)} edits, and then those from {at} on"
        whole, rest = (call(b"+", script_of(those)) for those in (edits, edits[at:]))
        both, none = subject.frame([whole, rest]), subject.frame([])
        wanted = b"Err((%d, NoLine))" % (last - at)
        known = (name, both, stand.ample(both), none, subject.frame([], after=whole))
        stand.refuse_each(Resumed(*known, states, at, wanted, met))
    stand.tally.note("edits of a list that are refused memory", difference("their places", set(range(last)), met))


# ---- all


def on_programs(name, tally, check):
    """Runs a check of a stand for the program `cases`."""
    built = programs()[0]
    if not os.access(built, os.X_OK):
        tally.note(name, [f"no program: run `rt run < /dev/null` in crates/{PROGRAM}"])
        return
    with_library(tally, lambda library: check(Stand(built, library, tally)))


def check_changes(stand):
    """Refuses the growths of each call that changes a policy, and counts those of a change."""
    few, many = (count_growths_of_change(stand, count) for count in (FEW, MANY))
    stand.tally.note("growths of a replaced comment", difference(f"before {FEW} and {MANY}", few, many))
    for edit in EDITS:
        refuse_edits(stand, EDITOR, [edit])
    refuse_edits(stand, EDITOR, [b"openend\n", b"endline\n"])
    for edits in EDITS_OF_FILES:
        refuse_edits(stand, EDITOR_OF_FILES, edits)
    refuse_fills(stand)
    refuse_changes(stand)
    refuse_list(stand, EDITOR_OF_FILES, LIST)
    stand.tally.note("calls that change", difference("refused memory", set(CHANGING.values()), stand.refused))


def run_all(_program, tally):
    """Refuses the growths of each call that changes a policy, on the program `cases`."""
    on_programs("growths", tally, check_changes)
