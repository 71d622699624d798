"""Files of a policy of which lines are changed, as the rules say, and what the program `cases` answers of them.

Files, lines and places count from 0, and physical lines from 1.
"""

import json
import re
from dataclasses import dataclass

import said
from policies import (
    bytes_of,
    drawn_files,
    drawn_load_fault,
    drawn_members,
    drawn_name,
    some,
)
from tables import asked, call, frame, joined, part
from tally import difference

SUBJECT, SORT = b"e", b"f"
# A comment, or a line with its continuations; and what is left.
LOGICAL = re.compile(rb"[ \t]*#[^\n]*\n|(?:[^\n\\]|\\\n|\\.)*\n|.+", re.S)
BYTES = {"put": b"p", "swap": b"s", "take": b"t"}
CALLS_OF_ONE = {"put": b"w", "swap": b"i", "take": b"o"}


def eight(number):
    """A number, as the program reads it."""
    return number.to_bytes(8, "big")


@dataclass(frozen=True)
class Change:
    """A change of a line of a file: its sort is `put`, `swap` or `take`."""

    sort: str
    file: int
    at: int
    text: bytes = b""

    def body(self):
        """What is sent of it."""
        return eight(self.file) + eight(self.at) + self.text

    def frame(self):
        """The change among others."""
        return call(BYTES[self.sort], self.body())

    def call(self):
        """The call that makes it alone: `with_line`, `replaced` or `without_line`."""
        return call(CALLS_OF_ONE[self.sort], self.body())


def changed_call(changes):
    """The call that makes changes at once."""
    return call(b"c", b"".join(change.frame() for change in changes))


def lines_changed(lines, changes):
    """The lines of a file after those changes of it: before each line what is put there, and then what is left of it."""
    changed = []
    for at, line in enumerate([*lines, None]):
        here = [change for change in changes if change.at == at]
        changed += [change.text for change in here if change.sort == "put"]
        others = [change for change in here if change.sort != "put"]
        if others:
            changed += [others[0].text] * (others[0].sort == "swap")
        elif line is not None:
            changed.append(line)
    return changed


def files_changed(files, changes):
    """Files, each a name and a text, after changes."""
    return [
        (name, b"".join(lines_changed(LOGICAL.findall(text), [change for change in changes if change.file == number])))
        for number, (name, text) in enumerate(files)
    ]


def frame_of(files, calls, sort=SORT):
    """A case: files, and calls of their policy, or of its editor."""
    parts = joined(*(piece for file in files for piece in file))
    return frame(SUBJECT, sort, part(parts) + b"".join(calls))


def queries_of(files, aliases):
    """What is asked of a policy of files: its walk, its files, their lines, and where these aliases are defined and mentioned."""
    lines = [call(b"a", eight(number)) for number in range(len(files))]
    return [call(b"f"), call(b"n"), call(b"N"), *lines, *(call(byte, alias) for alias in aliases for byte in (b"d", b"m"))]


# ---- what is answered


def drawn_spot(names, spot):
    """A line of the walk as its file and its number there, and its physical line if that is another."""
    on = "" if spot["row"] == spot["line"] + 1 else f" on {spot['row']}"
    return f"{drawn_name(names[spot['file']])} {spot['line']}{on}"


def drawn_walk(names, line):
    """The lines of the walk, and the files on it, or their error."""
    if not line.startswith("["):
        return drawn_load_fault(line)
    on, spots, *texts = line.split("\t")
    on, spots = json.loads(on), said.read(spots)
    if len(texts) != len(spots):
        return f"{len(texts)} lines in {len(spots)} places"
    lines = ", ".join(drawn_spot(names, spot) for spot in spots)
    return f"{lines or 'no line'} | {', '.join(drawn_name(names[number]) for number in on)}"


def drawn_change(line):
    """What comes of changes: `ok`, the error, or `not asked`."""
    if line == "None":
        return "not asked"
    if line == "Some(Ok(()))":
        return "ok"
    found = re.fullmatch(r"Some\(Err\((.*)\)\)", line, re.S)
    return drawn_load_fault(found[1]) if found else drawn_load_fault(line)


def drawn_definition(names, line):
    """The file, the line and the place of a definition, and its members; `none` if there is none."""
    place, members, text = map(some, line.split("\t"))
    if (place, members, text) == (None, None, None):
        return "none"
    where = f"{drawn_name(names[place['file']])} {place['line']}.{place['def']}"
    return f"{where} {drawn_members(bytes(text), members)}"


def drawn_mentions(names, line):
    """The files, lines and bytes of mentions."""
    spans = [
        f"{drawn_name(names[span['file']])} {span['line']}:{span['start']}-{span['stop']}" for span in said.read(line)
    ]
    return ", ".join(spans) or "none"


def drawn_texts(line):
    """The names and texts of files, and the lines of each, which have to be its text."""
    return drawn_files(line) if line.startswith("[") else drawn_load_fault(line)


def drawn_named(line):
    """The names and texts of files."""
    *fields, last = line.split("\t")
    if last or len(fields) % 2:
        return line
    pieces = [bytes_of(field) for field in fields]
    return list(zip(pieces[::2], pieces[1::2]))


# ---- calls of one policy of files, and what is asked beside them


@dataclass(frozen=True)
class Step:
    """A call and its wanted answer.

    `changes` is None if it changes nothing, and then `drawn` draws the answer. `walk` is the walk after it, if that is known.
    """

    name: str
    call: bytes
    wanted: object
    changes: object = None
    drawn: object = None
    walk: object = None

    @property
    def accepted(self):
        """Whether it is of changes that are made."""
        return self.changes is not None and self.wanted == "ok"


class Session:
    """Calls of one policy of files.

    After changes that are made, what is asked of the policy has to be what the changed texts answer, which are loaded
    anew. After others it has to be as before.
    """

    def __init__(self, name, files, steps, aliases):
        self.name = name
        self.files = files
        self.steps = steps
        self.queries = queries_of(files, aliases)
        self.texts = []
        for step in steps:
            files = files_changed(files, step.changes) if step.accepted else files
            self.texts.append(files)

    def frames(self):
        """The cases: that of the calls, and one for the texts after each change that is made."""
        calls = [*self.queries]
        for step in self.steps:
            calls += [step.call, *(self.queries if step.changes is not None else ())]
        anew = [files for step, files in zip(self.steps, self.texts) if step.accepted]
        return [frame_of(self.files, calls), *(frame_of(files, self.queries) for files in anew)]

    def count(self):
        """How many answers there are."""
        states = 1 + sum((step.changes is not None) + step.accepted for step in self.steps)
        return len(self.steps) + states * len(self.queries)

    def note(self, lines, tally):
        """Compares the answers, and notes each step."""
        names = [name for name, _ in self.files]
        lines, size = iter(lines), len(self.queries)
        before, found = [next(lines) for _ in range(size)], []
        for step, files in zip(self.steps, self.texts):
            line = next(lines)
            if step.changes is None:
                found.append((difference("answer", step.wanted, step.drawn(names, line)), None))
                continue
            problems = difference("answer", step.wanted, drawn_change(line))
            state = [next(lines) for _ in range(size)]
            if step.accepted:
                problems += difference("texts", files, drawn_texts(state[1]))
                problems += difference("files", files, drawn_named(state[2]))
            else:
                problems += difference("the policy after what is refused", before, state)
            if step.walk is not None:
                problems += difference("walk", step.walk, drawn_walk(names, state[0]))
            found.append((problems, state))
            before = state
        for step, (problems, state) in zip(self.steps, found):
            if step.accepted:
                problems += difference("the policy, and that of its texts", [next(lines) for _ in range(size)], state)
            tally.note(f"{self.name}: {step.name}", problems)


def run_sessions(program, sessions, tally):
    """Asks a program all sessions, and notes each step of each."""
    lines = asked(program, [one for session in sessions for one in session.frames()])
    wanted = sum(session.count() for session in sessions)
    if len(lines) != wanted:
        tally.note(f"{sessions[0].name}: answers", [f"{len(lines)} in place of {wanted}"])
        return
    for session in sessions:
        count = session.count()
        try:
            session.note(lines[:count], tally)
        except (ArithmeticError, AttributeError, LookupError, TypeError, ValueError) as error:
            tally.note(session.name, [f"{type(error).__name__}: {error}"])
        lines = lines[count:]
