"""The groups of tables of which two rows are a case and its answer."""

import re

import said
from policies import (
    drawn_bytes,
    drawn_calls,
    drawn_definition,
    drawn_files,
    drawn_gather,
    drawn_leads,
    drawn_line_fault,
    drawn_load,
    drawn_notes,
    drawn_policy,
    drawn_says,
    drawn_unused,
    is_fault,
    lines_of,
)
from table_calls import (
    POLICY_CALLS,
    cases_of_calls,
    cases_of_policy,
    files_there,
    is_error,
    name_of,
    named,
    place,
    wanted_row,
)
from tables import NoRow, call, joined, text_of, unrolled


def one_line_of(text):
    """How what a text says as one line is drawn."""
    return lambda line: drawn_says(text, line)


def drawn_marked(line):
    """The policy with a bar between its lines, and their kinds."""
    if is_fault(line):
        return drawn_line_fault(line)
    lines = lines_of(line)
    return b"|".join(one.text for one in lines), " ".join(one.drawn_kind() for one in lines)


def says(name, words, text, _row, answer):
    """What the lines of a policy say, or its error. The policy gives its text back."""
    wanted = wanted_row(answer)
    refused = is_error(wanted)
    calls = [("says", call(b"a"), wanted, drawn_policy)]
    calls.append(("text", call(b"t"), wanted if refused else text, drawn_bytes))
    yield from cases_of_policy(name, words, text, calls)


def lines(name, words, _text, row, answer):
    """The lines of a policy, and their kinds."""
    *kinds, last = answer.split(" ")
    if last != "none":
        raise NoRow(f"no `none` after the last kind: {answer}")
    text = text_of(row.replace("|", ""))
    starts, at = [], 1
    for line in text_of(row).split(b"|"):
        starts.append(str(at))
        at += line.count(b"\n")
    calls = [
        ("lines", call(b"a"), (text_of(row), " ".join(kinds)), drawn_marked),
        ("after the last", call(b"l", place(str(len(kinds)))), "none", POLICY_CALLS["kind"][2]),
        ("text", call(b"t"), text, drawn_bytes),
        ("len", call(b"L"), str(len(kinds)), str),
    ]
    yield from cases_of_policy(name, words, text, calls)
    yield from rows(name, words, text, row, " ".join(starts))


def one_line(name, _words, text, _row, answer):
    """What a text says as one line."""
    yield from cases_of_calls(name, b"t", text, [("says", call(b"l"), wanted_row(answer), one_line_of(text))])


def line_of(name, words, text, _row, answer):
    """Where a text leads as a line of a file."""
    asking = call(b"i", text_of(words[0]))
    yield from cases_of_calls(name, b"t", text, [("leads", asking, wanted_row(answer), drawn_leads)])


def file_of(row):
    """The name and the text of a file `NAME: TEXT`; `NAME:` has no text."""
    name, colon, text = row.partition(":")
    if not colon or text[:1] not in ("", " "):
        raise NoRow(f"no file: {row}")
    return text_of(name), text_of(text[1:])


def files_of(row):
    """The names and texts of files with ` | ` between two, and the parts of a body that they are."""
    files = [file_of(one) for one in unrolled(row).split(" | ")]
    return files, joined(*(piece for file in files for piece in file))


def load(name, _words, _text, row, answer):
    """The walk over files, and the files themselves; or their error."""
    files, parts = files_of(row)
    calls = [("load", call(b"f"), wanted_row(answer), lambda line: drawn_load(files, line))]
    if " | " in answer:
        calls.append(("files", call(b"n"), files, drawn_files))
    yield from cases_of_calls(name, b"t", parts, calls)


def gather(name, words, _text, row, answer):
    """The files that are gathered from a root on, or their error; and the error of each call that fails."""
    files, parts = files_of(row)
    wanted = wanted_row(answer)
    asked = re.search(r" \| (\d+) calls?$", wanted)
    if not asked:
        raise NoRow(f"no count of calls: {answer}")
    failing = [(number, drawn_calls("Device(Failed)", number)) for number in range(1, int(asked[1]) + 1)]
    calls = [
        (f"call {number} fails" if number else "gathered", call(b"g", number.to_bytes(8, "big") + text_of(words[0])), answer, drawn)
        for drawn in [lambda line: drawn_gather(files, line)]
        for number, answer in [(0, wanted), *failing]
    ]
    yield from cases_of_calls(name, b"t", parts, calls)


def read(name, words, text, _row, answer):
    """Whether a policy is read."""
    wanted = wanted_row(answer)
    calls = [("read", call(b"r"), wanted, lambda line: drawn_line_fault(line) or line)]
    yield from cases_of_policy(name, words, text, calls)


def rows(name, words, text, _row, answer):
    """The first physical lines of the lines of a policy."""
    calls = [("rows", call(b"b"), wanted_row(answer), lambda line: drawn_line_fault(line) or line.strip())]
    yield from cases_of_policy(name, words, text, calls)


def defined(name, words, text, _row, answer):
    """Where a name is defined, and its members."""
    body, wanted = named(words[0], text_of(words[1])), wanted_row(answer)
    yield from cases_of_policy(name, words, text, [("definition", call(b"d", body), wanted, drawn_definition)])


class Marks:
    """Draws the mentions of a name below the text of a policy."""

    def __init__(self, name):
        self.name = name
        self.starts = []

    def text(self, line):
        """The text of the policy, whose lines are kept."""
        if is_fault(line):
            return drawn_line_fault(line)
        text = b""
        for one in lines_of(line):
            self.starts.append(len(text))
            text += one.text
        self.whole = text
        return text

    def mentions(self, line):
        """Below each byte of a mention its number."""
        marks = [" "] * len(self.whole)
        for mention, span in enumerate(said.read(line), 1):
            if span["file"] != 0:
                return f"file {span['file']} has a mention"
            start, stop = (self.starts[span["line"]] + span[end] for end in ("start", "stop"))
            if self.whole[start:stop] != self.name:
                return f"{self.whole[start:stop]} is mentioned"
            marks[start:stop] = str(mention) * (stop - start)
        return "".join(marks).rstrip() or "none"


def mentioned(name, words, text, _row, answer):
    """Where a name is mentioned."""
    marks = Marks(text_of(words[1]))
    calls = [
        ("text", call(b"a"), text, marks.text),
        ("mentions", call(b"m", named(words[0], marks.name)), answer, marks.mentions),
    ]
    yield from cases_of_policy(name, words, text, calls)


def unused(name, words, text, _row, answer):
    """The unused definitions."""
    yield from cases_of_policy(name, words, text, [("unused", call(b"u"), wanted_row(answer), drawn_unused)])


def notes(name, words, text, _row, answer):
    """The notes of a report."""
    yield from cases_of_policy(name, words, text, [("notes", call(b"k"), wanted_row(answer), drawn_notes)])


def edits(name, _words, text, _row, answer):
    """How many edits a script has."""
    yield from cases_of_calls(name, b"t", text, [("edits", call(b"r"), wanted_row(answer), str)])


# The groups of which two rows are a case and its answer: the words of a head after the first, and their cases. After the
# words of a group of POLICIES `with` may stand, and files that are there.
POLICIES = {
    "says": (0, says),
    "lines": (0, lines),
    "read": (0, read),
    "rows": (0, rows),
    "defined": (2, defined),
    "mentioned": (2, mentioned),
    "unused": (0, unused),
    "notes": (0, notes),
}
PAIRS = {
    **POLICIES,
    "one-line": (0, one_line),
    "line-of": (1, line_of),
    "load": (0, load),
    "gather": (1, gather),
    "edits": (0, edits),
}


def is_of_pairs(group):
    """Whether two rows of a group are a case and its answer."""
    word, *words = group.words
    if word in POLICIES and files_there(words):
        words = words[: words.index("with")]
    return word in PAIRS and len(words) == PAIRS[word][0]


def cases_of_pairs(group):
    """The cases of a group of which two rows are a case and its answer."""
    word, *words = group.words
    _, cases_of_pair = PAIRS[word]
    for at, row, answer in group.pairs():
        try:
            yield from cases_of_pair(name_of(group, at, row), words, text_of(row), row, answer)
        except NoRow as error:
            raise NoRow(f"row {at}: {error}") from None
