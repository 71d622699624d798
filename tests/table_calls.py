"""The calls of tables of policies, editors and texts, as rows and as frames of the program `cases`."""

from policies import (
    KINDS,
    Line,
    drawn_bytes,
    drawn_change,
    drawn_definition,
    drawn_outcome,
    drawn_spans,
)
from tables import Case, NoRow, call, frame, joined, part, text_of, unrolled

SUBJECT = b"e"
FIRST = bytes(8)  # the number of the first file, as the program reads it


def number(word):
    """A number, as the program reads it."""
    if not word.isdigit():
        raise NoRow(f"{word}: no number")
    return int(word).to_bytes(8, "big")


def place(word):
    """A line of the first file, as the program reads it."""
    return FIRST + number(word)


def named(kind, name):
    """A kind of alias and a name, as the program reads them."""
    if kind not in KINDS:
        raise NoRow(f"{kind}: no kind of alias")
    return kind[:1].encode() + part(name)


def frame_of(sort, text, calls):
    """A case: a text and calls."""
    return frame(SUBJECT, sort, part(text) + b"".join(calls))


def cases_of_calls(name, sort, text, calls):
    """The cases of calls on one text. A call is its name, its frame, its wanted answer, and how its answer is drawn."""
    asking = frame_of(sort, text, [one for _, one, _, _ in calls])
    for what, _, wanted, drawn in calls:
        yield Case(f"{name}: {what}", asking, wanted, drawn)
        asking = b""


def files_there(words):
    """The names of the files that are there by the words of a head: those after `with`."""
    return words[words.index("with") + 1 :] if "with" in words else ()


def cases_of_policy(name, words, text, calls):
    """The cases of calls of the policy of one text. The files that are there by the words of the head are empty."""
    there = files_there(words)
    if not there:
        yield from cases_of_calls(name, b"p", text, calls)
        return
    files = joined(b"policy", text, *(piece for file in there for piece in (text_of(file), b"")))
    yield from cases_of_calls(name, b"f", files, calls)


def wanted_row(row):
    """An answer as a row has it."""
    return "" if row == "⟨⟩" else unrolled(row)


# The calls of a policy, an editor and a text: the byte of each, what follows its name, and how its answer is drawn.
# The answer `as given` is the first text of the group.
POLICY_CALLS = {
    "read": (b"r", "", str),
    "len": (b"L", "", str),
    "text": (b"t", "", drawn_bytes),
    "line": (b"l", "place", lambda line: Line.drawn(line).text or "none"),
    "kind": (b"l", "place", lambda line: Line.drawn(line).drawn_kind()),
    "says": (b"l", "place", lambda line: Line.drawn(line).drawn_node()),
    "definition": (b"d", "name", drawn_definition),
    "mentions": (b"m", "name", drawn_spans),
    "insert": (b"w", "place and line", drawn_change),
    "remove": (b"o", "place", drawn_change),
    "replace": (b"i", "place and line", drawn_change),
    "changed": (b"c", "changes", drawn_change),
    "text-after": (b"A", "bytes", drawn_bytes),
}
EDITOR_CALLS = {
    **{word: POLICY_CALLS[word] for word in ("text", "definition", "mentions")},
    "apply": (b"1", "bytes", drawn_outcome),
    "apply-all": (b"+", "bytes", drawn_outcome),
    "undo": (b"-", "", drawn_outcome),
    "redo": (b">", "", drawn_outcome),
    "steps": (b"s", "", str),
    "redos": (b"e", "", str),
    "inverse": (b"<", "", drawn_bytes),
}
TEXT_CALLS = {
    "limits": (b"m", "", str),
    "script": (b"w", "", drawn_bytes),
    "script-and": (b"w", "script", drawn_bytes),
    "script-and-drop": (b"w", "drop", drawn_bytes),
    "script-of-prune": (b"w", "prune", drawn_bytes),
}
CALLS = {
    "policy": (b"p", POLICY_CALLS),
    "editor": (b"e", EDITOR_CALLS),
    "text": (b"t", TEXT_CALLS),
}

# The changes of a call `changed`, with ` / ` between two: the byte of each, and what follows its name.
CHANGES = {"put": (b"p", "place and line"), "swap": (b"s", "place and line"), "take": (b"t", "place")}


def change_of(row):
    """A change of lines, as the program reads it."""
    word, _, rest = row.partition(" ")
    if word not in CHANGES:
        raise NoRow(f"{word}: no change of lines")
    byte, form = CHANGES[word]
    return call(byte, body_of(form, rest))


def body_of(form, rest):
    """The body of a call, of the words after its name."""
    if form == "":
        if rest:
            raise NoRow(f"too many words: {rest}")
        return b""
    if form == "place":
        return place(rest)
    if form == "place and line":
        at, _, line = rest.partition(" ")
        return place(at) + text_of(line)
    if form == "changes":
        return b"".join(change_of(row) for row in rest.split(" / ")) if rest else b""
    if form == "name":
        kind, _, name = rest.partition(" ")
        return named(kind, text_of(name))
    further = {"script": b"s", "drop": b"d", "prune": b"p"}
    return call(further[form], text_of(rest)) if form in further else text_of(rest)


def call_of(row, answer, known, given):
    """A call and its answer, of two rows."""
    word, _, rest = row.partition(" ")
    if word not in known:
        raise NoRow(f"{word}: no call")
    byte, form, drawn = known[word]
    if drawn is drawn_bytes and answer == "as given":
        wanted = given
    elif drawn is drawn_bytes and not answer.startswith(("line ", "TooMany")) or word == "line" and answer != "none":
        wanted = text_of(answer)
    else:
        wanted = wanted_row(answer)
    return row, call(byte, body_of(form, rest)), wanted, drawn


def calls_of(group, known):
    """The text of a group, and the calls of its other rows."""
    text, rest = first_and_rest(group)
    calls = []
    for at, row, answer in by_size(group, rest, 2):
        try:
            calls.append(call_of(row, answer, known, text))
        except NoRow as error:
            raise NoRow(f"row {at}: {error}") from None
    return rest[0][0], text, calls


def first_and_rest(group):
    """The first row of a group as a text, and the rows after it."""
    (_, first), *rest = group.rows
    if not rest:
        raise NoRow(f"{group.title}: a text alone")
    return text_of(first), rest


def by_size(group, rows, size):
    """The rows of a group in lots of a size."""
    if len(rows) % size:
        raise NoRow(f"{group.title}: {len(rows)} rows are no lots of {size}")
    for i in range(0, len(rows), size):
        yield rows[i][0], *(row for _, row in rows[i : i + size])


def name_of(group, number_of_row, row):
    """The name of a case."""
    return f"{group.where}:{number_of_row}: {group.title}: {row}"


def is_error(wanted):
    """Whether an answer is the error of a policy."""
    ends = (" is reserved", " is defined twice")
    begins = ("OpenContinuation", "TooLarge", "Nul ", "LineTooLong ", "too many ")
    return wanted.endswith(ends) or wanted.startswith(begins) or wanted[:1].isdigit()
