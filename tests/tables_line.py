"""Asks the program `cases` the tables of `tables/text` and `tables/line`.

The words of a group's head say what is asked of each of its cases:

    lines            one row is the case and its answer: the text, with `|` between its logical lines
    fault            the error of a text: its name, with a `^` below its byte if it has one; or `none`
    words, commands,
    parameters       the tokens of a line in this mode, marked below it
    mode             the mode of a line
    value            what a word stands for
    name, reserved   whether words can name an alias, and whether they are reserved: below each word is `y` or `n`
    whole            whether a text is one logical line
    argument         whether an argument is whole
    blanks           how many blanks begin a text
    end              how many bytes the line end has that begins a text
    lf               whether a text ends in LF
    limits           the greatest lengths of a line and of a text
    parse, places    what a line says, and the same with the place of each member and definition; or its error
    aliases          the aliases that a line mentions
    frames NAME      no case: two rows are a line and its answer, both with a hole `~`

Other rows come two by two, a case and its answer. In `parse in NAME` a case is a piece of a line, and its answer is a
piece of that of the line. Each frame of that name gets both in its holes. An error has its `^` below a byte of the
piece.

Below the first byte of a token is its kind: `:` Punct, `I` Id, `W` Word, `Q` Quoted, `C` Comment, `P` Path, `A` Arg,
`D` Digest, `N` Name, `V` Value, `B` Bad. Below each further byte of it is `-`. Two dots leave open what comes next.
Marks and a `^` count bytes: a sign that is not ASCII has several.
"""

import re
from functools import partial

import said
from nodes import drawn_aliases, drawn_node, drawn_syntax, held_in
from tables import Case, NoRow, frame, run_tables, text_of, unrolled

SUBJECT = b"l"

TOKEN = re.compile(r"Token \{ kind: (\w+), start: (\d+), stop: (\d+) \}")
ERROR = re.compile(r" *\^ [A-Z][A-Za-z]+")
MARKS = {
    "Punct": ":",
    "Id": "I",
    "Word": "W",
    "Quoted": "Q",
    "Comment": "C",
    "Path": "P",
    "Arg": "A",
    "Digest": "D",
    "Name": "N",
    "Value": "V",
    "Bad": "B",
}


def drawn_tokens(line):
    """The marks of the tokens, which are not empty and come in their order."""
    marks, at = [], 0
    found = TOKEN.findall(line)
    if line != "Ok([" + ", ".join("Token { kind: %s, start: %s, stop: %s }" % token for token in found) + "])":
        return line
    for kind, start, stop in found:
        start, stop = int(start), int(stop)
        if not at <= start < stop:
            return line
        marks += [" " * (start - at), MARKS[kind], "-" * (stop - start - 1)]
        at = stop
    return "".join(marks)


def drawn_lines(line):
    """The lines with a `|` between them, if there are as many as the program counts and none after the last."""
    read = said.read("(" + re.sub(r"\) (?=Some|\()", "), ", line) + ")")
    if not isinstance(read, list) or not isinstance(read[0], list):
        return line
    (count, empty), *lines, past = read
    if count != len(lines) or empty != (count == 0) or past != ["None", "None"]:
        return line
    return b"|".join(bytes(held_in("Some", text)) for text in lines)


def drawn_fault(line, text):
    """The error of a text, or `none` if its lines are the whole text."""
    if line.startswith("("):
        lines = drawn_lines(line)
        return "none" if isinstance(lines, bytes) and lines.replace(b"|", b"") == text else line
    read = said.read(line)
    if isinstance(read, dict) and read[""] == "Nul":
        return " " * read["at"] + "^ Nul"
    if isinstance(read, dict) and read[""] == "LineTooLong":
        return f"LineTooLong {read['line']}"
    return line


def drawn_bytes(line):
    """Bytes."""
    return bytes(said.read(line))


def drawn_word(line):
    """The name of a variant, in lower case."""
    return line.lower()


def drawn_truth(line):
    """A truth value."""
    return {"true": "y", "false": "n"}[line]


def drawn_number(line):
    """A number."""
    return str(int(line))


def drawn_end(line):
    """How many bytes a line end has, if that agrees with whether there is one."""
    size, begins = said.read(line)
    return str(size) if begins == (size > 0) else line


def drawn_limits(line):
    """Two numbers."""
    return " ".join(str(number) for number in said.read(line))


def drawn_line(line):
    """What a line says, or its error."""
    return drawn_syntax(line) or drawn_node(held_in("Ok", said.read(line)), places=False)


def drawn_places(line):
    """What a line says, with places, or its error."""
    return drawn_syntax(line) or drawn_node(held_in("Ok", said.read(line)), places=True)


# What may be asked: the byte of it, how an answer is drawn, and what a row says of it.
ASKS = {
    "fault": (b"l", drawn_fault, unrolled),
    "words": (b"w", drawn_tokens, unrolled),
    "commands": (b"c", drawn_tokens, unrolled),
    "parameters": (b"p", drawn_tokens, unrolled),
    "mode": (b"m", drawn_word, unrolled),
    "value": (b"v", drawn_bytes, text_of),
    "name": (b"n", drawn_truth, unrolled),
    "reserved": (b"r", drawn_truth, unrolled),
    "whole": (b"i", drawn_truth, unrolled),
    "argument": (b"a", drawn_truth, unrolled),
    "blanks": (b"b", drawn_number, unrolled),
    "end": (b"e", drawn_end, unrolled),
    "lf": (b"f", drawn_truth, unrolled),
    "limits": (b"s", drawn_limits, unrolled),
    "parse": (b"P", drawn_line, unrolled),
    "places": (b"P", drawn_places, unrolled),
    "aliases": (b"O", drawn_aliases, unrolled),
}


def case_of(name, ask, row, answer):
    """The case of two rows."""
    asked, drawn, wanted_of = ASKS[ask]
    text, wanted = text_of(row), wanted_of(answer)
    if wanted == "⟨⟩":
        wanted = ""
    if drawn is drawn_fault:
        drawn = partial(drawn_fault, text=text)
    if drawn is drawn_tokens and wanted.endswith(".."):
        head = wanted[:-2]

        def begun(line):
            """The marks up to what is left open."""
            marks = drawn_tokens(line)
            return wanted if marks.startswith(head) and marks[len(head) : len(head) + 1] != "-" else marks

        return Case(name, frame(SUBJECT, asked, text), wanted, begun)
    return Case(name, frame(SUBJECT, asked, text), wanted, drawn)


def filled(line, answer, piece, said_of_piece):
    """A frame and its answer with a piece in their holes."""
    wanted = said_of_piece
    if ERROR.fullmatch(wanted):
        wanted = " " * len(text_of(line[: line.index("~")])) + wanted
    else:
        wanted = answer.replace("~", wanted)
    return line.replace("~", piece), wanted


def words_of(row):
    """The words of a row, and where each begins."""
    return [(found.start(), found[0]) for found in re.finditer(r"\S+", row)]


def cases_of_words(group):
    """The cases of a group whose rows have several words, each with its answer below its first byte."""
    for number, row, answer in group.pairs():
        words, answers = words_of(row), words_of(answer)
        if [at for at, _ in words] != [at for at, _ in answers]:
            raise NoRow(f"row {number}: no answer below each word")
        for (_, word), (_, said_of_word) in zip(words, answers):
            for ask in group.words:
                name = f"{group.where}:{number}: {group.title}: {ask}: {word}"
                yield case_of(name, ask, word, said_of_word)


def cases_of_group(group, frames):
    """The cases of a group. `frames` has those of the groups before, by their names."""
    first, *rest = group.words
    if first == "frames" and len(rest) == 1:
        frames[rest[0]] = [(line, answer) for _, line, answer in group.pairs()]
        for line, answer in frames[rest[0]]:
            if "~" not in line or "~" not in answer:
                raise NoRow(f"a frame without a hole: {line}")
        return
    if group.words == ("lines",):
        for number, row in group.rows:
            name = f"{group.where}:{number}: {group.title}: {row}"
            yield Case(name, frame(SUBJECT, b"l", text_of(row.replace("|", ""))), text_of(row), drawn_lines)
        return
    if len(group.words) == 3 and rest[0] == "in" and first in ASKS:
        if rest[1] not in frames:
            raise NoRow(f"{group.title}: no frames {rest[1]}")
        for number, piece, said_of_piece in group.pairs():
            for line, answer in frames[rest[1]]:
                row, wanted = filled(line, answer, piece, said_of_piece)
                yield case_of(f"{group.where}:{number}: {group.title}: {row}", first, row, wanted)
        return
    if set(group.words) <= {"name", "reserved"}:
        yield from cases_of_words(group)
        return
    if not set(group.words) <= set(ASKS):
        raise NoRow(f"{' '.join(group.words)}: {group.title}: this is not known")
    for number, row, answer in group.pairs():
        for ask in group.words:
            yield case_of(f"{group.where}:{number}: {group.title}: {ask}: {row}", ask, row, answer)


def cases_of(groups):
    """The cases of a table."""
    frames = {}
    for group in groups:
        yield from cases_of_group(group, frames)
    unused = set(frames) - {group.words[2] for group in groups if len(group.words) == 3}
    if unused:
        raise NoRow(f"no group asks the frames {', '.join(sorted(unused))}")


def run_all(_program, tally):
    """Asks all tables of texts and of lines."""
    run_tables("tables_line", {"text": cases_of, "line": cases_of}, tally)
