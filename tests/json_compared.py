"""What is wrong with a JSON document of `check` or `show`, beside what the program prints without `--json`.

`check_text`, `all_text` and `show_text` spell a document as the program prints the report or the lines. A place of a document
has to be inside its file: its bytes are those of the line, of the name or of the token that it is about. The advice and the places
of an error are those of `--explain`.
"""

import functools
import itertools
import json
import os
import re

from program import NAME
from tally import difference

TOP = os.path.dirname(os.path.dirname(os.path.abspath(__file__)))
SCHEMA = os.path.join(TOP, "docs", "json.schema.json")
HELP = b"  = help: "
EXCERPT = re.compile(rb"^ *--> (.*):(\d+):(\d+)$", re.M)
PRINTED_PLACE = re.compile(rb"(.*):(\d+):(\d+): ", re.S)
# The command of a line on commands with too many later rows. A document lacks it.
NOT_DECIDED = re.compile(rb"(?<=: not decided: ).*(?=; commands with more than 64 later rows: \d+$)", re.M)
# A blank at the end that no backslash makes a part of a word.
BLANK_END = re.compile(rb"(?<!\\)[ \t\n]\Z")

# A longer document is not validated, since that takes minutes.
MOST_VALIDATED = 300_000

# The causes whose place is a name.
OF_NAMES = ("Reserved", "Duplicate", "TooMany")


def bytes_of(text):
    """Returns the bytes of a text of a document."""
    return bytes.fromhex(text["bytes"]) if isinstance(text, dict) else text.encode()


@functools.cache
def validator():
    """Returns what validates a document by docs/json.schema.json; None if the library is missing."""
    try:
        from jsonschema import Draft202012Validator
    except ImportError:
        return None
    with open(SCHEMA, encoding="utf-8") as file:
        schema = json.load(file)
    Draft202012Validator.check_schema(schema)
    return Draft202012Validator(schema)


def spelled(document):
    """Returns a document as it is printed."""
    return json.dumps(document, sort_keys=True, ensure_ascii=False, separators=(",", ":")).encode() + b"\n"


def document_of(output):
    """Returns the document that an output is, and what is wrong with its form."""
    try:
        document = json.loads(output)
        text = spelled(document)
    except ValueError as error:
        return {}, [f"{output!r} is no JSON: {error}"]
    problems = difference("compact text with sorted keys", text, output)
    if validator() is not None and len(output) <= MOST_VALIDATED:
        problems += [f"{'/'.join(map(str, error.path))}: {error.message}" for error in validator().iter_errors(document)]
    return document, problems


def place_text(place):
    """Returns a place as an error begins with it."""
    return b"%s:%d:%d: " % (bytes_of(place["file"]), place["line"], place["column"])


def spot_text(place):
    """Returns a place as it stands within a line."""
    return place_text(place).removesuffix(b": ")


def notes_text(document, word):
    """Returns the lines of one sort of notes."""
    return b"".join(
        b"%s%s %s %s\n" % (place_text(note["place"]), word.encode(), note["kind"].encode(), bytes_of(note["name"]))
        for note in document[word]
    )


def errors_text(document):
    """Returns the lines of the errors."""
    return b"".join(bytes_of(error["text"]) + b"\n" for error in document["errors"])


def without_command(text):
    """Returns what `check` prints without the command that a document lacks."""
    return NOT_DECIDED.sub(b"", text)


def overruled_line(one):
    """Returns the line on a command that never decides."""
    return place_text(one["place"]) + b"%s %s: %s decides\n" % (one["kind"].encode(), bytes_of(one["command"]), spot_text(one["decider"]))


def overruled_text(document):
    """Returns the lines on commands that never decide."""
    text, rest = b"".join(map(overruled_line, document["overruled"] or ())), document["not_decided"]
    if rest is None:
        return text
    return text + place_text(rest["first"]) + b"not decided: ; commands with more than 64 later rows: %d\n" % rest["count"]


def warning_line(one):
    """Returns the line on a warning of lint."""
    return place_text(one["place"]) + b"warning: %s: %s: %s\n" % tuple(bytes_of(one[key]) for key in ("rule", "text", "reason"))


def check_text(document):
    """Returns what `check` prints for its document."""
    report = errors_text(document)
    if document["read"]:
        report = b"".join(notes_text(document, word) for word in ("undefined", "cyclic", "unused"))
        has_faults = not document["passed"] and (document["undefined"] or document["cyclic"])
        report += bytes_of(document["policy"]) + (b": faults found\n" if has_faults else b": parsed OK\n")
    unread = document["not_read"] or ()
    report += b"".join(b"%s: not read: %s\n" % (bytes_of(one["name"]), one["reason"].encode()) for one in unread)
    return report + overruled_text(document) + b"".join(map(warning_line, document["lint"] or ()))


def lines_of_file(document, name):
    """Returns the lines of a document that are of the file of this name."""
    return [line for line in document["lines"] if line["place"]["file"] == name]


def definition_text(line, one):
    """Returns what `show` prints for a definition of a line."""
    return b"%d.%d %s %s %d\n" % (line["number"], one["number"], one["kind"].encode(), bytes_of(one["name"]), one["members"])


def show_text(document):
    """Returns what `show` prints for its document."""
    rows = []
    for file in document["files"]:
        if len(document["files"]) > 1:
            rows.append(b"file %d %s\n" % (file["number"], bytes_of(file["name"])))
        for line in lines_of_file(document, file["name"]):
            rows.append(b"%d %s %d\n" % (line["number"], line["kind"].encode(), line["place"]["line"]))
            rows += [definition_text(line, one) for one in line["definitions"]]
    return b"".join(rows)


@functools.lru_cache(maxsize=8)
def row_offsets(text):
    """Returns the numbers of the bytes with which the rows of a text begin, and that behind the last row."""
    return [0, *itertools.accumulate(len(row) + 1 for row in text.split(b"\n"))]


def offset_of(text, place):
    """Returns the number of the byte of a text at a line and a column; None if there is none."""
    starts, line = row_offsets(text), place["line"]
    if line >= len(starts) or starts[line - 1] + place["column"] > starts[line]:
        return None
    return starts[line - 1] + place["column"] - 1


def key_of(name):
    """Returns the path from the root of the system to the file of this name. By it a text is found: `/a`, `a` and `b/../a` name one file."""
    return os.path.normpath(name).lstrip(b"/")


def bytes_at(files, place):
    """Returns the bytes of the files, by key, at a place; None if that is not in its file."""
    text = files.get(key_of(bytes_of(place["file"])))
    if text is None or place["line"] is None or place["end"] is None:
        return None
    start, end = offset_of(text, place), offset_of(text, place["end"])
    return None if start is None or end is None or start > end else text[start:end]


def name_problems(files, what, name, place):
    """What is wrong with the place of a name."""
    came = bytes_at(files, place)
    return [] if came == name else [f"{what}: the place of {name!r} has {came!r}"]


def note_problems(files, document):
    """What is wrong with the places of the notes of `check`."""
    problems = []
    for word in ("undefined", "cyclic", "unused"):
        for note in document[word]:
            problems += name_problems(files, word, bytes_of(note["name"]), note["place"])
    return problems


def line_problems(files, document):
    """What is wrong with the texts and the places of the lines of `show`."""
    problems = []
    for file in document["files"]:
        whole = b"".join(bytes_of(line["text"]) for line in lines_of_file(document, file["name"]))
        problems += difference(f"text of {file['name']}", files.get(key_of(bytes_of(file["name"]))), whole)
    for line in document["lines"]:
        text = bytes_of(line["text"])
        problems += difference("line", text, bytes_at(files, line["place"]))
        for one in line["definitions"]:
            came = bytes_at(files, one["place"]) or b""
            begins = came.startswith(bytes_of(one["name"])) and b"=" in came and not BLANK_END.search(came)
            problems += [] if begins and came in text else [f"definition {one['name']} has {came!r}"]
    return problems


def error_problems(files, error):
    """What is wrong with the place of an error: it is that of its text, and that of the name which it is about."""
    place, text, problems = error["place"], bytes_of(error["text"]), []
    if place is None:
        return [f"{text!r} has no place"] if error["kind"] == "InFile" else []
    printed = PRINTED_PLACE.match(text)
    if printed and error["kind"] == "InFile":
        problems += difference("place", printed[0], place_text(place))
    if error["kind"] == "InFile" and place["end"] is None:
        problems += [] if error["cause"] in ("TooLarge", "LineTooLong") else [f"{text!r} has a place without its end"]
    if place["end"] is not None and bytes_at(files, place) is None:
        problems.append(f"{text!r} has a place outside its file: {place}")
    if error["cause"] in OF_NAMES:
        name = bytes_at(files, place) if error["name"] is None else bytes_of(error["name"])
        problems += name_problems(files, error["cause"], name, place)
        if error["first"] is not None:
            problems += name_problems(files, "first", name, error["first"])
    if (error["first"] is None) != (error["cause"] not in ("Duplicate", "Twice")):
        problems += [] if error["cause"] == "Twice" else [f"{text!r} has the first place {error['first']}"]
    if (error["expected"] is None) != (b": syntax error: " not in text):
        problems.append(f"{text!r} expects {error['expected']}")
    if error["cause"].encode() not in text and error["cause"] not in (*OF_NAMES, "LineTooLong", "Nul", "NotLoaded", "Twice", "TooDeep"):
        problems.append(f"{text!r} has the cause {error['cause']}")
    return problems


def hint_problems(error, explanation):
    """What is wrong with the advice of an error, and with its places, beside its explanation."""
    rows = explanation.splitlines(keepends=False)
    advice = [row[row.index(b"= help: ") + len(b"= help: ") :] for row in rows[-1:] if row.lstrip(b" ").startswith(b"= help: ")]
    hint = error["hint"]
    problems = difference("advice", advice, [bytes_of(hint["text"])] if hint else [])
    shown = [(match[1], int(match[2]), int(match[3])) for match in EXCERPT.finditer(explanation)]
    if error["expected"] is not None:
        place = (hint or error)["place"]
        problems += difference("place of the explanation", shown[:1], [(bytes_of(place["file"]), place["line"], place["column"])])
    if error["cause"] in OF_NAMES and error["place"]["file"] and len(shown) == 2 and error["first"]:
        told = sorted((bytes_of(place["file"]), place["line"], place["column"]) for place in (error["place"], error["first"]))
        problems += difference("both places", sorted(shown), told)
    return problems


def stderr_problems(plain, came):
    """What is wrong with standard error: it has the first line of the run without `--json`."""
    first = plain.stderr.splitlines(keepends=True)[:1] if plain.stderr.startswith(NAME) else []
    return difference("stderr", b"".join(first), came.stderr)
