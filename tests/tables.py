"""Reads tables of cases, asks a program the cases, and compares its answers with those of the tables.

A table is a file `tables/FOLDER/NAME.table`. The text before its first group says what it shows. A row
`== WORDS: TITLE` begins a group: its words say what is asked of each case, and its title what the cases show. Empty
rows are passed over.

A row is no escaped text, because policies are full of backslashes and because marks must come below their bytes. A
byte that cannot be seen has a picture: `␊` LF, `␍` CR, `␉` tab, `␀` NUL, `␠` a space. `⟨ff⟩` is a byte in hexadecimal
digits, `⟨⟩` is no byte, and `⟨65535×#⟩` is a repeated text, in which others may be repeated too. In a repeated text
`{n}` is the number of the time, from 1, and `{3n-2}` a number counted from it.

A frame is a byte that names the subject, and a call. A call is a byte that says what is asked, the length of its body
in eight bytes, and the body. The body holds a text, or parts: the length of each in eight bytes, and the part.
"""

import glob
import os
import re
import struct
import subprocess
import unicodedata
from dataclasses import dataclass

from tally import difference

TOP = os.path.dirname(os.path.dirname(os.path.abspath(__file__)))
TABLES = os.path.join(TOP, "tests", "tables")
SECONDS = 120

# The crate of the program that is asked.
PROGRAM = "cases"

# The folders of tables, and the part that reads each.
FOLDERS = {
    "text": "tables_line",
    "line": "tables_line",
    "hits": "tables_match",
    "match": "tables_match",
    "list": "tables_list",
    "tree": "tables_edit",
    "check": "tables_edit",
    "edit": "tables_edit",
    "files": "tables_files",
    "edited": "tables_edited",
}

PICTURES = {"␊": b"\n", "␍": b"\r", "␉": b"\t", "␀": b"\0", "␠": b" "}
DRAWN = {bytes_[0]: picture for picture, bytes_ in PICTURES.items()}
NUMBER = re.compile(r"\{(\d*)n([+-]\d+)?\}")
SIGN = re.compile(r"⟨(\d+)×|⟨((?:[0-9a-f]{2})*)⟩|(⟩)|([^⟨⟩]+)|(⟨)")


class NoRow(Exception):
    """A row that has no form that a row may have."""


def repeated(text, count):
    """The text so many times, with the number of the time where it is wanted."""
    pieces = NUMBER.split(text)
    if len(pieces) == 1:
        return text * count
    form = "".join(piece.replace("%", "%%") if i % 3 == 0 else "%d" * (i % 3 == 1) for i, piece in enumerate(pieces))
    factors = [(int(factor or 1), int(more or 0)) for factor, more in zip(pieces[1::3], pieces[2::3])]
    return "".join(form % tuple(factor * n + more for factor, more in factors) for n in range(1, count + 1))


def unrolled(row):
    """The row with its repeated texts written out."""
    open_texts = [("", [])]
    for count, digits, end, sign, stray in SIGN.findall(row):
        if count:
            open_texts.append((count, []))
        elif sign:
            open_texts[-1][1].append(sign)
        elif end and len(open_texts) > 1:
            count, text = open_texts.pop()
            open_texts[-1][1].append(repeated("".join(text), int(count)))
        elif end or stray:
            raise NoRow(f"a stray {end or stray}")
        else:
            open_texts[-1][1].append(f"⟨{digits}⟩")
    if len(open_texts) > 1:
        raise NoRow("a repeated text without its end")
    return "".join(open_texts[0][1])


def text_of(row):
    """The bytes that a row stands for."""
    row = unrolled(row)
    for picture, byte in PICTURES.items():
        row = row.replace(picture, byte.decode())
    pieces = re.split(r"⟨([0-9a-f]*)⟩", row)
    return b"".join(bytes.fromhex(piece) if i % 2 else piece.encode() for i, piece in enumerate(pieces))


def drawn_text(data, blank="␠"):
    """Bytes as a row has them, with a picture for each byte that cannot be seen. A space becomes `blank`."""
    drawn = []
    for byte in data:
        if byte == 32:
            drawn.append(blank)
        elif 33 <= byte <= 126:
            drawn.append(chr(byte))
        else:
            drawn.append(DRAWN.get(byte) or f"⟨{byte:02x}⟩")
    return "".join(drawn)


@dataclass(frozen=True)
class Group:
    """A group of a table: its place, the words of its head, its title, and its rows with their numbers."""

    where: str
    words: tuple
    title: str
    rows: tuple

    def error(self, number, what):
        """The error of one of its rows."""
        return NoRow(f"row {number}: {what}")

    def pairs(self):
        """Its rows two by two, with the number of the first."""
        for i in range(0, len(self.rows), 2):
            number, row = self.rows[i]
            if i + 1 == len(self.rows):
                raise self.error(number, "a case without an answer")
            yield number, row, self.rows[i + 1][1]


@dataclass(frozen=True)
class Case:
    """A case: its name, its frame, its wanted answer, and a function that draws the program's line in the same form."""

    name: str
    frame: bytes
    wanted: object
    drawn: object


def part(data):
    """A part of a body."""
    return struct.pack(">Q", len(data)) + data


def joined(*parts):
    """Parts, one after another."""
    return b"".join(map(part, parts))


def call(asked, body=b""):
    """A call. `asked` is one byte."""
    return asked + part(body)


def frame(subject, asked, body):
    """A case. `subject` is one byte."""
    return subject + call(asked, body)


def check_row(row):
    """Refuses a row that hides something: blanks at its end, or a sign that cannot be seen."""
    if row != row.rstrip():
        raise NoRow("blanks at its end: write ␠")
    for sign in row:
        if unicodedata.category(sign) in ("Cc", "Cf", "Zl", "Zp"):
            raise NoRow(f"the sign {sign!r}: write a picture")


def groups_of(path):
    """The groups of a table."""
    with open(path, encoding="utf-8", newline="\n") as table:
        rows = table.read().split("\n")
    groups, head, held = [], None, []

    def close():
        if head is None:
            return
        if not held:
            raise NoRow(f"row {head[0]}: a group without a case")
        words, colon, title = head[1].partition(": ")
        if not colon or not words.split() or not title.strip():
            raise NoRow(f"row {head[0]}: a head is `== WORDS: TITLE`")
        groups.append(Group(os.path.relpath(path, TOP), tuple(words.split()), title, tuple(held)))

    for number, row in enumerate(rows, 1):
        try:
            check_row(row)
        except NoRow as error:
            raise NoRow(f"row {number}: {error}") from None
        if row.startswith("== "):
            close()
            head, held = (number, row[3:]), []
        elif row.startswith("=="):
            raise NoRow(f"row {number}: a head is `== WORDS: TITLE`")
        elif row and head is not None:
            held.append((number, row))
    close()
    if not groups:
        raise NoRow("a table without a group")
    return groups


def programs():
    """The builds of the program: that of `rt run`, and that of Rattle's own compiler if it was made."""
    built = os.path.join(TOP, "crates", PROGRAM, "out", PROGRAM)
    other = built + ".by-rattle"
    return [built, other] if os.path.exists(other) else [built]


def asked(program, frames):
    """The lines that a program answers to these frames, and the rest if its last line has no end."""
    done = subprocess.run(
        [program], input=b"".join(frames), stdout=subprocess.PIPE, env={}, timeout=SECONDS, check=True
    )
    *lines, rest = done.stdout.decode().split("\n")
    return lines + [rest + " without LF"] if rest else lines


def compare(program, cases, tally):
    """Asks a program all the cases of a table, and notes each."""
    lines = asked(program, [case.frame for case in cases])
    if len(lines) > len(cases):
        tally.note(f"{cases[0].name}: answers", [f"{len(lines) - len(cases)} too many"])
    for i, case in enumerate(cases):
        if i >= len(lines):
            tally.note(case.name, ["no answer"])
            continue
        try:
            came = case.drawn(lines[i])
        except (ArithmeticError, AttributeError, LookupError, TypeError, ValueError):
            came = lines[i]  # no such answer can be drawn
        tally.note(case.name, difference("answer", case.wanted, came))


def run_table(path, programs, cases_of, tally):
    """Asks each program the cases of one table."""
    where = os.path.relpath(path, TOP)
    try:
        cases = list(cases_of(groups_of(path)))
        if not cases:
            raise NoRow("a table without a case")
        for program in programs:
            compare(program, cases, tally)
    except NoRow as error:
        tally.note(where, [str(error)])
    except (OSError, subprocess.SubprocessError, UnicodeError) as error:
        tally.note(where, [f"{type(error).__name__}: {error}"])


def check_folders(tally):
    """Notes each file below `tables` that no part would read."""
    for path, _, names in os.walk(TABLES):
        folder = os.path.relpath(path, TABLES)
        for name in sorted(names):
            if not (folder in FOLDERS and re.fullmatch(r"[^.].*\.table", name)):
                tally.note(os.path.relpath(os.path.join(path, name), TOP), ["no part reads this file"])


def run_tables(name, readers, tally):
    """Asks the program the tables of the folders of the part of this name.

    `readers` has for each folder a function that makes cases of the groups of a table.
    """
    built = programs()
    if not os.access(built[0], os.X_OK):
        tally.note(name, [f"no program: run `rt run < /dev/null` in crates/{PROGRAM}"])
        return
    check_folders(tally)
    wanted = {folder for folder, reader in FOLDERS.items() if reader == name}
    if wanted != set(readers):
        tally.note(name, [f"the folders {sorted(wanted)} are read by {sorted(readers)}"])
    for folder in sorted(readers):
        paths = sorted(glob.glob(os.path.join(TABLES, folder, "*.table")))
        if not paths:
            tally.note(os.path.join("tests", "tables", folder), ["no table"])
        for path in paths:
            run_table(path, built, readers[folder], tally)
