r"""The tables of the folder tests/rows: one case of the built program a row.

A table is a text file NAME.rows, in printable ASCII. It has these lines:

    # TEXT              a comment
    form = FORM         what the rows after it hold, one of FORMS
    policy = POLICY     the policy of the rows after it, whose form names none
    script = SCRIPT     their script, likewise
    words = WORDS       the words of `convert` before FILE, and a filter comes after them; or the words of `list` before
                        those of a row
    asked = WORDS       the words of `list` after these
    passwd = TEXT       the files of users and groups that `list` reads
    group = TEXT
    NAME: CELLS         a row, whose cells are those of the form

A cell of files has a piece `NAME: TEXT` for each, with ` | ` between two. They are handed in as a bundle.
A name is of small letters, digits and `_`, and no two cases have the same one. A row may go on in lines that are
indented and begin with `%%` or `=>`; its first cell may begin in a line of its own after `NAME:`.

Words have one blank between two, so that an empty word has a blank before and after it. Any other cell is the exact
text, without blanks at its ends. Both have these escapes:

    \n \r \t \0 \\      LF, CR, tab, NUL, a backslash
    \xHH                the byte with these two hexadecimal digits: \x20 is a blank at an end
    \{COUNT*TEXT}       a text so many times; it may hold the other escapes, and has no `}`
"""

import os
import re
from dataclasses import dataclass, field, replace

import asking
import cases
from bundles import accepted_in_files, joined, pruned_in_files, refused_in_files
from cases import Case, NoRow
from program import Wanted

FOLDER = os.path.join(os.path.dirname(os.path.abspath(__file__)), "rows")
ESCAPES = {"n": b"\n", "r": b"\r", "t": b"\t", "0": b"\0", "\\": b"\\"}

SETTING = re.compile(r"(form|policy|script|words|asked|passwd|group) =(?: (.*))?")
ROW = re.compile(r"([a-z0-9_]+):(?: +(.*))?")
PIECE = re.compile(r"\\\{([1-9][0-9]*)\*([^}]+)\}|\\x([0-9a-f]{2})|\\(.)|([^\\])")


# ---- cells -------------------------------------------------------------------


def text_of(cell):
    """The bytes that a cell spells."""
    text, place = b"", 0
    while place < len(cell):
        piece = PIECE.match(cell, place)
        if piece is None:
            raise NoRow(f"unknown escape at {cell[place:]!r}")
        count, repeated, number, letter, plain = piece.groups()
        if repeated is not None:
            text += int(count) * text_of(repeated)
        elif number is not None:
            text += bytes.fromhex(number)
        elif plain is not None:
            text += plain.encode()
        elif letter in ESCAPES:
            text += ESCAPES[letter]
        else:
            raise NoRow(f"unknown escape \\{letter}")
        place = piece.end()
    return text


def words_of(cell):
    """The words that a cell spells."""
    return tuple(text_of(word) for word in cell.split(" ")) if cell else ()


def given_of(name, cell):
    """What a cell or a setting of this name hands in: words or a text."""
    return words_of(cell) if name in ("words", "asked", "counts") else text_of(cell)


def split_at(sign, text):
    """The pieces of the text between the signs that have a blank or an end on both sides."""
    return re.split(rf"(?:^|(?<= )){re.escape(sign)}(?= |$)", text)


def cells_of(text, form):
    """The cells of a row of this form: those before `=>` and those after it."""
    sides = split_at("=>", text)
    if len(sides) != 2:
        raise NoRow("a row has one `=>`, and its answer after it")
    given = sides[:1] if form.given == ("input",) else split_at("%%", sides[0])
    answer = split_at("%%", sides[1])
    for cells, wanted, where in ((given, len(form.given), "before"), (answer, form.answer, "after")):
        if len(cells) != wanted:
            raise NoRow(f"{len(cells)} cells {where} `=>`, the form has {wanted}")
    texts = {name: given_of(name, cell.strip(" ")) for name, cell in zip(form.given, given)}
    return texts, [text_of(cell.strip(" ")) for cell in answer]


# ---- forms -------------------------------------------------------------------


def payload(line):
    """The lines of a script that spell a line."""
    pieces = line.split(b"\n")
    last = pieces.pop()
    return b"".join(b"|" + piece + b"\n" for piece in pieces) + (b">" + last + b"\n" if last else b"")


def refused_input(given, answer):
    """An input of `edit`, and its error."""
    return Case("", (), given["input"], cases.error_of(answer[0]))


def refused(given, answer):
    """A script, a policy and the error."""
    return Case("", (), joined(given["script"], given["policy"]), cases.error_of(answer[0]))


def pruned(given, answer):
    """A script, a policy, the undo script, which leads back to the policy alone, and the edited policy."""
    return Case("", (), joined(given["script"], given["policy"]), Wanted(joined(*answer)))


def undone(given, answer):
    """The same, with the words of `edit` that say how many edits to undo and redo."""
    return replace(pruned(given, answer), words=(b"edit", *given["counts"]))


def undone_refused(given, answer):
    """The words of `edit` with counts, a script, a policy and the error."""
    return replace(refused(given, answer), words=(b"edit", *given["counts"]))


def accepted(given, answer):
    """The same, but the undo script leads back to the script too. Only edits that undo `prune` do not."""
    return replace(pruned(given, answer), back=True)


def without_first(policy, line):
    """The script that undoes `delete 1` of a policy with this first line, and what it leaves."""
    if not line or not policy.startswith(line):
        raise NoRow("the policy does not begin with this line")
    return b"insert 1\n" + payload(line), policy[len(line) :]


def first_line(given, answer):
    """A policy and its first logical line: `delete 1` takes just this line, and `insert 1` of it is the undo script."""
    undo, rest = without_first(given["policy"], answer[0])
    return accepted({"script": b"delete 1\n", "policy": given["policy"]}, (undo, rest))


def first_including_line(given, answer):
    """The same, of a policy of which this line includes an empty file."""
    undo, rest = without_first(given["policy"], answer[0])
    files, edited = (b"policy: %s | %s:" % (text, given["included"]) for text in (given["policy"], rest))
    return accepted_in_files({"script": b"delete 1\n", "files": files}, (undo, edited))


def converted(given, wanted):
    """`convert` of a policy on standard input, with the words of the setting and then the filter, if there is one."""
    filters = [given["filter"]] if "filter" in given else []
    return Case("", ("convert", *given["words"], *filters, "-"), given["policy"], wanted)


def printed(given, answer):
    """A policy and what it is converted to."""
    return converted(given, Wanted(answer[0]))


def not_printed(given, answer):
    """A policy that is not converted, and the error."""
    return converted(given, cases.error_of(answer[0]))


@dataclass(frozen=True)
class Form:
    """What a row holds before and after `=>`, the case that it makes, and the settings that it needs besides."""

    given: tuple
    answer: int
    make: object
    shared: tuple = ()


FORMS = {
    "input => error": Form(("input",), 1, refused_input),
    "script => error": Form(("script",), 1, refused, ("policy",)),
    "policy => error": Form(("policy",), 1, refused, ("script",)),
    "script %% policy => error": Form(("script", "policy"), 1, refused),
    "script %% policy => undo %% edited": Form(("script", "policy"), 2, accepted),
    "pruning script %% policy => undo %% edited": Form(("script", "policy"), 2, pruned),
    "counts %% script %% policy => undo %% edited": Form(("counts", "script", "policy"), 2, undone),
    "counts %% script %% policy => error": Form(("counts", "script", "policy"), 1, undone_refused),
    "script %% files => error": Form(("script", "files"), 1, refused_in_files),
    "script %% files => undo %% edited": Form(("script", "files"), 2, accepted_in_files),
    "pruning script %% files => undo %% edited": Form(("script", "files"), 2, pruned_in_files),
    "counts %% script %% files => undo %% edited": Form(("counts", "script", "files"), 2, pruned_in_files),
    "policy => first line": Form(("policy",), 1, first_line),
    "included %% policy => first line": Form(("included", "policy"), 1, first_including_line),
    "policy => printed": Form(("policy",), 1, printed, ("words",)),
    "policy => not printed": Form(("policy",), 1, not_printed, ("words",)),
    "filter %% policy => printed": Form(("filter", "policy"), 1, printed, ("words",)),
    "filter %% policy => not printed": Form(("filter", "policy"), 1, not_printed, ("words",)),
}
for names in asking.GIVEN:
    for outcome, make in asking.OUTCOMES.items():
        shared = tuple(name for name in asking.NAMES if name not in names)
        FORMS[f"{' %% '.join(names)} => {outcome}"] = Form(names, 1, make, shared)


# ---- tables ------------------------------------------------------------------


@dataclass
class Table:
    """A table while it is read."""

    name: str
    form: object = None
    shared: dict = field(default_factory=dict)
    unused: set = field(default_factory=set)
    rows: list = field(default_factory=list)

    def set(self, key, value):
        """Reads a setting."""
        if key in self.unused:
            raise NoRow(f"no row uses the `{key}` before")
        if key == "form" and value not in FORMS:
            raise NoRow(f"unknown form {value!r}")
        self.unused.add(key)
        if key == "form":
            self.form = value
        else:
            self.shared[key] = given_of(key, value)

    def settings(self, form):
        """What the settings hand in that the rows of a form need."""
        for name in form.shared:
            if name not in self.shared:
                raise NoRow(f"no `{name} =` comes before this row")
        self.unused.difference_update(form.shared)
        return {name: self.shared[name] for name in form.shared}

    def add(self, name, text):
        """Reads a row."""
        if self.form is None:
            raise NoRow("no `form =` comes before this row")
        self.unused.discard("form")
        form = FORMS[self.form]
        given, answer = cells_of(text, form)
        case = form.make({**self.settings(form), **given}, answer)
        self.rows.append(replace(case, name=name, table=self.name))


def statements(text):
    """The settings and rows of a table: the number of the first line of each, and its text in one line."""
    statement, number = None, 0
    for place, line in enumerate(text.split("\n"), 1):
        if re.search(r"[^ -~]", line) or line != line.rstrip(" "):
            raise NoRow(f"{place}: a byte that is not printable, or a blank at the end of the line")
        if line.startswith(" "):
            going_on = line.strip(" ").startswith(("%%", "=>")) or statement is not None and statement.endswith(":")
            if statement is None or not going_on:
                raise NoRow(f"{place}: an indented line goes on with a row, at `%%` or `=>`")
            statement += " " + line.strip(" ")
            continue
        if statement is not None:
            yield number, statement
        statement, number = (line, place) if line and not line.startswith("#") else (None, 0)
    if statement is not None:
        yield number, statement


def read_table(name, text):
    """The cases of a table with this text."""
    table = Table(name)
    for number, statement in statements(text):
        setting, row = SETTING.fullmatch(statement), ROW.fullmatch(statement)
        try:
            if setting is not None:
                table.set(setting[1], setting[2] or "")
            elif row is not None:
                table.add(row[1], row[2] or "")
            else:
                raise NoRow("neither a setting nor a row")
        except NoRow as error:
            raise NoRow(f"{number}: {error}") from None
    if table.unused:
        raise NoRow(f"no row uses the last {sorted(table.unused)}")
    if not table.rows:
        raise NoRow("no row at all")
    return table.rows


def load_all():
    """The cases of all tables. A file of the folder that is no table is an error, because nothing would run it."""
    loaded = []
    for name in sorted(os.listdir(FOLDER)):
        try:
            if not name.endswith(".rows"):
                raise NoRow("no table")
            with open(os.path.join(FOLDER, name), encoding="ascii", newline="") as file:
                loaded += read_table(name, file.read())
        except (NoRow, OSError, UnicodeDecodeError) as error:
            raise NoRow(f"tests/rows/{name}: {error}") from None
    if not loaded:
        raise NoRow("tests/rows: no table at all")
    return loaded


def load_every():
    """The cases of all folders and all tables, by their names."""
    by_name = {}
    for case in (*cases.load_all(), *load_all()):
        if case.name in by_name:
            raise NoRow(f"two cases have the name {case.name}")
        by_name[case.name] = case
    return by_name


# Tables with one mistake each: the reader has to refuse them.
BEGIN = "form = script => error\npolicy = # a\\n\n"
LISTED = "form = asked => listed\nwords =\npolicy =\npasswd =\n"
REASONED = LISTED.replace("listed", "why") + "group =\n"
MISTAKES = (
    "",
    "# A comment alone.\n",
    BEGIN,
    BEGIN + "no_answer: prune\\n\n",
    BEGIN + "empty_answer: prune\\n =>\n",
    BEGIN + "two_answers: prune\\n => a => b\n",
    BEGIN + "answer_of_two_lines: prune\\n => a\\nb\n",
    BEGIN + "no_line_end: prune => a\n",
    BEGIN + "a_mark: prune\\n%%\\n => a\n",
    BEGIN + "a_cell_too_many: prune\\n %% # a\\n => a\n",
    BEGIN + "unknown_escape: \\q\\n => a\n",
    BEGIN + "half_a_byte: \\x2\\n => a\n",
    BEGIN + "no_times: \\{0*a}\\n => a\n",
    BEGIN + "open_repeat: \\{2*a\\n => a\n",
    BEGIN + "repeat_in_a_repeat: \\{2*\\{2*a}}\\n => a\n",
    BEGIN + "raw_tab: a\tb\\n => a\n",
    BEGIN + "blank_at_the_end: a\\n => a \n",
    BEGIN + "A_capital: a\\n => a\n",
    BEGIN + "goes_on_inside_a_cell: a\n    b\\n => a\n",
    BEGIN + "a: a\\n => a\npolicy = # unused\\n\n",
    BEGIN + "a: a\\n => a\nform = input => error\n",
    BEGIN + "script = unused\\n\na: a\\n => a\n",
    "no_form: a\\n => a\n",
    "form = script\na: a\\n => a\n",
    "form = script => error\nno_policy: a\\n => a\n",
    "form = script %% policy => undo %% edited\nno_policy: a\\n %% # a\\n => b\\n\n",
    "form = policy => first line\nanother_line: # a\\n# b\\n => # b\\n\n",
    "form = script %% files => error\nno_name: prune\\n %% # a\\n => a\n",
    "form = script %% files => undo %% edited\nno_files_after: prune\\n %% main: # a\\n => %% # a\\n\n",
    "form = included %% policy => first line\nanother_line: /x %% # a\\n# b\\n => # b\\n\n",
    "form = policy => printed\nno_words: # a\\n =>\n",
    "form = policy => not printed\nwords = -f sudoers\nempty_answer: # a\\n =>\n",
    "form = filter %% policy => printed\nwords = -f sudoers -m\nno_filter: # a\\n =>\n",
    LISTED + "no_group: - =>\n",
    LISTED + "group =\ntwo_answers: - => a => b\n",
    LISTED + "group =\nno_line_end: - => a\n",
    LISTED + "group =\na: - =>\ngroup = unused\n",
    REASONED + "no_verdict: - => a\\n\n",
    REASONED + "empty_answer: - =>\n",
    REASONED + "no_column: - => -:1: allowed by: (root) /a\\n\n",
    REASONED + "no_line_end: - => -:1:1: allowed by: (root) /a\n",
    REASONED + "member_alone: - => -:1:1: in Cmnd_Alias A: /a\\n\n",
    REASONED + "member_without_a_place: - => -:1:1: denied by: (root) A\\nin Cmnd_Alias A: /a\\n\n",
    REASONED + "two_members: - => -:1:1: denied by: (root) A\\n\\{2*-:1:1: in Cmnd_Alias A: /a\\n}\n",
    LISTED.replace("listed", "not listed") + "group =\nempty_answer: - =>\n",
)


def run_all(program, tally):
    """Runs each row, and the way back of each accepted edit. The reader has to refuse each mistake."""
    for case in load_every().values():
        if case.table:
            cases.run_case(program, tally, case)
    for text in MISTAKES:
        try:
            read_table("a mistake", text)
        except NoRow:
            tally.note(f"reading {text!r}", [])
        else:
            tally.note(f"reading {text!r}", ["wanted to be refused"])
