"""Asks the program `cases` the tables of `tables/files`: policies of several files of which lines are changed.

The first row of a group has files `NAME: TEXT` with ` | ` between two, the root first. Then two rows are changes or a
call, and the answer:

    changes             changes of those files, and the walk after them: its lines, each by its file and its number
                        there, with `on N` if it begins on another physical line than that, and behind ` | ` the files
                        on it; or the error; or `not asked`
    calls               calls of one policy of those files, in their order: `changed` with changes, `alone` with one of
                        them, and those of CALLS

Changes are `put FILE LINE TEXT`, `swap FILE LINE TEXT` and `take FILE LINE`, with ` / ` between two: FILE and LINE are
the numbers of a file and of a line there. `none` are no changes. All count from 0, physical lines from 1.

After each change the texts of the files have to be those that the changes lead to, and all that is asked of the policy
has to be as it is if these texts are loaded. After an error, and after changes that are not made, it has to be as
before.
"""

import glob
import os
import subprocess

from changed_files import (
    BYTES,
    Change,
    Session,
    Step,
    changed_call,
    drawn_definition,
    drawn_mentions,
    drawn_named,
    drawn_texts,
    drawn_walk,
    eight,
    run_sessions,
)
from policies import KINDS, Line
from table_calls import by_size, name_of, named, wanted_row
from table_pairs import files_of
from tables import PROGRAM, TABLES, TOP, NoRow, call, groups_of, programs, text_of, unrolled

FOLDER = "files"


def number(word):
    """A number of a row."""
    if not word.isdigit():
        raise NoRow(f"{word}: no number")
    return int(word)


def change_of(row):
    """A change, as a row has it."""
    sort, file, at, *text = row.split(" ", 3)
    if sort not in BYTES or (sort == "take") == bool(text):
        raise NoRow(f"{row}: no change")
    return Change(sort, number(file), number(at), text_of("".join(text)))


def changes_of(row):
    """Changes, as a row has them."""
    return [] if row == "none" else [change_of(one) for one in unrolled(row).split(" / ")]


def place_of(rest):
    """The numbers of a file and of a line there, as the program reads them."""
    return b"".join(eight(number(word)) for word in rest.split(" "))


def alias_of(rest):
    """A kind of alias and a name, as the program reads them."""
    kind, _, name = rest.partition(" ")
    return named(kind, text_of(name))


# The calls that change nothing: the byte of each, what follows its name, and how its answer is drawn.
CALLS = {
    "walk": (b"f", None, drawn_walk),
    "texts": (b"n", None, lambda _, line: drawn_texts(line)),
    "named": (b"N", None, lambda _, line: drawn_named(line)),
    "line": (b"l", place_of, lambda _, line: Line.drawn(line).text or "none"),
    "kind": (b"l", place_of, lambda _, line: Line.drawn(line).drawn_kind()),
    "says": (b"l", place_of, lambda _, line: Line.drawn(line).drawn_node()),
    "definition": (b"d", alias_of, drawn_definition),
    "mentions": (b"m", alias_of, drawn_mentions),
}


def step_of(row, answer, given):
    """A step of two rows: a call, and its answer."""
    word, _, rest = row.partition(" ")
    if word == "changed":
        changes = changes_of(rest)
        return Step(row, changed_call(changes), wanted_row(answer), changes)
    if word == "alone":
        change = change_of(rest)
        return Step(row, change.call(), wanted_row(answer), [change])
    if word not in CALLS:
        raise NoRow(f"{word}: no call")
    byte, body_of, drawn = CALLS[word]
    if bool(rest) != bool(body_of):
        raise NoRow(f"{row}: {word} has other words")
    if word in ("texts", "named"):
        wanted = given if answer == "as given" else files_of(answer)[0]
    else:
        wanted = text_of(answer) if word == "line" and answer != "none" else wanted_row(answer)
    return Step(row, call(byte, body_of(rest) if body_of else b""), wanted, None, drawn)


def step_of_changes(row, answer):
    """A step of two rows: changes, and the walk after them, or their error."""
    changes, wanted = changes_of(row), wanted_row(answer)
    is_walk = " | " in wanted
    return Step(row, changed_call(changes), "ok" if is_walk else wanted, changes, walk=wanted if is_walk else None)


def aliases_of(rows):
    """The aliases that are asked for after each change: the words in capitals, as names of each kind."""
    words = {word.strip(",:!=") for row in rows for word in row.replace("␊", " ").split()}
    names = sorted(word for word in words if word.isascii() and word.isalnum() and word.isupper())
    return [named(kind, name.encode()) for kind in KINDS for name in names]


def sessions_of(group):
    """The sessions of a group."""
    (first_row, first), *rest = group.rows
    if not rest:
        raise NoRow(f"{group.title}: files alone")
    files, _ = files_of(first)
    pairs = list(by_size(group, rest, 2))
    steps = []
    for at, row, answer in pairs:
        try:
            step = step_of_changes(row, answer) if group.words == ("changes",) else step_of(row, answer, files)
            steps.append((at, step))
        except (NoRow, ValueError) as error:
            raise NoRow(f"row {at}: {error}") from None
    if group.words == ("calls",):
        aliases = aliases_of([first, *(row for _, row in rest)])
        return [Session(name_of(group, first_row, "calls"), files, [step for _, step in steps], aliases)]
    if group.words != ("changes",):
        raise NoRow(f"{' '.join(group.words)}: {group.title}: this is not known")
    return [
        Session(name_of(group, at, "changes"), files, [step], aliases_of([first, row]))
        for (at, step), (_, row, _) in zip(steps, pairs)
    ]


def run_table(path, built, tally):
    """Asks each program the sessions of a table."""
    try:
        sessions = [session for group in groups_of(path) for session in sessions_of(group)]
        for program in built:
            run_sessions(program, sessions, tally)
    except (NoRow, OSError, UnicodeError, subprocess.SubprocessError) as error:
        tally.note(os.path.relpath(path, TOP), [f"{type(error).__name__}: {error}"])


def run_all(_program, tally):
    """Asks all tables of changed files."""
    built = programs()
    if not os.access(built[0], os.X_OK):
        tally.note("tables_files", [f"no program: run `rt run < /dev/null` in crates/{PROGRAM}"])
        return
    paths = sorted(glob.glob(os.path.join(TABLES, FOLDER, "*.table")))
    if not paths:
        tally.note(os.path.join("tests", "tables", FOLDER), ["no table"])
    for path in paths:
        run_table(path, built, tally)
