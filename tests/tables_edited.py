"""Asks the program `cases` the tables of `tables/edited`: editors of policies of several files.

Files are `NAME: TEXT` with ` | ` between two, the root first. The words of a group's head say what its rows are:

    leads       four rows: files, a script, the files that it leads to, and the script that undoes it. The edits are also
                made one by one, undone and made again; and the script that undoes them leads back from those files
    refused     files, and then scripts, each with the number of the edit that is refused, and why
    calls       files, and then calls of one editor in their order, each with its answer: those of EDITOR_CALLS in
                table_calls.py, and those of CALLS in tables_files.py

In scripts files, lines and places count from 1, and in calls from 0. After edits all that is asked of the policy has to
be as it is if its files are loaded; after an edit that is refused, as before it. So it is asked of its walk, of all its
lines, and of each word in capitals of the group: where it is defined and mentioned in each kind.
"""

import glob
import os
import subprocess

from changed_files import frame_of
from edited_files import EDITOR, problems_of_refusal, problems_of_script
from table_calls import EDITOR_CALLS, body_of, by_size, name_of, wanted_row
from table_pairs import files_of
from tables import PROGRAM, TABLES, TOP, NoRow, asked, call, groups_of, programs, text_of
from tables_files import CALLS, aliases_of, step_of
from tally import difference

FOLDER = "edited"


def leads(program, group, tally):
    """Notes the scripts that lead to files, and are undone by a script."""
    for at, *row in by_size(group, group.rows, 4):
        (files, _), script, (edited, _), inverse = files_of(row[0]), text_of(row[1]), files_of(row[2]), text_of(row[3])
        problems = problems_of_script(program, files, script, edited, inverse, aliases_of(row))
        tally.note(name_of(group, at, row[1]), problems)


def refused(program, group, tally):
    """Notes the scripts that are refused."""
    (_, first), *rest = group.rows
    files, _ = files_of(first)
    for at, row, answer in by_size(group, rest, 2):
        problems = problems_of_refusal(program, files, text_of(row), wanted_row(answer), aliases_of([first, row]))
        tally.note(name_of(group, at, row), problems)


def call_of(row, answer, files):
    """A call, its wanted answer, and how its answer is drawn."""
    names = [name for name, _ in files]
    word, _, rest = row.partition(" ")
    if word in CALLS:
        step = step_of(row, answer, files)
        return step.call, step.wanted, lambda line: step.drawn(names, line)
    if word not in EDITOR_CALLS:
        raise NoRow(f"{word}: no call")
    byte, form, drawn = EDITOR_CALLS[word]
    return call(byte, body_of(form, rest)), text_of(answer) if word == "inverse" else wanted_row(answer), drawn


def calls(program, group, tally):
    """Notes the calls of an editor."""
    (_, first), *rest = group.rows
    files, _ = files_of(first)
    rows = list(by_size(group, rest, 2))
    asking = [call_of(row, answer, files) for _, row, answer in rows]
    lines = asked(program, [frame_of(files, [one for one, _, _ in asking], EDITOR)])
    if len(lines) != len(rows):
        raise NoRow(f"{group.title}: {len(lines)} answers to {len(rows)} calls")
    for (at, row, _), (_, wanted, drawn), line in zip(rows, asking, lines):
        tally.note(name_of(group, at, row), difference("answer", wanted, drawn(line)))


SORTS = {("leads",): leads, ("refused",): refused, ("calls",): calls}


def run_table(path, program, tally):
    """Asks a program the groups of a table."""
    for group in groups_of(path):
        if group.words not in SORTS:
            raise NoRow(f"{' '.join(group.words)}: {group.title}: this is not known")
        SORTS[group.words](program, group, tally)


def run_all(_program, tally):
    """Asks all tables of editors of files."""
    built = programs()
    if not os.access(built[0], os.X_OK):
        tally.note("tables_edited", [f"no program: run `rt run < /dev/null` in crates/{PROGRAM}"])
        return
    paths = sorted(glob.glob(os.path.join(TABLES, FOLDER, "*.table")))
    if not paths:
        tally.note(os.path.join("tests", "tables", FOLDER), ["no table"])
    for path in paths:
        for program in built:
            try:
                run_table(path, program, tally)
            except (LookupError, NoRow, OSError, TypeError, ValueError, subprocess.SubprocessError) as error:
                tally.note(os.path.relpath(path, TOP), [f"{type(error).__name__}: {error}"])
