"""Asks the program `cases` the tables of `tables/tree`, `tables/check` and `tables/edit`.

The words of a group's head say what its rows are. Two rows, a case and its answer:

    says                what the lines of a policy say, with ` | ` between two, or its error
    lines               the policy, with `|` between its lines; and their kinds
    one-line            what a text says as one line
    line-of FILE        where a text leads as a line of this file: `file NAME`, `folder NAME` or `nowhere`;
                        `says nothing` if it leads nowhere because it is no line that says something
    load                files `NAME: TEXT` with ` | ` between two, the root first; and the lines of their walk, each by
                        its file and its number there, from 1, with `on N` if it begins on another physical line of
                        the file, and behind ` | ` the files on the walk; or the error
    gather ROOT         files as for `load`; and those that are gathered from this root on, or the error, and behind ` | `
                        how often the files are asked. Each of these calls fails in turn
    read                `read`, or the error
    rows                the physical lines on which the lines of a policy begin, or the error
    defined KIND NAME   the line and the place of a definition, from 0, and its members
    mentioned KIND NAME the mentions of a name: the first has `1` below each of its bytes, the second `2`, and so on
    unused              the kinds and places of the unused definitions
    notes               the notes of a report, each sort by itself
    edits               how many edits a script has, or its error

A policy is that of one file, whose name is `policy`. After the words of a group of POLICIES in table_pairs.py `with` may
stand, and the names of other files: these are there, and empty. So `says with /a` has policies that may include `/a`.

Rows of another form:

    report, strict      the policy, and as many rows as its report has, on the file `policy`; or the error of the policy
    report of files     files as for `load`, and as many rows as their report has, or their error; so for `strict` too
    time                a piece, and what follows: a policy of 4096 pieces takes about as long to check as 16 of 256
    undefined           a policy, and then names, which it defines in no kind
    unmentioned         the same, with names that it mentions in no kind
    frames NAME         no case: two rows are a policy and its answer, both with a hole `~`
    says in NAME        words with blanks between them: each fills the holes of each frame of that name
    rewritten           scripts, each of which is written as it was read
    leads               four rows: a policy, a script, the text that it leads to, and the script that undoes it and does
    refused             a policy, and then scripts, each with the number of the edit that is refused, and why
    policy, editor,
    text                a policy or a text, and then calls, each with its answer; CALLS in table_calls.py has them
    run COUNT           a policy, and then edits, which are drawn until so many are made; on the way and last they are undone

In answers, edits and physical lines count from 1, and the library's lines, places and bytes from 0.
"""

import glob
import os
import subprocess

from policies import (
    KINDS,
    drawn_bytes,
    drawn_definition,
    drawn_outcome,
    drawn_spans,
)
from table_calls import (
    CALLS,
    by_size,
    calls_of,
    cases_of_calls,
    first_and_rest,
    name_of,
    named,
    wanted_row,
)
from table_pairs import cases_of_pairs, is_of_pairs, says
from table_reports import cases_of_reports, sorts_of_report
from table_runs import is_run_alone, run_edits, run_times
from tables import TABLES, TOP, NoRow, call, groups_of, programs, run_tables, text_of


def cases_of_names(group):
    """The cases of names that a policy does not define, or does not mention, in any kind."""
    text, names = first_and_rest(group)
    calls = []
    for _, row in names:
        for kind in KINDS:
            body = named(kind, text_of(row))
            if "undefined" in group.words:
                calls.append((f"definition {kind} {row}", call(b"d", body), "none", drawn_definition))
            if "unmentioned" in group.words:
                calls.append((f"mentions {kind} {row}", call(b"m", body), "none", drawn_spans))
    yield from cases_of_calls(name_of(group, names[0][0], "names"), b"p", text, calls)


def cases_in_frames(group, frames):
    """The cases of words that fill the holes of frames."""
    if group.words[2] not in frames:
        raise NoRow(f"{group.words[2]}: no frames of this name come before")
    for at, row in group.rows:
        for word in row.split():
            for line, answer in frames[group.words[2]]:
                row_in_frame, wanted = line.replace("~", word), answer.replace("~", word)
                name = name_of(group, at, row_in_frame)
                yield from says(name, (), text_of(row_in_frame), row_in_frame, wanted)


def enter_frames(group, frames):
    """Enters the frames of a group."""
    frames[group.words[1]] = [(line, answer) for _, line, answer in group.pairs()]
    for line, answer in frames[group.words[1]]:
        if "~" not in line or "~" not in answer:
            raise NoRow(f"a frame without a hole: {line}")


def cases_of_rewritten(group):
    """The cases of scripts that are written as they were read."""
    for at, row in group.rows:
        text = text_of(row)
        yield from cases_of_calls(name_of(group, at, row), b"t", text, [("script", call(b"w"), text, drawn_bytes)])


def cases_of_leads(group):
    """The cases of scripts that lead to a text, and are undone by a script."""
    for at, *texts in by_size(group, group.rows, 4):
        policy, script, text, inverse = map(text_of, texts)
        name = name_of(group, at, " ".join(texts[:2]))
        calls = [
            ("edits", call(b"+", script), "ok", drawn_outcome),
            ("text", call(b"t"), text, drawn_bytes),
            ("inverse", call(b"<"), inverse, drawn_bytes),
        ]
        yield from cases_of_calls(name, b"e", policy, calls)
        calls = [
            ("edits back", call(b"+", inverse), "ok", drawn_outcome),
            ("text back", call(b"t"), policy, drawn_bytes),
        ]
        yield from cases_of_calls(name, b"e", text, calls)


def cases_of_refused(group):
    """The cases of scripts that are refused."""
    policy, scripts = first_and_rest(group)
    for at, row, answer in by_size(group, scripts, 2):
        place, colon, _ = answer.partition(": ")
        if not colon or not place.isdigit():
            raise NoRow(f"row {at}: no number of an edit: {answer}")
        calls = [
            ("edits", call(b"+", text_of(row)), wanted_row(answer), drawn_outcome),
            ("steps", call(b"s"), str(int(place) - 1), str),
        ]
        if place == "1":
            calls.append(("text", call(b"t"), policy, drawn_bytes))
        yield from cases_of_calls(name_of(group, at, row), b"e", policy, calls)


def cases_of_group(group, frames):
    """The cases of a group. `frames` has those of the groups before, by their names."""
    word, *words = group.words
    if is_of_pairs(group):
        yield from cases_of_pairs(group)
    elif word in CALLS and not words:
        sort, known = CALLS[word]
        at, text, calls = calls_of(group, known)
        yield from cases_of_calls(name_of(group, at, "calls"), sort, text, calls)
    elif sorts_of_report(group):
        yield from cases_of_reports(group)
    elif set(group.words) <= {"undefined", "unmentioned"}:
        yield from cases_of_names(group)
    elif word == "frames" and len(words) == 1:
        enter_frames(group, frames)
    elif word == "says" and words[:1] == ["in"] and len(words) == 2:
        yield from cases_in_frames(group, frames)
    elif group.words == ("rewritten",):
        yield from cases_of_rewritten(group)
    elif group.words == ("leads",):
        yield from cases_of_leads(group)
    elif group.words == ("refused",):
        yield from cases_of_refused(group)
    elif not is_run_alone(group):
        raise NoRow(f"{' '.join(group.words)}: {group.title}: this is not known")


def cases_of(groups):
    """The cases of a table."""
    frames = {}
    for group in groups:
        yield from cases_of_group(group, frames)


def run_alone(tally):
    """Runs the groups that are no lists of cases."""
    for folder in ("tree", "check", "edit"):
        for path in sorted(glob.glob(os.path.join(TABLES, folder, "*.table"))):
            try:
                groups = [group for group in groups_of(path) if is_run_alone(group)]
                for program in programs() if groups else []:
                    for group in groups:
                        (run_times if group.words == ("time",) else run_edits)(program, group, tally)
            except (NoRow, OSError, subprocess.SubprocessError) as error:
                tally.note(os.path.relpath(path, TOP), [f"{type(error).__name__}: {error}"])


def run_all(_program, tally):
    """Asks all tables of policies, checks and editors."""
    run_tables("tables_edit", {folder: cases_of for folder in ("tree", "check", "edit")}, tally)
    run_alone(tally)
