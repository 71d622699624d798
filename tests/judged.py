"""Compares the messages of judged mistakes with what visudo and this program print of them.

A group of judged/mistakes.table has a mistake. In a group `policy: TITLE` the first row is the file `policy`. In a group
`files: TITLE` it has files, and `main` is checked. Behind a row `--- visudo` stands what visudo prints, and behind a row
`--- sudoers_tool` what this program prints. The last row is a verdict on our message, and a reason.

docs/mistakes.md has the count of each verdict, and the title and the reason of each mistake where our message is worse.
"""

import os
import re
import subprocess
from dataclasses import dataclass

from documents import SUDO, visudo
from explaining import files_of_row
from program import SECONDS
from stand import Folder, Stand
from tables import TOP, NoRow, groups_of, text_of
from tally import difference

PART = "judged"
TABLE = os.path.join(TOP, "tests", "judged", "mistakes.table")
PAGE = os.path.join(TOP, "docs", "mistakes.md")
VISUDO, OURS = "--- visudo", "--- sudoers_tool"

VERDICTS = ("better", "worse", "same")

# The last row of a group: a verdict, and a reason of at most so many words.
VERDICT = re.compile(r"(better|worse|same): (.+)")
WORDS = 12

# A row of the page with a count, one with the counts of the first or last mistakes, and one with a mistake.
COUNT = re.compile(r"\| (better|worse|same) \|.*\| (\d+) \|")
COUNTS = re.compile(r"\| the (first|last) (\d+) \| (\d+) \| (\d+) \| (\d+) \|")
MISTAKE = re.compile(r"\| ([^|]+) \| ([^|]+) \|")


@dataclass(frozen=True)
class Mistake:
    """A mistake: its files, the file that is checked, both messages, and the verdict with its reason."""

    title: str
    tree: dict
    file: str
    theirs: bytes
    ours: bytes
    verdict: str
    reason: str


def mistake_of_group(group):
    """The mistake that a group has."""
    (number, row), *others = group.rows
    rows = [text for _, text in others]
    found = VERDICT.fullmatch(rows[-1]) if rows else None
    if group.words not in (("policy",), ("files",)) or rows[:1] != [VISUDO] or rows.count(OURS) != 1 or found is None:
        raise group.error(number, "a mistake has a policy, two messages and a verdict")
    if len(found[2].split()) > WORDS:
        raise group.error(number, f"a reason has at most {WORDS} words")
    tree, file = ({"policy": text_of(row)}, "policy") if group.words == ("policy",) else (files_of_row(row), "main")
    at = rows.index(OURS)
    theirs, ours = (b"".join(text_of(text) + b"\n" for text in texts) for texts in (rows[1:at], rows[at + 1 : -1]))
    return Mistake(group.title, tree, file, theirs, ours, found[1], found[2])


def run_mistake(stand, mistake):
    """Compares both messages of a mistake with what is printed."""
    with Folder(mistake.tree) as folder:
        came = stand.run(["check", "--explain", mistake.file], folder)
        problems = difference("message", mistake.ours, came.stdout + came.stderr)
        stand.tally.note(f"{PART}: {mistake.title}", problems)
        if visudo():
            words = [visudo(), "-c", "-f", mistake.file]
            done = subprocess.run(words, capture_output=True, cwd=folder, env={"LC_ALL": "C"}, timeout=SECONDS, check=False)
            problems = difference("message", mistake.theirs, done.stderr + done.stdout)
            stand.tally.note(f"{PART}: {mistake.title}, visudo", problems)


def count(mistakes):
    """How many mistakes have each verdict."""
    return {verdict: sum(mistake.verdict == verdict for mistake in mistakes) for verdict in VERDICTS}


def count_problems(mistakes, row):
    """What is wrong with a row of the page that has the counts of the first or last mistakes."""
    end, size, *counts = row.groups()
    some = mistakes[: int(size)] if end == "first" else mistakes[-int(size) :]
    return difference(f"counts of the {end} {size}", count(some), dict(zip(VERDICTS, map(int, counts))))


def page_problems(mistakes):
    """What the page says otherwise than the table."""
    with open(PAGE, encoding="utf-8") as page:
        rows = page.read().split("\n")
    counts = {found[1]: int(found[2]) for found in map(COUNT.fullmatch, rows) if found}
    problems = [problem for row in map(COUNTS.fullmatch, rows) if row for problem in count_problems(mistakes, row)]
    worse = [(mistake.title, mistake.reason) for mistake in mistakes if mistake.verdict == "worse"]
    told = [found.groups() for found in map(MISTAKE.fullmatch, rows) if found][1:]
    return problems + difference("counts", count(mistakes), counts) + difference("worse", worse, told)


def run_all(program, tally):
    """Compares all messages, and the page with the table."""
    stand = Stand(PART, program, tally)
    if not visudo():
        tally.skip("judged, what visudo prints", f"visudo of sudo {SUDO.decode()} is not installed")
    try:
        mistakes = [mistake_of_group(group) for group in groups_of(TABLE)]
    except (NoRow, UnicodeError) as error:
        tally.note(PART, [str(error)])
        return
    for mistake in mistakes:
        run_mistake(stand, mistake)
    titles = [mistake.title for mistake in mistakes]
    tally.note(f"{PART}: titles", sorted({title for title in titles if titles.count(title) > 1}))
    tally.note(f"{PART}: docs/mistakes.md", page_problems(mistakes))
