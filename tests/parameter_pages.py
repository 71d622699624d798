"""Compares the table of Defaults parameters with the files that are made of it, and with the tables of docs/checks.md.

`scripts/parameters` has to find both files as it makes them. In a table of the page, the row of a type names the parameters that
take it: all of them, or some and the number of the others.
"""

import csv
import os
import re
import subprocess
import sys

from tally import difference

TOP = os.path.dirname(os.path.dirname(os.path.abspath(__file__)))
SCRIPT, PAGE = "scripts/parameters", "docs/checks.md"
TABLE = "crates/sudoers_defaults/parameters.csv"
SECONDS = 60

# What the page calls the types of each program.
WHATS = {
    "sudo": {
        "text": "`a text`",
        "list": "`one or more words`",
        "path": "`a path that begins with /, shorter than 4096 bytes`",
        "path or star": "`a path that begins with / or ~, shorter than 4096 bytes, or *`",
        "integer": "`a number from -2147483648 to 2147483647`",
        "unsigned": "`a number up to 4294967295`",
        "mode": "`an octal mode up to 0777`",
        "minutes": "`minutes, as 5, 2.5 or -1`",
        "time": "`a time below 2147483648 seconds, as 90 or 1h30m`",
        "resource limit": "`a number, infinity, or two of them with a comma, or user or default`",
        "one of": "words, as `never, once or always`",
        "locale": "`a locale`",
    },
    "sudo-rs": {
        "flag": "nothing: flags",
        "free text": "`a text`",
        "list": "`one or more words`",
        "small number": "`a number up to 1000`, of at most 18 digits",
        "plain minutes": "`minutes, as 5 or 2.5`, of at most 18 bytes",
        "one of": "`never, any, all or always`",
    },
}
# The sentences that say how many parameters there are, and how they stand without a value.
FLAGS, KNOWN = "The other {} parameters are flags.", "It knows {} parameters:"
BARE = re.compile(r"^- Flags, (.*?) may stand without a value", re.MULTILINE | re.DOTALL)
NEVER = re.compile(r"^- These never may, with `!` neither: (.*?)\.$", re.MULTILINE | re.DOTALL)


def read(name):
    """Returns the text of a file of the repository."""
    with open(os.path.join(TOP, name), encoding="utf-8") as file:
        return file.read()


def rows_of(target):
    """Returns the rows of the table for a program."""
    with open(os.path.join(TOP, TABLE), encoding="utf-8", newline="") as file:
        return [row for row in csv.DictReader(file) if target in row["targets"].split()]


def type_of(row):
    """Returns the type of the parameter of a row; all sets of words are one."""
    return "one of" if row["type"].startswith("one of ") else row["type"]


def names_in(text):
    """Returns the names of parameters in a text, in their order."""
    return re.findall(r"`([a-z_]+)`", text)


def cells_of_page(section):
    """Returns the rows of the tables of a section of the page, by their first cells."""
    lines = [line.strip("| ").split(" | ") for line in section.split("\n") if line.startswith("| ")]
    return {cells[0]: cells for cells in lines}


def problems_of_type(what, cells, names):
    """Returns what a row of the page says otherwise than the table, whose names take this."""
    if not cells:
        return [f"{PAGE} has no row {what}"]
    named = names_in(cells[-1])
    others = re.search(r"(\d+) other", cells[-1])
    problems = [f"{what}: the table has no {name}" for name in named if name not in names]
    return problems + difference(f"{what}: number of names", len(names), len(named) + int(others[1] if others else 0))


def problems_of_target(target, section):
    """Returns what a section of the page says otherwise than the table of a program."""
    rows, cells, problems = rows_of(target), cells_of_page(section), []
    for takes, what in WHATS[target].items():
        names = [row["name"] for row in rows if type_of(row) == takes]
        problems += problems_of_type(what, cells.get(what), names)
    types = {type_of(row) for row in rows} - {*WHATS[target], "flag"}
    return problems + [f"{PAGE} has no row for the type {takes}" for takes in sorted(types)]


def problems_of_sentences(page):
    """Returns what the sentences of the page say otherwise than the table."""
    sudo = rows_of("sudo")
    flags = [row["name"] for row in sudo if row["type"] == "flag"]
    bare = [row["name"] for row in sudo if row["without_value"] == "alone or negated" and row["type"] != "flag"]
    never = [row["name"] for row in sudo if row["without_value"] == "never"]
    wanted = (FLAGS.format(len(flags)), KNOWN.format(len(rows_of("sudo-rs"))))
    problems = [f"{PAGE} does not say: {sentence}" for sentence in wanted if sentence not in page]
    for what, form, names in (("without a value", BARE, bare), ("never without a value", NEVER, never)):
        found = form.search(page)
        problems += difference(f"{what}", sorted(names), sorted(names_in(found[1])) if found else None)
    return problems


def run_all(tally):
    """Runs all of it."""
    done = subprocess.run([sys.executable, os.path.join(TOP, SCRIPT)], capture_output=True, timeout=SECONDS, check=False)
    tally.note(f"{SCRIPT}, both files", difference("status", 0, done.returncode) and [done.stderr.decode()])
    page = read(PAGE)
    sudo, _, sudo_rs = page.partition("\n### sudo-rs\n")
    tally.note(f"{PAGE}, parameters of sudo", problems_of_target("sudo", sudo))
    tally.note(f"{PAGE}, parameters of sudo-rs", problems_of_target("sudo-rs", sudo_rs))
    tally.note(f"{PAGE}, sentences on parameters", problems_of_sentences(page))
