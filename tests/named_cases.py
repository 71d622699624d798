"""The tests that the documents name: each of them is there.

A document names a file or a folder of `tests` in backquotes. If a comma and another text in backquotes come next, that
is a row of a table of `rows`, a group of a table of `tables`, or a function or a table of a Python file.

profile.cases names the tests of the numbered readings. Each reading of docs/PROFILE.md has one there, and each number
there is that of a reading.
"""

import glob
import importlib
import os
import re

import large
from tally import difference

TOP = os.path.dirname(os.path.dirname(os.path.abspath(__file__)))
PAGES = ("*.md", "docs/*.md", "examples/README.md", "crates/*/README.md")
# A text in backquotes, or one that has backquotes, in two of them.
QUOTED = r"(?:`` ?[^\n]*? ?``(?!`)|`[^`\n]+`)"
NAMED = re.compile(rf"`(tests/[^`\s]*)`(?:,\s+({QUOTED}))?")
# What a row, a group and a function are in their files.
FORMS = {".rows": r"^{}:", ".table": r"^== [^:\n]+: {}$", ".py": r"^(?:def {0}\(|{0} = )"}
FEWEST = 250

CASES = "tests/profile.cases"
PROFILE = "docs/PROFILE.md"
READINGS = ((PROFILE, r"^- \*\*(\d+)\."), ("docs/DECISIONS.md", r"^### (\d+)\b"))


def unquoted(text):
    """A text without its backquotes, and without the blanks that part it from them."""
    return text[2:-2].strip() if text.startswith("``") else text[1:-1]


def pages():
    """The documents, by their paths below the top."""
    return sorted(os.path.relpath(path, TOP) for page in PAGES for path in glob.glob(os.path.join(TOP, page)))


def names_of(text):
    """The paths that a document names, each with the name of a case in it, or an empty one."""
    for path, quoted in NAMED.findall(text):
        is_name = quoted and not unquoted(quoted).startswith("tests/")
        yield path, unquoted(quoted) if is_name else ""


def is_large(path, name):
    """Whether a module of large inputs enters a case of this name, which no line of it may spell."""
    folder, file = os.path.split(path)
    if folder != "tests" or not file.startswith("large_"):
        return False
    module = importlib.import_module(file.removesuffix(".py")).__name__
    return any((make.__module__, make.__name__) == (module, name) for make in large.CASES)


def problems(path, name):
    """Why no such case is there."""
    place = os.path.join(TOP, path)
    if not glob.glob(place):
        return [f"{path} is missing"]
    form = FORMS.get(os.path.splitext(path)[1])
    if not name or form is None:
        return []
    with open(place, encoding="utf-8") as file:
        is_there = re.search(form.format(re.escape(name)), file.read(), re.MULTILINE) or is_large(path, name)
    return [] if is_there else [f"{path} has no {name}"]


def read(name):
    """The text of a file of the repository."""
    with open(os.path.join(TOP, name), encoding="utf-8") as file:
        return file.read()


def cases_of_readings():
    """The lines of profile.cases: of each the number of a reading, the path of a test, and the name of a case in it."""
    for line in read(CASES).splitlines():
        if line and not line.startswith("#"):
            number, _, case = line.partition(": ")
            path, _, name = case.partition(", ")
            yield number, path, name


def reading_problems(cases):
    """Which readings of PROFILE have no test, and which numbers are of no reading."""
    readings = {page: re.findall(form, read(page), re.MULTILINE) for page, form in READINGS}
    shown = {number for number, _, _ in cases}
    known = [number for numbers in readings.values() for number in numbers]
    wrong = [f"{CASES} has no test of {number}" for number in readings[PROFILE] if number not in shown]
    wrong += [f"{number} is two readings" for number in sorted(set(known)) if known.count(number) > 1]
    return wrong + [f"{number} is no reading" for number in sorted(shown) if number not in known]


def run_all(tally):
    """Looks for each name of each page, once. There have to be many, or this would show nothing."""
    found = 0
    for page in pages():
        names = dict.fromkeys(names_of(read(page)))
        found += len(names)
        tally.note(f"tests that {page} names", [problem for path, name in names for problem in problems(path, name)])
    cases = list(cases_of_readings())
    names = dict.fromkeys((path, name) for _, path, name in cases)
    found += len(names)
    tally.note(f"tests that {CASES} names", [problem for path, name in names for problem in problems(path, name)])
    tally.note(f"tests of {PROFILE}", reading_problems(cases))
    tally.note("tests that documents name", difference("enough", True, found >= FEWEST))
