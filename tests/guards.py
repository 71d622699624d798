"""Looks up each name of docs/GUARDS.md, and looks for each wrong body there.

A row of a table is a promise. Its second cell has public calls, each with clauses of its contract, and laws, each after the
word `law`. Its third cell has wrong bodies, its last parts of tests/run and tables. A name that is not found is a failed
case, and so is a wrong body that no row has, and a row that names neither a test nor a wrong body nor a law.
"""

import glob
import os
import re

from tally import difference

TOP = os.path.dirname(os.path.dirname(os.path.abspath(__file__)))
PAGE = "docs/GUARDS.md"
HEAD = "| Promise | Clause or law | Wrong bodies | Tests |"
# What stands in place of a call, where a promise is of all of them.
OF_ALL = ("the prover asks it of each function", "every contract of a call that takes memory")
FEWEST = 60

# A function with what stands before its body, and the type or trait in which it stands.
OWNER = re.compile(r"^(?:impl\b(?:<[^{]*?>)? (?:[\w:<>', ]+ for )?|pub trait )(\w+)")
FUNCTION = re.compile(r"^ *(?:pub(?:\(\w+\))? )?(?:const )?fn (\w+)")
CLAUSE = re.compile(r"^ *ensures (\w+) \{")
NAME = re.compile(r"`([^`]+)`")


def read(path):
    """Returns the text of a file of the repository."""
    with open(os.path.join(TOP, path), encoding="utf-8") as file:
        return file.read()


def contracts_in(text):
    """Returns the clauses of each function of a source, by its name after that of its type."""
    found, owner, name = {}, "", None
    for line in text.split("\n"):
        if of := OWNER.match(line):
            owner, name = of[1] + "::", None
        elif line == "}":
            owner, name = "", None
        if begins := FUNCTION.match(line):
            name = (owner if line.startswith(" ") else "") + begins[1]
            found.setdefault(name, set())
        elif name and (clause := CLAUSE.match(line)):
            found[name].add(clause[1])
    return found


def known():
    """Returns the clauses of all functions, the names of all laws, of all wrong bodies and of all tests."""
    contracts, laws = {}, set()
    for path in sorted(glob.glob("crates/*/src/**/*.rt", root_dir=TOP, recursive=True)):
        found = contracts_in(read(path))
        if path.endswith("/laws.rt") or path.startswith("crates/laws_"):
            laws |= set(found)
        if not path.startswith("crates/wrong_"):
            for name, clauses in found.items():
                contracts.setdefault(name, set()).update(clauses)
    edits = {os.path.basename(path)[:-5] for path in glob.glob(f"{TOP}/crates/*/must-fail/*.edit")}
    tests = set(re.findall(r'^    "(\w+)": ', read("tests/run"), re.MULTILINE))
    for folder, ending in (("tables", "table"), ("rows", "rows")):
        for path in glob.glob(f"**/*.{ending}", root_dir=f"{TOP}/tests/{folder}", recursive=True):
            tests.add(os.path.splitext(path)[0])
    return contracts, laws, edits, tests


def rows():
    """Returns the cells of each row of the page's tables."""
    found, inside = [], False
    for line in read(PAGE).split("\n"):
        inside = line == HEAD or inside and line.startswith("|")
        if inside and line != HEAD and not line.startswith("|---"):
            found.append([cell.strip() for cell in line.strip("|").split(" | ")])
    return found


def call_problems(cell, contracts, laws):
    """Returns what is wrong with the calls, clauses and laws of a cell."""
    problems = []
    for item in cell.split(";"):
        names = NAME.findall(item)
        if item.strip() in OF_ALL:
            continue
        if item.strip().startswith("law "):
            problems += [f"no law {name!r}" for name in names if name not in laws]
        elif not names or names[0] not in contracts:
            problems.append(f"no call {item.strip()!r}")
        else:
            problems += [f"no clause {name!r} of {names[0]}" for name in names[1:] if name not in contracts[names[0]]]
    return problems


def run_all(_program, tally):
    """Looks up the names of each row, and looks for each wrong body in the rows."""
    contracts, laws, edits, tests = known()
    found = rows()
    tally.note(f"{PAGE}, rows", difference("there are many", True, len(found) >= FEWEST))
    listed = set()
    for cells in found:
        if len(cells) != 4:
            tally.note(f"{PAGE}, {cells[0]}", [f"{len(cells)} cells"])
            continue
        promise, calls, bodies, tried = cells
        problems = call_problems(calls, contracts, laws)
        problems += [f"no wrong body {name!r}" for name in NAME.findall(bodies) if name not in edits]
        problems += [f"no test {name!r}" for name in NAME.findall(tried) if name not in tests]
        problems += [] if NAME.findall(tried) or NAME.findall(bodies) or "law `" in calls else ["nothing tries it"]
        listed |= set(NAME.findall(bodies))
        tally.note(f"{PAGE}, {promise}", problems)
    for name in sorted(edits):
        tally.note(f"{PAGE}, wrong body {name}", difference("a row has it", True, name in listed))
