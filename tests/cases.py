"""The cases of the folder tests/cases, one folder a case, in the folders GROUPS.

The files of a case, each of which may be missing:

    words        the command words, one a line (none)
    stdin        standard input (empty)
    policy       a file that the words may name: the program runs in the folder. An include in it names a folder that is
                 not there; tests/including.py has policies of several files
    passwd       files of users and groups, likewise
    group
    stdout       standard output, byte for byte (empty)
    stderr       standard error, byte for byte (empty)
    stdout_has   in place of stdout: each line of it has to occur there
    stderr_has   in place of stderr: each line of it has to occur there
    status       the exit status, a decimal number (0)
    back         an empty flag: the output given as input again has to give the
                 case's input back, byte for byte

The output of each other accepted edit, given as input again, has to give the
case's policy back. The output of each conversion has to be right by itself
(converting.py).
"""

import os
from dataclasses import dataclass

import converting
import way_back
from program import Wanted, fault, run

FOLDER = os.path.join(os.path.dirname(os.path.abspath(__file__)), "cases")
GROUPS = ("check", "convert", "edit", "list", "show", "words")
FILES = {"words", "stdin", "policy", "passwd", "group", "stdout", "stderr", "stdout_has", "stderr_has", "status", "back"}


class NoRow(ValueError):
    """A table of tests/rows that cannot be read."""


@dataclass(frozen=True)
class Case:
    """One case: its input and what is wanted. It comes from a folder, a row of a table or a function.

    The program runs in `folder`, if there is one, or else in a new folder with these `files`, each a name and a text.
    `device` is the number of the file whose reads `devices.py` lets fail: 0 is standard input.
    """

    name: str
    words: tuple
    stdin: bytes
    wanted: Wanted
    back: bool = False
    folder: object = None
    table: str = ""
    files: tuple = ()
    device: int = 0


def error_of(answer):
    """What a run writes and returns that ends in the error of a row."""
    if not answer or b"\n" in answer:
        raise NoRow("an error is one line")
    return fault(answer.decode())


def read_file(folder, name):
    """The bytes of a file of the case, None where it is missing."""
    try:
        with open(os.path.join(folder, name), "rb") as file:
            return file.read()
    except FileNotFoundError:
        return None


def lines_of(text):
    """The lines of a file whose every line ends in LF; none of a missing one."""
    if text is None:
        return ()
    return tuple(text.removesuffix(b"\n").split(b"\n"))


def read_stream(folder, name):
    """The whole text wanted on a stream, or None and the texts it has to hold."""
    has = read_file(folder, name + "_has")
    if has is not None:
        return None, lines_of(has)
    return read_file(folder, name) or b"", ()


def load(group, name):
    """Reads the case in the folder of this name."""
    folder = os.path.join(FOLDER, group, name)
    files = set(os.listdir(folder))
    if not files or files - FILES:
        raise ValueError(f"case {group}/{name}: no files, or unknown ones: {sorted(files - FILES)}")
    stdout, stdout_has = read_stream(folder, "stdout")
    stderr, stderr_has = read_stream(folder, "stderr")
    status = int(read_file(folder, "status") or b"0")
    words = lines_of(read_file(folder, "words"))
    wanted = Wanted(stdout, stderr, status, stdout_has, stderr_has)
    back = read_file(folder, "back") is not None
    if back and not way_back.is_accepted(words, wanted):
        raise ValueError(f"case {group}/{name}: no accepted edit is given back")
    return Case(name, words, read_file(folder, "stdin") or b"", wanted, back, folder)


def load_all():
    """All cases of the folders, by group and name."""
    groups = sorted(os.listdir(FOLDER))
    if groups != sorted(GROUPS):
        raise ValueError(f"tests/cases holds {groups}, wanted {sorted(GROUPS)}")
    return [load(group, name) for group in groups for name in sorted(os.listdir(os.path.join(FOLDER, group)))]


def run_case(program, tally, case):
    """Runs a case, the way back of an accepted edit, and what is printed of a policy once more."""
    problems = case.wanted.problems(run(program, case.words, case.stdin, folder=case.folder, files=case.files))
    problems = problems or converting.problems(program, case.words, case.wanted)
    if way_back.is_accepted(case.words, case.wanted) and not problems:
        problems = way_back.problems(program, case.words, case.stdin, case.wanted.stdout, whole=case.back)
    tally.note(f"tests/rows/{case.table}: {case.name}" if case.table else case.name, problems)


def run_all(program, tally):
    """Runs each case of the folders."""
    for case in load_all():
        run_case(program, tally, case)
