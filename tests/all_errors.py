"""Asks `check --all` for all errors of a policy.

A row has a name, a tree, words, and what is printed. Each worked policy is checked with and without `--all`: the first line
has to be the same error, or the whole report where there is none. A row of SEVERAL checks several policies in one run.
"""

import tempfile

import worked_policies
from sweep_runs import ROOT, Ground
from tally import difference

from program import Wanted
from stand import Folder, Stand

PART = "all_errors"


ROWS = (
    ("one_a_line", {"main": "bob ALL=ls\nann ALL=(root ALL\nok ALL=ALL\n"}, "main",
     b"main:1:9: syntax error: UnexpectedToken\nmain:2:15: syntax error: UnexpectedToken\n"),
    ("names", {"main": "User_Alias A = x\nUser_Alias A = y : B = z\nUser_Alias B = u : ALL = v\nHost_Alias A = h\n"}, "main",
     b"main: User_Alias A defined twice\nmain: User_Alias B defined twice\n"),
    ("a_reserved_word", {"main": "User_Alias CWD = x\nbob\n"}, "main",
     b"main: User_Alias CWD reserved\nmain:2:4: syntax error: EndOfLine\n"),
    ("texts_first", {"main": "bob\n@include a\n@include b\n", "a": "x\0", "b": "x \\"}, "main",
     b"a: NUL at byte 1\nb: OpenContinuation\nmain:1:4: syntax error: EndOfLine\n"),
    ("in_the_order_of_the_walk", {"main": "@includedir d\nbob\n", "d/b": "b\n", "d/a": "a\n"}, "main",
     b"d/a:1:2: syntax error: EndOfLine\nd/b:1:2: syntax error: EndOfLine\nmain:2:4: syntax error: EndOfLine\n"),
    ("missing_files", {"main": "@include a\n@include b\n@includedir none\n"}, "main",
     b"main:1:1: include a not loaded\nmain:2:1: include b not loaded\n"),
    ("included_twice", {"main": "@include a\n@include a\n@include b\n", "a": "# a\n", "b": "@include a\nbob\n"}, "main",
     b"main:2:1: include a twice\nb:1:1: include a twice\nb:2:4: syntax error: EndOfLine\n"),
    ("a_file_of_a_folder_before_its_turn", {"main": "@includedir d\n", "d/a": "@include b\n", "d/b": "# b\n"}, "main",
     b"main:1:1: include d/b twice\n"),
    ("a_continued_line", {"main": "bob ALL = \\\n  /bin/a, \\\n  ls\nann\n"}, "main",
     b"main:3:3: syntax error: UnexpectedToken\nmain:4:4: syntax error: EndOfLine\n"),
)

# The policies of a run, its words, and what it prints, with the exit status: each policy is one of its own.
TWO = {"a": "User_Alias A = bob\nA ALL = ALL\n", "b": "User_Alias A = ann\nA ALL\n"}
SEVERAL = (
    ("two_policies", "check a b", b"a: parsed OK\nb:2:6: syntax error: EndOfLine\n", b"", 1),
    ("two_good_policies", "check a a", b"a: parsed OK\na: parsed OK\n", b"", 0),
    ("a_missing_policy_first", "check none a", b"a: parsed OK\n", b"sudoers_tool: none: NoRoot\n", 1),
    ("a_missing_policy_last", "check -q b none", b"", b"sudoers_tool: none: NoRoot\n", 1),
    ("the_highest_status", "check --error-status 7 none b", b"b:2:6: syntax error: EndOfLine\n", b"sudoers_tool: none: NoRoot\n", 7),
    ("all_errors_of_each", "check --all b a b", b"b:2:6: syntax error: EndOfLine\na: parsed OK\nb:2:6: syntax error: EndOfLine\n", b"", 1),
)


def run_row(stand, row):
    """Runs a row."""
    name, tree, words, text = row
    with Folder(tree) as folder:
        came = stand.run(["check", "--all", *words.split(" ")], folder)
        stand.tally.note(f"{PART}: {name}", difference("stdout", text, came.stdout) + difference("status", 1, came.status))
        quiet = stand.run(["check", "--all", "-q", *words.split(" ")], folder)
        stand.tally.note(f"{PART}: {name}, quiet", difference("stdout", b"", quiet.stdout) + difference("status", 1, quiet.status))


def has_place(name):
    """Whether a file of this name can stand below a folder, which is the root of a system."""
    try:
        return all(part not in ("", ".", "..") for part in name.decode().removeprefix("/").split("/"))
    except UnicodeDecodeError:
        return False


def outcomes_of_policy(ground, number, files):
    """Returns what `check` prints of a policy, without and with `--all`; None where its files cannot stand in a folder."""
    words = ("check",), ("check", "--all")
    if len(files) == 1:
        return [ground.run_text(files[0][1], these) for these in words]
    if not all(has_place(name) for name, _ in files):
        return None
    try:
        folder = ground.put(str(number), [(name.removeprefix(b"/"), text) for name, text in files])
    except OSError:
        return None
    return [ground.start((*these, *ROOT, "--", files[0][0].decode()), b"", folder) for these in words]


def problems_of_outcomes(one, every):
    """The lines that say where the errors of a policy do not begin with that of `check`."""
    if every.stdout == one.stdout:
        return difference("status", one.status, every.status)
    first, _, rest = every.stdout.partition(b"\n")
    problems = difference("the first error", one.stdout, first + b"\n") + difference("status", 1, every.status)
    return problems if rest else [*problems, "there is one error, and it is another"]


def run_all(program, tally):
    """Runs all rows, and each worked policy."""
    stand = Stand(PART, program, tally)
    for row in ROWS:
        run_row(stand, row)
    with Folder(TWO) as folder:
        for name, words, text, errors, status in SEVERAL:
            stand.note(name, words, Wanted(text, errors, status=status), folder)
        twice = stand.run("check - -", folder)
        tally.note(f"{PART}: standard input twice", difference("status", 2, twice.status) + difference("stdout", b"", twice.stdout))
    with tempfile.TemporaryDirectory(prefix="sudoers_tool_tests_") as top:
        ground = Ground(program, top)
        for number, (files, where) in enumerate(worked_policies.policies().items()):
            outcomes = outcomes_of_policy(ground, number, files)
            if outcomes:
                tally.note(f"{PART}: {where}", problems_of_outcomes(*outcomes))
