"""The table of cases at the limits, whose inputs are too big for a folder or a row.

The modules large_*.py enter their cases. Each function returns the input of one
case, what is wanted and the words of `show`, `check` or `convert`, if there are
any; or a case, if it has files. Its name is the case's name. Every accepted edit is also run back: to the
input, or, if it prunes, to the policy alone, since other edits undo a `prune`; or its output is refused, if it is too
large an input.
"""

import glob
import importlib
import os

import converting
import way_back
from cases import Case
from program import Wanted, fault, run
from small_stack import on_small_stack

INPUT_LIMIT = 4_000_000
POLICY_LIMIT = 1_048_576
LINE_LIMIT = 65_536
EDIT_LIMIT = 65_536
ALIAS_LIMIT = 4_096

MARK = b"%%\n"
SMALL = b"# a\n"

KINDS = (b"User_Alias", b"Runas_Alias", b"Host_Alias", b"Cmnd_Alias")

CASES = []
PRUNES = set()
LONG_WAYS = set()


def case(make):
    """Enters a function into the table of cases."""
    if any(make.__name__ == other.__name__ for other in CASES):
        raise ValueError(f"two cases have the name {make.__name__}")
    CASES.append(make)
    return make


def case_of_prune(make):
    """Enters a function whose edits prune, so that its way back leads to the policy alone."""
    PRUNES.add(make)
    return case(make)


def case_of_long_way_back(make):
    """Enters a function whose edits are accepted, with an output that is too large an input."""
    LONG_WAYS.add(make)
    return case(make)


def comment(size):
    """A comment line of `size` bytes, its line end included."""
    return b"#" * (size - 1) + b"\n"


def full_policy():
    """A policy of just as many bytes as a policy may have, in 16 lines."""
    return comment(LINE_LIMIT) * (POLICY_LIMIT // LINE_LIMIT)


def unchanged(policy):
    """The empty script on `policy`."""
    return MARK + policy, Wanted(MARK + policy)


def refused(script, policy, text):
    """A script on a policy that ends in the error with this text."""
    return script + MARK + policy, fault(text)


def accepted(script, policy, inverse, edited):
    """A script on a policy that gives this undo script and this text."""
    return script + MARK + policy, Wanted(inverse + MARK + edited)


def definitions(kind, count, member=b"ALL"):
    """So many definitions of a kind, each in a line of its own."""
    return b"".join(b"%s A%d = %s\n" % (kind, number, member) for number in range(1, count + 1))


def definitions_in_one_line(kind, count):
    """So many definitions of a kind in one line."""
    return kind + b" " + b":".join(b"A%d=ALL" % number for number in range(1, count + 1)) + b"\n"


def chain(kind, count):
    """So many aliases of a kind: each mentions the next, and the last mentions none."""
    lines = (b"%s A%d = A%d\n" % (kind, number, number + 1) for number in range(1, count))
    return b"".join(lines) + b"%s A%d = ALL\n" % (kind, count)


def used_chain(last=b"ALL"):
    """As many aliases of commands as there may be, of which each mentions the next, and a rule with the first. The last has this member."""
    return chain(b"Cmnd_Alias", ALIAS_LIMIT).replace(b"= ALL", b"= " + last) + b"bob ALL=A1\n"


def cycle(kind, count):
    """So many aliases of a kind: each mentions the next, and the last mentions the first."""
    return b"".join(b"%s A%d = A%d\n" % (kind, number, number % count + 1) for number in range(1, count + 1))


def doubled(kind, count, last):
    """So many aliases of a kind: each mentions the next one twice, and the last one has one member."""
    lines = (b"%s A%d = A%d, A%d\n" % (kind, number, number + 1, number + 1) for number in range(1, count))
    return b"".join(lines) + b"%s A%d = %s\n" % (kind, count, last)


def many_edits(count=EDIT_LIMIT):
    """A script of so many edits, an even number, that undoes itself. Without a number it has as many as it may."""
    return b"insert 1\n|\ndelete 1\n" * (count // 2)


def load_cases():
    """Returns the functions of all modules, each of which makes a case."""
    for path in sorted(glob.glob(os.path.join(os.path.dirname(os.path.abspath(__file__)), "large_*.py"))):
        importlib.import_module(os.path.basename(path).removesuffix(".py"))
    return CASES


def made_case(make):
    """Returns the case that a function makes."""
    made = make()
    if isinstance(made, Case):
        return made
    stdin, wanted, *words = made
    return Case(make.__name__, tuple(words), stdin, wanted)


def run_all(program, tally):
    """Runs each case of each module with a small stack, the way back of each accepted edit, and what is printed of a policy once more."""
    with on_small_stack(program) as small:
        for make in load_cases():
            run_large(small, tally, make)


def run_large(program, tally, make):
    """Runs the case that a function makes."""
    made = made_case(make)
    words, wanted = made.words, made.wanted
    problems = wanted.problems(run(program, words, made.stdin, files=made.files)) or converting.problems(program, words, wanted)
    if way_back.is_accepted(words, wanted) and not problems:
        problems = problems_of_way_back(program, make, made)
    tally.note(make.__name__, problems)


def problems_of_way_back(program, make, made):
    """What is wrong when the output of an accepted edit is given as input again."""
    if make in LONG_WAYS:
        return fault("InputTooLarge").problems(run(program, made.words, made.wanted.stdout))
    return way_back.problems(program, made.words, made.stdin, made.wanted.stdout, whole=make not in PRUNES)
