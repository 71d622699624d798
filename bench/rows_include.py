"""The rows of policies of several files, with `visudo -c` beside `check`, and whether their reaches are met."""

import os

import trees
from rows_read import SIZES
from table import KIB, memory_reach, reach
from timing import spoken

# a policy of several files, and the share of the time of `visudo -c` that `check` of it may take
TREE_FILES = 200
TREE_SHARE = 0.6
TREE_BYTES = 16 * KIB * KIB
# a folder of names that an include passes over, and how many times as long as `visudo -c` it may take
PASSED_OVER = 100_000
PASSED_OVER_TIMES = 3


def measure_root(table, root, size, what):
    """The runs of `check` of a file that includes others, and of `visudo -c`, by turns."""
    check = table.row(f"`check`, {what}", size, ("check", root))
    return table.by_turns({"check": check, **table.visudo(f"`visudo -c`, {what}", size, root)})


def measure(table):
    """The runs on the lines of the greatest policy in many files, and on a folder of names that an include passes over."""
    size = SIZES[-1]
    tree = measure_root(table, trees.write_tree(table.folder, size, TREE_FILES), size, f"{TREE_FILES} files")
    root = trees.write_passed_over(table.folder, PASSED_OVER)
    return tree, measure_root(table, root, os.path.getsize(root), f"a folder of {PASSED_OVER:,} other names")


def root_reach(what, measured, times, share):
    """Prints whether `check` takes at most so many times the time of `visudo -c`; `share` says how many."""
    check, visudo = measured["check"], measured.get("visudo")
    if visudo is None:
        print(f"- {what}: visudo is not installed")
    else:
        met = check.median <= times * visudo.median
        reach(f"{what} within {share} `visudo -c`", met, f"{spoken(check.median)}, {spoken(visudo.median)}")


def reaches(measured):
    """Prints whether each reach of a policy of several files is met."""
    tree, passed_over = measured
    what = f"`check` of {TREE_FILES} files with {SIZES[-1]:,} bytes"
    root_reach(what, tree, TREE_SHARE, f"{TREE_SHARE} of the time of")
    memory_reach(what, tree["check"], TREE_BYTES)
    what = f"`check` of a folder of {PASSED_OVER:,} names that are passed over"
    root_reach(what, passed_over, PASSED_OVER_TIMES, f"{PASSED_OVER_TIMES} times")
