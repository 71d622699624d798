"""The rows of `convert` on ordinary policies, with `cvtsudoers` beside it, and whether their reaches are met."""

import policies
from reaches import reach_growth, reach_share
from rows_read import SIZES
from table import KIB, memory_reach

# policies whose aliases are expanded: a greater one has too many members then
EXPANDED_SIZES = (10_000, 100_000, 700_000)
EXPANDED = "convert -f sudoers -e"
CONVERT_SHARE = 3
QUICK_CONVERT_SHARE = 2  # below QUICK_MS
QUICK_MS = 2
CONVERT_BYTES = 24 * KIB * KIB


def conversions(size):
    """What is asked of the ordinary policy of a size: the words of `convert`, by how its reaches name it."""
    user = f"user={policies.member_of_a_team(policies.policy(size))}"
    asked = {}
    if size in SIZES:
        asked["convert -f sudoers"] = ("-f", "sudoers")
        asked["convert -f json"] = ("-f", "json")
        asked["convert -f sudoers -m user=NAME -p"] = ("-f", "sudoers", "-m", user, "-p")
    if size in EXPANDED_SIZES:
        asked[EXPANDED] = ("-f", "sudoers", "-e")
    return asked


def measure_pair(table, size, words, path, of=""):
    """The runs of `convert` with these words on a policy file, and of `cvtsudoers`, or None where it is not there."""
    ours = table.row(f"`{' '.join(('convert', *words))}`{of}", size, ("convert", *words, path))
    theirs = table.beside("cvtsudoers", f"`{' '.join(('cvtsudoers', *words))}`{of}", size, (*words, path))
    runs = table.by_turns({"convert": ours, **theirs})
    return runs["convert"], runs.get("cvtsudoers")


def measure(table):
    """The runs of `convert` and of `cvtsudoers` by what is asked and by size, and those of reading no policy."""
    empty = table.by_turns({"empty": table.row("`show`, no policy, beside `convert`", 0, ("show", table.file(b"")))})["empty"]
    measured = {}
    for size in sorted({*SIZES, *EXPANDED_SIZES}):
        path = table.file(b"".join(policies.policy(size)))
        for name, words in conversions(size).items():
            measured.setdefault(name, []).append((size, *measure_pair(table, size, words, path)))
    return empty, measured


def pair_reach(what, ours, theirs):
    """Prints whether `convert` takes a third of the time of `cvtsudoers`, or a half where that is quick."""
    quick = theirs is not None and theirs.median < QUICK_MS
    reach_share(what, ours, QUICK_CONVERT_SHARE if quick else CONVERT_SHARE, theirs, "cvtsudoers")


def reaches(measured):
    """Prints whether each reach of `convert` is met."""
    empty, by_name = measured
    for name, rows in by_name.items():
        for size, ours, theirs in rows:
            pair_reach(f"`{name}` on {size:,} bytes", ours, theirs)
        size, ours, _ = rows[-1]
        memory_reach(f"`{name}` on {size:,} bytes", ours, CONVERT_BYTES)
        reach_growth(name, "the bytes of the text", empty, [size for size, *_ in rows], [ours for _, ours, _ in rows])
