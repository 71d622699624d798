"""The rows of `edit` on ordinary policies, and whether their reaches are met: each edit is compared with no edit."""

import policies
import trees
from rows_read import SIZES
from table import KIB, memory_reach, reach
from timing import spoken

EDIT_SIZE = SIZES[-1]
# how many edits a long script has, a longer one, and one that inserts lines in front
EDITS = 1_000
MANY_EDITS = 10_000
FRONT_EDITS = 20_000
START_UP_MS = 3
# how much longer than no edit they may take on the greatest policy
ONE_EDIT_MS = 1
EDITS_MS = 300
MANY_EDITS_MS = 3_000
PRUNE_MS = 300
# how many names are renamed, or pruned, of the greatest policy
NAMES = 1_000
NAMES_MS = 500
FRONT_MS = 3_000
# kinds of edits that change as many lines as there are
WIDE_EDITS = ("a rename", "a prune of nothing", "an alias inserted and pruned")
ONE_EDIT_BYTES = 14 * KIB * KIB
RENAME_BYTES = 16 * KIB * KIB
BYTES_A_BYTE = 8
SPARE_BYTES = 8 * KIB * KIB
# files of one bundle, and how much longer than no edit an edit of it may take
TREE_FILES = 200
TREE_EDIT_MS = 5


def measure_size(table, size):
    """The runs of no edit, one edit, an edit of each kind, and many edits, of the ordinary policy of a size, by turns."""
    lines = policies.policy(size)
    text = b"".join(lines)
    scripts = {
        "no edit": b"",
        "one edit": policies.one_edit(lines),
        **dict(policies.edits_by_kind(lines)),
        f"{EDITS:,} edits": policies.spread_edits(lines, EDITS),
    }
    rows = {what: table.edit(what, size, script, text) for what, script in scripts.items()}
    rows["word"] = table.edit("one edit, word `edit`", size, policies.one_edit(lines), text, ["edit"])
    return table.by_turns(rows)


def measure_long_scripts(table):
    """Scripts of many edits on the greatest policy, and prunes of many definitions: each with no edit and its target."""
    lines = policies.policy(EDIT_SIZE)
    text = b"".join(lines)
    pairs = {}
    for what, script, policy, target in (
        (f"{MANY_EDITS:,} edits", policies.spread_edits(lines, MANY_EDITS), text, MANY_EDITS_MS),
        (f"{FRONT_EDITS:,} lines inserted in front", policies.front_edits(FRONT_EDITS), text, FRONT_MS),
        (f"{NAMES:,} renames", policies.renames(NAMES), text, NAMES_MS),
        (f"a prune of {NAMES:,} names", b"prune\n", text + policies.spare_aliases(NAMES), NAMES_MS),
        ("a prune of 4,096 lines", b"prune\n", policies.unused_aliases(4_096, 1), PRUNE_MS),
        ("a prune of 64 lines of 64 definitions", b"prune\n", policies.unused_aliases(64, 64), PRUNE_MS),
    ):
        none = table.edit(f"no edit, beside {what}", len(policy), b"", policy)
        runs = table.by_turns({"none": none, "edited": table.edit(what, len(policy), script, policy)})
        pairs[what] = (runs["none"], runs["edited"], target)
    return pairs


def measure_bundle(table):
    """Edits of the same lines in many files, as one bundle, by turns: each with no edit and its target."""
    bundle = trees.bundle(EDIT_SIZE, TREE_FILES)
    scripts = {"no edit": b"", **dict(trees.EDITS)}
    names = {what: f"{what}, {TREE_FILES} files" for what in scripts}
    rows = {what: table.edit(names[what], len(bundle), script, bundle, mark=b"") for what, script in scripts.items()}
    runs = table.by_turns(rows)
    return {names[what]: (runs["no edit"], runs[what], TREE_EDIT_MS) for what, _ in trees.EDITS}


def over_memory(rows):
    """The edits that took more memory than the reach allows."""
    return [f"{row.what} on {row.size:,}" for row, runs in rows if runs.memory * KIB > BYTES_A_BYTE * row.given + SPARE_BYTES]


def measure(table):
    """Measures all rows of edits."""
    first = len(table.rows)
    start_up = table.by_turns({"start-up": table.edit("start-up", 0, b"", b"")})["start-up"]
    by_size = {size: measure_size(table, size) for size in SIZES}
    long_scripts = {**measure_long_scripts(table), **measure_bundle(table)}
    return start_up, by_size, long_scripts, over_memory(table.rows[first:])


def one_edit_reaches(great):
    """Prints what each kind of edit costs beyond no edit, and whether that is met."""
    on = f"on {EDIT_SIZE:,} bytes, beyond no edit"
    for kind, _ in policies.edits_by_kind(policies.policy(EDIT_SIZE)):
        more = great[kind].least - great["no edit"].least
        if kind in WIDE_EDITS:
            print(f"- {kind} {on}: {spoken(more)}")
        else:
            reach(f"{kind} {on}, at most {ONE_EDIT_MS} ms", more <= ONE_EDIT_MS, spoken(more))


def reaches(measured):
    """Prints whether each reach of edits is met, by the least times, and what one edit more costs."""
    start_up, by_size, long_scripts, over = measured
    waited = f"{spoken(start_up.waited)}, {spoken(start_up.median)} of the processor"
    reach(f"start-up below {START_UP_MS} ms by the clock", start_up.waited < START_UP_MS, waited)
    great, many = by_size[EDIT_SIZE], f"{EDITS:,} edits"
    one_edit_reaches(great)
    more = great[many].least - great["no edit"].least
    what = f"{many} on {EDIT_SIZE:,} bytes, beyond no edit, at most {EDITS_MS} ms"
    reach(what, more <= EDITS_MS, spoken(more, 0))
    for what, (none, runs, target) in long_scripts.items():
        more = runs.least - none.least
        reach(f"{what}, beyond no edit, at most {target:,} ms", more <= target, spoken(more, 0))
    memory_reach("one edit", great["one edit"], ONE_EDIT_BYTES)
    memory_reach("a rename", great["a rename"], RENAME_BYTES)
    what = f"edits take at most {BYTES_A_BYTE} bytes of memory a byte of input and {SPARE_BYTES // KIB // KIB} MiB"
    reach(what, not over, ", ".join(over) or "every row")
    for size, runs in by_size.items():
        none = runs["no edit"].least
        more = (runs[many].least - none) / EDITS
        print(f"- one edit more on {size:,} bytes: {spoken(more)}, where no edit takes {spoken(none)}")
