"""The rows of `show` and `check`, with `visudo -c` beside them, and whether their reaches are met."""

import policies
from reaches import reach_growth, reach_share
from table import KIB, memory_reach

SIZES = (10_000, 100_000, 1_000_000)
ALIASES = (2_000, 4_000, 8_000)
CHAINS = (1_000, 2_000, 4_000)
MEMBERS = (8_000, 16_000, 32_000)
SHOW_SHARE = 3
CHECK_SHARE = 3
SHOW_BYTES = 24 * KIB * KIB


def measure_size(table, size):
    """The runs of `show`, `check` and `visudo -c` on the ordinary policy of a size, by turns."""
    path = table.file(b"".join(policies.policy(size)))
    rows = {word: table.row(f"`{word}`", size, (word, path)) for word in ("show", "check")}
    return table.by_turns({**rows, **table.visudo("`visudo -c`", size, path)})


def measure_growths(table):
    """The runs of `show` on no policy, on many aliases and on many members, and of `check` on long chains and cycles."""
    grown = {
        ("show", "aliases"): (ALIASES, policies.many_aliases, "{:,} aliases"),
        ("show", "members"): (MEMBERS, policies.many_members, "{:,} members"),
        ("check", "chain"): (CHAINS, policies.chain, "a chain of {:,}"),
        ("check", "cycle"): (CHAINS, policies.cycle, "a cycle of {:,}"),
    }
    rows = {"empty": table.row("`show`, no policy", 0, ("show", table.file(b"")))}
    for (word, what), (counts, policy, name) in grown.items():
        for count in counts:
            text = policy(count)
            rows[what, count] = table.row(f"`{word}`, {name.format(count)}", len(text), (word, table.file(text)))
    measured = table.by_turns(rows)
    by_count = {what: [measured[what, count] for count in counts] for (_, what), (counts, *_) in grown.items()}
    return {"empty": measured["empty"], **by_count}


def measure(table):
    """Measures all rows of reading."""
    return measure_growths(table), {size: measure_size(table, size) for size in SIZES}


def reaches(measured):
    """Prints whether each reach of reading is met."""
    growths, by_size = measured
    great, empty = by_size[SIZES[-1]], growths["empty"]
    on = f"on {SIZES[-1]:,} bytes"
    reach_share(f"`show` {on}", great["show"], SHOW_SHARE, great.get("visudo"), "visudo -c")
    memory_reach(f"`show` {on}", great["show"], SHOW_BYTES)
    reach_growth("show", "the bytes of the text", empty, SIZES, [by_size[size]["show"] for size in SIZES])
    reach_growth("show", "the number of aliases", empty, ALIASES, growths["aliases"])
    reach_growth("show", "the number of an alias's members", empty, MEMBERS, growths["members"])
    reach_share(f"`check` {on}", great["check"], CHECK_SHARE, great.get("visudo"), "visudo -c")
    reach_growth("check", "the length of a chain", empty, CHAINS, growths["chain"])
    reach_growth("check", "the length of a cycle", empty, CHAINS, growths["cycle"])
