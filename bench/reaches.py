"""Prints whether shares of a time, and growths, are as they ought to be."""

from table import reach
from timing import spoken

GROWTH_NOISE = 1.3


def reach_share(what, runs, share, peer, name):
    """Prints whether runs take at most this share of the time of a peer with a name, by the medians; it has no runs where it is not installed."""
    if peer is None:
        print(f"- {what}: {name} is not installed")
        return
    what = f"{what} within 1/{share} of the time of `{name}`"
    reach(what, runs.median * share <= peer.median, f"{spoken(runs.median)}, {spoken(peer.median)}")


def reach_times(what, runs, times, base, name):
    """Prints whether runs take at most so many times the time of others with a name, by the medians."""
    what = f"{what} within {times} times the time of {name}"
    reach(what, runs.median <= times * base.median, f"{spoken(runs.median)}, {spoken(base.median)}")


def reach_growth(word, what, empty, counts, rows):
    """Prints whether the time of a subcommand grows at most as counts do, by the least times and without that of no policy."""
    times = [runs.least - empty.least for runs in rows]
    steps = zip(counts, counts[1:], times, times[1:])
    met = all(after <= before * (more / less) * GROWTH_NOISE for less, more, before, after in steps)
    measured = ", ".join(f"{count:,}: {spoken(time)}" for count, time in zip(counts, times))
    reach(f"the time of `{word}` grows at most in proportion with {what}", met, measured)
