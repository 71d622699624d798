"""Counts the cases that passed, and prints those that failed or were skipped."""

SHOWN = 300


def shown(value):
    """`value` as Python spells it, its middle left out where it is long."""
    text = repr(value)
    if len(text) <= SHOWN:
        return text
    half = SHOWN // 2
    return f"{text[:half]} ... {text[-half:]} ({len(value)} bytes)"


class Tally:
    """How many cases passed, failed and were skipped."""

    def __init__(self):
        self.passed = 0
        self.failed = 0
        self.skipped = 0

    def note(self, name, problems):
        """Counts one case; `problems` is a list of lines, empty where it passed."""
        if not problems:
            self.passed += 1
            return
        self.failed += 1
        print(f"FAILED {name}")
        for problem in problems:
            print(f"    {problem}")

    def skip(self, name, why):
        """Counts one case that cannot run on this machine, and prints why."""
        self.skipped += 1
        print(f"SKIPPED {name}: {why}")

    def add(self, other):
        """Adds the counts of another tally."""
        self.passed += other.passed
        self.failed += other.failed
        self.skipped += other.skipped


def difference(what, wanted, came):
    """A list with one line where `came` is not `wanted`, else an empty list."""
    if wanted == came:
        return []
    return [f"{what}: wanted {shown(wanted)}", f"{what}: came   {shown(came)}"]
