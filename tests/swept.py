"""A policy of the sweep with what is known of it, and the questions to the program `cases` about many of them at once."""

from collections import Counter
from dataclasses import dataclass, field

from tables import asked


@dataclass
class Swept:
    """A policy: its number, its files, and what the libraries and the program said of it.

    `fault` is the text of its error, and None if it is a policy. It is gathered if its first file leads to all others, which
    then have the order in which they are gathered. The texts of `versions` have to answer each question as the policy
    does: what `convert` printed, or what a rename or a prune left.
    """

    number: int
    files: tuple
    draw: object
    problems: list = field(default_factory=list)
    fault: object = None
    report: bytes = b""
    strict: bytes = b""
    is_gathered: bool = True
    edits: list = field(default_factory=list)
    accepted: list = field(default_factory=list)
    refusal: object = None
    edited: tuple = ()
    inverse: bytes = b""
    rename: object = None
    versions: dict = field(default_factory=dict)
    printed: object = None
    expanded: object = None
    people: object = None
    questions: list = field(default_factory=list)
    rows: list = field(default_factory=list)
    listing: bytes = b""

    @property
    def loads(self):
        """Whether it is a policy."""
        return self.fault is None

    @property
    def is_alone(self):
        """Whether it has one file."""
        return len(self.files) == 1

    def wants(self, what, wanted, came):
        """Notes a problem where something is not as it has to be."""
        if wanted != came:
            self.problems.append(f"{what}: wanted {wanted!r}, came {came!r}"[:1_000])


@dataclass
class Sweep:
    """A sweep: the two programs, the worked policies, the seed, and what was counted."""

    program: str
    cases: str
    seeds: object
    seed: int
    counts: Counter = field(default_factory=Counter)

    def ask(self, frames):
        """Returns the answers to frames, each with the number of its calls: a list for each."""
        lines = asked(self.cases, [frame for frame, _ in frames])
        if len(lines) != sum(count for _, count in frames):
            raise ValueError(f"{len(lines)} answers to {sum(count for _, count in frames)} calls")
        answers, at = [], 0
        for _, count in frames:
            answers.append(lines[at : at + count])
            at += count
        return answers
