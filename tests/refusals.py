"""Refuses each growth of memory of frames of the program `cases`, one growth a run.

A frame is asked twice in one run. Each of its answers has to be that of ample memory, or `NoMemory`. If the first frame was
refused memory, the second one, asked in the same process, has to be answered as with ample memory.
"""

import re
from dataclasses import dataclass

from cases import Case
from program import Wanted
from tally import difference

# The answer to a frame in which a growth was refused of something that has no fault of its own for that.
NO_MEMORY = b"no memory"
# The answers that say that a growth was refused; in a list of edits with the place of the edit.
REFUSED = re.compile(rb"no memory|NoMemory|Err\(NoMemory\)|Some\(Err\(NoMemory\)\)|Err\(\((\d+), NoMemory\)\)")
# Bytes that are no whole case fill each input up to this size, so that it is read with the same growths.
SIZE, FILLER = 65_536, b"\xff"


def is_refused(line):
    """Returns whether an answer says that a growth was refused."""
    return REFUSED.fullmatch(line) is not None


@dataclass(frozen=True)
class Asking:
    """A frame whose answers do not depend on each other: its name, the frame, and its answers with ample memory.

    The growths that are refused are those of the frame up to the end of `upto`, without those of `before`. Both are frames
    that begin as it does.
    """

    name: str
    frame: bytes
    ample: tuple
    before: bytes
    upto: bytes

    def problems(self, lines):
        """Returns what is wrong with the answers to the frame, of which some may be refused."""
        wanted = [ample if not is_refused(line) else line for line, ample in zip(lines, self.ample)]
        return difference("the answers", wanted, list(lines))


class Stand:
    """The program `cases`, the library that is preloaded into it, and the count of cases."""

    def __init__(self, program, library, tally):
        self.program = program
        self.library = library
        self.tally = tally
        self.counted = {}
        # The first words of the names of what was refused memory.
        self.refused = set()

    def run(self, frames):
        """Returns the answers to frames with ample memory, and how often the program grew memory."""
        stdin = frames + FILLER * (SIZE - len(frames))
        answer, report = self.library.run(self.program, Case("", (), stdin, Wanted(b"")))
        return tuple(answer.stdout.split(b"\n")[:-1]), report.growths

    def growths(self, frames):
        """Returns how often the program grows memory for frames."""
        if frames not in self.counted:
            self.counted[frames] = self.run(frames)[1]
        return self.counted[frames]

    def ample(self, frame):
        """Returns the answers to a frame with ample memory."""
        return self.run(frame)[0]

    def refuse_each(self, asking):
        """Refuses each growth of a frame, notes each run, and asks the frame again in it."""
        twice = asking.frame * 2
        case = Case(asking.name, (), twice + FILLER * (SIZE - len(twice)), Wanted(b""))
        first, last, met = self.growths(asking.before) + 1, self.growths(asking.upto), 0
        if first > last:
            self.tally.note(f"{asking.name}: growths", ["there is none"])
            return
        runs = self.library.run_each(self.program, case, "refuse_growth", first, last)
        for number, (answer, report) in enumerate(runs, 1):
            refused, problems = problems_of_run(asking, answer)
            met += refused
            problems += difference("refused growths", 1, report.refused)
            self.tally.note(f"{asking.name}: growth {number}", problems)
        self.tally.note(f"{asking.name}: growths", difference("some are not made good", True, met > 0))
        self.refused |= {asking.name.partition(" ")[0]} if met else set()


def split_answers(lines, size):
    """Returns the answers to the first and to the second of two frames, each of which has so many or one alone."""
    stop = 1 if lines[:1] == (NO_MEMORY,) else size
    return lines[:stop], lines[stop:]


def problems_of_frame(asking, lines):
    """Returns what is wrong with the answers to one frame."""
    if lines == (NO_MEMORY,):
        return []
    if len(lines) != len(asking.ample):
        return [f"{len(lines)} answers in place of {len(asking.ample)}"]
    return asking.problems(lines)


def problems_of_run(asking, answer):
    """Returns whether a frame was refused memory, and what is wrong with its answers and with those to it asked again."""
    first, second = split_answers(tuple(answer.stdout.split(b"\n")[:-1]), len(asking.ample))
    problems = difference("status", 0, answer.status) + problems_of_frame(asking, first)
    problems += difference("the answers to the frame asked again", asking.ample, second)
    return any(map(is_refused, first)), problems
