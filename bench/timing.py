"""Starts commands by turns, by way of spawn.c, and sums up what their runs took. A run that is not as wanted ends the program."""

import math
import os
import signal
import statistics
import subprocess
import time
from dataclasses import dataclass
from typing import Optional

SOURCE = os.path.join(os.path.dirname(os.path.abspath(__file__)), "spawn.c")
LIMIT_SECONDS = 20  # of the processor, for one run
SLOW_MS = 4_000  # a command whose first run takes longer runs once
LEAST_TURNS = 3  # of any other command
SHOWN_WORD = 60
SHOWN_BYTES = 300


@dataclass(frozen=True)
class Command:
    """A command of a row, and what each run of it has to answer."""

    row: str  # as an error names it
    words: tuple  # the program first
    stdin: str = "/dev/null"
    status: int = 0
    error: bytes = b""  # on standard error
    output: Optional[bytes] = None  # on standard output, where that is looked at


@dataclass(frozen=True)
class Runs:
    """What the runs of one command took, in milliseconds of the processor: infinite where the limit ended a run."""

    median: float
    least: float
    waited: float  # the median by the clock
    memory: int  # greatest resident memory of any run, KiB
    count: int


def cell(milliseconds, digits=2):
    """Milliseconds as a cell of a table shows them."""
    return f"{milliseconds:,.{digits}f}" if math.isfinite(milliseconds) else f"> {LIMIT_SECONDS} s"


def spoken(milliseconds, digits=2):
    """Milliseconds with their unit."""
    return cell(milliseconds, digits) + (" ms" if math.isfinite(milliseconds) else "")


def shown(command):
    """The words of a command, the long ones cut."""
    return " ".join(word if len(word) <= SHOWN_WORD else f"{word[:SHOWN_WORD]}..." for word in command.words)


def content(path):
    """The bytes of a file."""
    with open(path, "rb") as file:
        return file.read()


def is_slow(runs):
    """Whether the first of these runs took so long that it is the only one."""
    return runs[0][0] > SLOW_MS


def summed(runs):
    """What these runs took together."""
    processor, waited, memory = zip(*runs)
    return Runs(statistics.median(processor), min(processor), statistics.median(waited), max(memory), len(runs))


class Spawner:
    """The built spawn.c."""

    def __init__(self, folder):
        self.path = os.path.join(folder, "spawn")
        self.output = os.path.join(folder, "output")
        self.errors = os.path.join(folder, "errors")
        subprocess.run(["cc", "-O2", "-o", self.path, SOURCE], check=True)

    def run(self, command):
        """The milliseconds of the processor and of the clock, and the memory, of one run, which has to answer as wanted."""
        output = self.output if command.output is not None else "/dev/null"
        words = [self.path, str(LIMIT_SECONDS), command.stdin, output, self.errors, *command.words]
        done = subprocess.run(words, stdout=subprocess.PIPE, check=False, env={})
        if done.returncode != 0:
            raise SystemExit(f"{command.row}: cannot be started: {shown(command)}")
        processor, waited, memory, status = map(int, done.stdout.split())
        if status == -signal.SIGXCPU:
            return math.inf, waited / 1e6, memory
        error = content(self.errors)
        if status != command.status:
            raise SystemExit(f"{command.row}: status {status} in place of {command.status}: {shown(command)}: {error[:SHOWN_BYTES]!r}")
        wanted = [("error", error, command.error)]
        if command.output is not None:
            wanted.append(("output", content(self.output), command.output))
        for stream, found, want in wanted:
            if found != want:
                raise SystemExit(f"{command.row}: standard {stream} {found[:SHOWN_BYTES]!r} in place of {want[:SHOWN_BYTES]!r}: {shown(command)}")
        return processor / 1e6, waited / 1e6, memory

    def by_turns(self, commands, times, seconds):
        """The runs of each command by its name: each runs once, and so again.

        There are at most so many turns, and no more once so many seconds for each command have passed.
        """
        end = time.monotonic() + seconds * len(commands)
        runs = {name: [self.run(command)] for name, command in commands.items()}
        for turn in range(1, times):
            if turn >= LEAST_TURNS and time.monotonic() > end:
                break
            for name, command in commands.items():
                if not is_slow(runs[name]):
                    runs[name].append(self.run(command))
        return {name: summed(found) for name, found in runs.items()}
