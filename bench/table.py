"""The rows of the benchmark: their commands, and what their runs took."""

import os
import platform
import shutil
from dataclasses import dataclass
from typing import Optional

from timing import Command, Runs, cell

TIMES = 60
SECONDS = 4
KIB = 1024


@dataclass(frozen=True)
class Row:
    """A row before it is measured."""

    what: str  # in Markdown
    size: int  # bytes of the policy
    command: Command
    given: Optional[int] = None  # bytes of the input of `edit`


def machine():
    """The processor's name and the number of cores, in one line."""
    name = platform.processor() or platform.machine()
    try:
        with open("/proc/cpuinfo", encoding="utf-8") as file:
            names = [line.split(":", 1)[1].strip() for line in file if line.startswith("model name")]
        name = names[0] if names else name
    except OSError:
        pass
    return f"{name}, {os.cpu_count()} cores, {platform.system()} {platform.release()}"


def find(name):
    """The path of a program of sudo, None where it is not there."""
    return shutil.which(name, path=os.environ.get("PATH", "") + ":/usr/sbin:/sbin")


class Table:
    """The rows measured so far."""

    def __init__(self, program, cases, spawner, folder, most_turns=TIMES):
        self.program = program
        self.cases = cases  # None where it is not given
        self.peers = {name: find(name) for name in ("visudo", "cvtsudoers")}
        self.spawner = spawner
        self.folder = folder
        self.most_turns = most_turns  # of any row
        self.files = 0
        self.rows = []  # each with its runs

    def file(self, content):
        """Puts bytes into a new file, with the mode that `visudo` asks for, and returns its path."""
        self.files += 1
        path = os.path.join(self.folder, f"input{self.files}")
        with open(path, "wb") as file:
            file.write(content)
        os.chmod(path, 0o440)
        return path

    def row(self, what, size, words, **answer):
        """A row of the program with these words."""
        return Row(what, size, Command(f"{what} on {size:,} bytes", (self.program, *words), **answer))

    def edit(self, what, size, script, policy, words=(), mark=b"%%\n"):
        """A row of the program on a script and a policy, or on the bundle of one without a mark before it."""
        content = script + mark + policy
        command = Command(f"{what} on {size:,} bytes", (self.program, *words), self.file(content))
        return Row(what, size, command, len(content))

    def beside(self, peer, what, size, words, **answer):
        """A row of a program of sudo, by itself in a dictionary, which is empty where that program is not there."""
        path = self.peers[peer]
        return {peer: Row(what, size, Command(f"{what} on {size:,} bytes", (path, *words), **answer))} if path else {}

    def visudo(self, what, size, path):
        """The row of `visudo -c` on a policy file, as `beside` returns it."""
        return self.beside("visudo", what, size, ("-c", "-f", path))

    def by_turns(self, rows, times=TIMES, seconds=SECONDS):
        """Measures these rows by turns, and returns the runs of each by its name."""
        measured = self.spawner.by_turns({name: row.command for name, row in rows.items()}, min(times, self.most_turns), seconds)
        self.rows += [(row, measured[name]) for name, row in rows.items()]
        return measured

    def print_rows(self):
        """Prints the rows as a Markdown table."""
        print("| What | Policy, bytes | Input, bytes | Median, ms | Least, ms | Memory, KiB | Runs |")
        print("|---|---:|---:|---:|---:|---:|---:|")
        for row, runs in self.rows:
            given = f"{row.given:,}" if row.given is not None else ""
            times = f"{cell(runs.median)} | {cell(runs.least)}"
            print(f"| {row.what} | {row.size:,} | {given} | {times} | {runs.memory:,} | {runs.count} |")


def reach(what, met, measured):
    """One line of the list of reaches."""
    print(f"- {what}: **{'yes' if met else 'no'}** ({measured})")


def memory_reach(what, runs: Runs, most):
    """Prints whether runs held at most so many bytes of memory."""
    reach(f"{what} within {most // KIB // KIB} MiB", runs.memory * KIB <= most, f"{runs.memory:,} KiB")
