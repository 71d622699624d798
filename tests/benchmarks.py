"""Runs the quick rows of the benchmark, each once. Each command has to answer as its row says, or the benchmark ends."""

import os
import subprocess
import sys

from tally import difference

TOP = os.path.dirname(os.path.dirname(os.path.abspath(__file__)))
BENCH = os.path.join(TOP, "bench", "run")
SECONDS = 300

FIRST = b"`show`, no policy on 0 bytes: status 1 in place of 0: "
SEEN = (b"| `check` | 1,000,000 |", b"| `convert -f json` | 1,000,000 |", b"| `check`, 200 files | 1,000,000 |", b"are left out.")


def bench(*words):
    """Returns what the benchmark does with these words."""
    return subprocess.run([sys.executable, BENCH, *words], stdin=subprocess.DEVNULL, capture_output=True, timeout=SECONDS, check=False)


def quick_problems(program):
    """The quick rows are measured, and each is printed."""
    done = bench("--quick", program)
    problems = difference("exit status", 0, done.returncode) + difference("standard error", b"", done.stderr)
    return problems + [f"standard output lacks {piece}" for piece in SEEN if piece not in done.stdout]


def refused_problems():
    """A program that answers something else ends the benchmark, and its row is named."""
    done = bench("--quick", "/bin/false")
    problems = difference("exit status", 1, done.returncode) + difference("standard output", b"", done.stdout)
    return problems + difference("standard error", FIRST, done.stderr[: len(FIRST)])


def usage_problems():
    """Without a program the words of the benchmark are printed."""
    done = bench("--quick")
    problems = difference("exit status", 2, done.returncode)
    return problems + difference("bench/run in standard error", True, b"bench/run [--quick] PROGRAM [CASES]" in done.stderr)


def run_all(program, tally):
    """Runs the cases of the benchmark's script."""
    tally.note("benchmarks/quick", quick_problems(program))
    tally.note("benchmarks/another answer", refused_problems())
    tally.note("benchmarks/usage", usage_problems())
