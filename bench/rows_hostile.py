"""The rows of commands on hostile policies, and whether their reaches are met beside ordinary policies of the same size."""

import math
import subprocess

import hostile_edits
import hostile_files
import hostile_lists
import hostile_patterns
import hostile_reviews
from hostile import Ground
from table import KIB, memory_reach, reach
from timing import spoken

SUBJECTS = (hostile_patterns, hostile_lists, hostile_reviews, hostile_files, hostile_edits)
# how much longer a command may take on a hostile policy than on an ordinary one of the same size, and with how much memory
HOSTILE_TIMES = 10
HOSTILE_MEMORY = 24 * KIB * KIB
HOSTILE_RUNS = 5
BLOCK = 1 << 20


def printed_bytes(table, asked):
    """How many bytes a command prints."""
    count = 0
    with subprocess.Popen([table.program, *asked.words], stdin=subprocess.DEVNULL, stdout=subprocess.PIPE, env={}) as started:
        while block := started.stdout.read(BLOCK):
            count += len(block)
    return count


def nanoseconds_a_byte(table, asked, runs):
    """The time of a byte that a command prints, infinite where the limit ended it."""
    return runs.median * 1e6 / printed_bytes(table, asked) if math.isfinite(runs.median) else math.inf


def measure_one(table, hostile):
    """The runs of a hostile command, of the same on an ordinary policy and of a program of sudo, by turns."""
    rows = {}
    for key, what, asked in (("hostile", hostile.name, hostile.asked), ("ordinary", f"{hostile.name}: {hostile.beside}", hostile.ordinary)):
        rows[key] = table.row(what, asked.size, asked.words, stdin=asked.stdin, status=asked.status, error=asked.error)
    peer = hostile.peer
    if peer:
        what = f"{hostile.name}: `{peer.program}`"
        rows |= table.beside(peer.program, what, hostile.asked.size, peer.words, status=peer.status, error=peer.error)
    return table.by_turns(rows, HOSTILE_RUNS)


def measure(table):
    """The runs of each hostile command, and the nanoseconds of a byte of those whose output is counted."""
    ground, measured = Ground(table), []
    for subject in SUBJECTS:
        for hostile in subject.commands(ground):
            runs, rates = measure_one(table, hostile), None
            if hostile.printed:
                pairs = ((hostile.asked, runs["hostile"]), (hostile.ordinary, runs["ordinary"]))
                rates = [nanoseconds_a_byte(table, asked, found) for asked, found in pairs]
            measured.append((hostile, runs, rates))
    return measured


def beside(hostile, runs):
    """What the program of sudo took that ran beside a hostile command, if there is one."""
    peer = hostile.peer and runs.get(hostile.peer.program)
    return f"; `{hostile.peer.program}`: {spoken(peer.median)}" if peer else ""


def rate_reach(hostile, rates, runs):
    """Prints whether a byte of output takes at most so many times as long as on an ordinary policy."""
    rate, plain = rates
    what = f"{hostile.name}, a byte of output within {HOSTILE_TIMES} times the time of {hostile.beside}"
    factor = f"{rate:.0f} ns, factor {rate / plain:.1f}" if math.isfinite(rate) else spoken(rate)
    reach(what, rate <= HOSTILE_TIMES * plain, f"{factor}, {plain:.0f} ns; all {spoken(runs['hostile'].median)}{beside(hostile, runs)}")


def time_reach(hostile, runs):
    """Prints whether a hostile command takes at most so many times as long as on an ordinary policy."""
    took, plain = runs["hostile"].median, runs["ordinary"].median
    what = f"{hostile.name}, within {HOSTILE_TIMES} times the time of {hostile.beside} of the same size"
    reach(what, took <= HOSTILE_TIMES * plain, f"{spoken(took)}, {spoken(plain)}{beside(hostile, runs)}")


def reaches(measured):
    """Prints whether each reach of the hostile policies is met."""
    for hostile, runs, rates in measured:
        if rates:
            rate_reach(hostile, rates, runs)
        else:
            time_reach(hostile, runs)
        memory_reach(hostile.name, runs["hostile"], HOSTILE_MEMORY)
