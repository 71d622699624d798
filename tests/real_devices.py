"""Devices that fail without any library: a folder, a full device, broken and endless pipes."""

import os
import threading

from chosen import read_fault
from program import Wanted, fault, run

CLOSED = 'exec "$@" <&-'
FULL_ERRORS = 'exec "$@" 2>/dev/full'


def run_reads(program, tally, case, too_large):
    """A folder and an endless pipe as standard input; to the pipe `too_large` has to come."""
    folder = os.open("/", os.O_RDONLY)
    try:
        problems = read_fault(case).problems(run(program, case.words, folder, folder=case.folder, files=case.files))
    finally:
        os.close(folder)
    tally.note(f"{case.name}, a folder as standard input", problems)
    tally.note(f"{case.name}, a pipe without end as standard input", pipe_problems(program, case, too_large))


def run_closed(program, tally, case):
    """A closed standard input, which is no file that the words name. `list` sees it when it opens passwd."""
    words = ("-c", CLOSED, "sh", program, *case.words)
    problems = read_fault(case).problems(run("/bin/sh", words, folder=case.folder, files=case.files))
    tally.note(f"{case.name}, a closed standard input", problems)


def run_full_errors(program, tally):
    """Wrong words have their status, though nothing can be written to standard error."""
    for words in (("lint",), ("check",), ("list", "-x"), ("convert", "-f")):
        answer = run("/bin/sh", ("-c", FULL_ERRORS, "sh", program, *words))
        tally.note(f"{' '.join(words)}, a full standard error", Wanted(status=2).problems(answer))


def run_writes(program, tally, case):
    """A full device and a closed pipe as standard output."""
    for name, open_output in (("a full device", full_device), ("a closed pipe", closed_pipe)):
        tally.note(f"{case.name}, {name} as standard output", write_problems(program, case, open_output()))


def full_device():
    """A device that takes no byte."""
    return os.open("/dev/full", os.O_WRONLY)


def closed_pipe():
    """A pipe that nobody reads any more."""
    reader, writer = os.pipe()
    os.close(reader)
    return writer


def write_problems(program, case, output):
    """Runs the case into a file that takes nothing."""
    try:
        return fault("Write").problems(run(program, case.words, case.stdin, stdout=output, folder=case.folder, files=case.files))
    finally:
        os.close(output)


def feed(writer):
    """Writes without end, up to the reader's."""
    with os.fdopen(writer, "wb", buffering=0) as pipe:
        try:
            while True:
                pipe.write(b"#" * 65_536)
        except BrokenPipeError:
            pass


def pipe_problems(program, case, too_large):
    """The program ends by itself though the pipe never does."""
    reader, writer = os.pipe()
    feeder = threading.Thread(target=feed, args=(writer,))
    feeder.start()
    try:
        problems = too_large.problems(run(program, case.words, reader, folder=case.folder, files=case.files))
    finally:
        os.close(reader)
        feeder.join()
    return problems
