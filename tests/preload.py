"""Builds the preloaded library and runs the program under it.

shim/shim.c says what the library does.
"""

import os
import struct
import subprocess
import tempfile
from dataclasses import dataclass

from program import Answer, folder_with, run

SOURCE = os.path.join(os.path.dirname(os.path.abspath(__file__)), "shim", "shim.c")

# The sorts of calls for files, by the numbers that the library gives them.
SORTS = ("", "open", "look", "link", "names", "read")


@dataclass(frozen=True)
class Report:
    """The counts that the library kept during one run, in its own order."""

    loaded: int
    growths: int
    refused: int
    reads: int
    read_faults: int
    read_bytes: int
    last_read: int
    writes: int
    write_faults: int
    write_bytes: int
    calls: int
    call_faults: int
    call_sort: int

    @property
    def met(self):
        """Whether anything was refused or failed."""
        return self.refused + self.read_faults + self.write_faults + self.call_faults > 0


FIELDS = "Q" * len(Report.__dataclass_fields__)
LAYOUT = struct.Struct("=" + FIELDS)
# One run of several: its status, its counts, and how many bytes it wrote to standard output and standard error.
RUN = struct.Struct("=Q" + FIELDS + "QQ")


def next_run(stream):
    """Returns the answer and the counts of the next run that the library passes on, or None after the last."""
    head = stream.read(RUN.size)
    if not head:
        return None
    status, *counts, output, errors = RUN.unpack(head)
    texts = stream.read(output), stream.read(errors)
    return Answer(*texts, os.waitstatus_to_exitcode(status)), Report(*counts)


def with_library(tally, check):
    """Builds the library, and hands it to a check. Notes it if it cannot be built."""
    try:
        library = Preloaded()
    except (OSError, subprocess.CalledProcessError) as error:
        tally.note("the library that is preloaded", [f"it cannot be built: {error}"])
        return
    with library:
        check(library)


class Preloaded:
    """The built library, in a folder of its own that goes when it is closed."""

    def __init__(self):
        self.folder = tempfile.TemporaryDirectory(prefix="sudoers_tool_tests_")
        self.library = os.path.join(self.folder.name, "shim.so")
        self.report = os.path.join(self.folder.name, "report")
        command = ["cc", "-O2", "-fno-builtin", "-shared", "-fPIC", "-o", self.library, SOURCE]
        subprocess.run(command, check=True)

    def __enter__(self):
        return self

    def __exit__(self, *_):
        self.folder.cleanup()

    def environment(self, settings):
        """Returns the environment of a run; `settings` are the library's, without `SHIM_`, in lower case."""
        with open(self.report, "wb") as file:
            file.write(bytes(LAYOUT.size))
        set_there = {"SHIM_" + name.upper(): str(value) for name, value in settings.items()}
        return {"LD_PRELOAD": self.library, "SHIM_REPORT": self.report, **set_there}

    def run(self, program, case, **settings):
        """Runs the program on a case under these settings."""
        environment = self.environment(settings)
        answer = run(program, case.words, case.stdin, environment, folder=case.folder, files=case.files)
        with open(self.report, "rb") as file:
            return answer, Report(*LAYOUT.unpack(file.read()))

    def run_each(self, program, case, setting, first=1, last=0, **settings):
        """Yields the answer and the counts of a run for each value of `setting` from `first` up.

        The last run is that of the value `last` or, if that is 0, the first in which the setting met nothing.
        """
        environment = self.environment({"each": setting, "first": first, "last": last, **settings})
        with folder_with(case.files, case.folder) as folder, tempfile.TemporaryFile() as stdin:
            stdin.write(case.stdin)
            stdin.flush()
            command = [program, *case.words]
            with subprocess.Popen(command, stdin=stdin, stdout=subprocess.PIPE, env=environment, cwd=folder) as running:
                count = 0
                while (done := next_run(running.stdout)) is not None:
                    count += 1
                    yield done
            if running.returncode != 0 or count == 0 or last and count != last - first + 1:
                raise ValueError(f"{case.name}, each {setting}: the library stopped after {count} runs")
