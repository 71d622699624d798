"""Runs the built program once and holds what it answered."""

import contextlib
import os
import subprocess
import tempfile
from dataclasses import dataclass

from tally import difference, shown

NAME = b"sudoers_tool: "
# the longest takes some 15 s on a quiet machine; a busy one may need several times as long
SECONDS = 120


@dataclass(frozen=True)
class Answer:
    """What one run wrote and the status it ended with."""

    stdout: bytes
    stderr: bytes
    status: object


@dataclass(frozen=True)
class Wanted:
    """What a run has to answer.

    A stream that is None is not compared; instead each text of its `has` list
    must occur in it.
    """

    stdout: object = b""
    stderr: object = b""
    status: int = 0
    stdout_has: tuple = ()
    stderr_has: tuple = ()

    def problems(self, answer):
        """The lines that say where `answer` is another, none where it is not."""
        lines = []
        for stream in ("stdout", "stderr"):
            whole, came = getattr(self, stream), getattr(answer, stream)
            if whole is not None:
                lines += difference(stream, whole, came)
            for text in getattr(self, stream + "_has"):
                if text not in came:
                    lines += [f"{stream}: wanted to hold {shown(text)}", f"{stream}: came   {shown(came)}"]
        return lines + difference("status", self.status, answer.status)


def fault(text, status=1):
    """What a run has to answer that ends in the fault with this text and this status."""
    return Wanted(stderr=NAME + text.encode() + b"\n", status=status)


@contextlib.contextmanager
def folder_with(files, folder=None):
    """Makes a folder with these files, each a name and a text, and removes it. Without files it is `folder`."""
    if not files:
        yield folder
        return
    with tempfile.TemporaryDirectory(prefix="sudoers_tool_tests_") as made:
        for name, text in files:
            path = os.path.join(made, name)
            os.makedirs(os.path.dirname(path), exist_ok=True)
            with open(path, "wb") as file:
                file.write(text)
        yield made


def run(program, words=(), stdin=b"", environment=None, stdout=subprocess.PIPE, folder=None, files=()):
    """Runs `program` with these words, in `folder` or in a new folder with `files`, where one is given.

    `stdin` is bytes or an open file. Where `stdout` is an open file, the answer holds nothing of what went there.
    """
    with folder_with(files, folder) as where:
        return run_in(where, [program, *words], stdin, environment, stdout)


def run_in(folder, command, stdin, environment, stdout):
    """Runs a command in a folder."""
    how = {"input": stdin} if isinstance(stdin, bytes) else {"stdin": stdin}
    try:
        done = subprocess.run(
            command,
            stdout=stdout,
            stderr=subprocess.PIPE,
            env=environment or {},
            cwd=folder,
            timeout=SECONDS,
            check=False,
            **how,
        )
    except subprocess.TimeoutExpired:
        return Answer(b"", b"", f"none within {SECONDS} seconds")
    return Answer(done.stdout or b"", done.stderr, done.returncode)
