"""Folders with the files of a policy, and runs of the built program in them."""

import os
import shutil
import subprocess
import tempfile
from contextlib import contextmanager
from dataclasses import dataclass, field

from program import SECONDS, Answer

NOBODY = 65534
AS_NOBODY = {"user": NOBODY, "group": NOBODY, "extra_groups": []}

# What stands in a tree in place of the text of a file.
PIPE, EMPTY_FOLDER = object(), object()


@dataclass(frozen=True)
class Link:
    """A symbolic link."""

    target: str


@dataclass(frozen=True)
class Closed:
    """A file of this text with this mode, or a folder with that mode where the text is None."""

    text: object
    mode: int = 0


def put(path, what):
    """Makes a file, a link, a pipe or a folder at a path, and its folders."""
    os.makedirs(os.path.dirname(path), exist_ok=True)
    if isinstance(what, Link):
        os.symlink(what.target.encode(errors="surrogateescape"), path.encode(errors="surrogateescape"))
    elif what is PIPE:
        os.mkfifo(path)
    elif what is EMPTY_FOLDER:
        os.makedirs(path, exist_ok=True)
    elif not isinstance(what, Closed):
        with open(path, "wb") as file:
            file.write(what if isinstance(what, bytes) else what.encode(errors="surrogateescape"))
    else:
        put(path, EMPTY_FOLDER if what.text is None else what.text)


def write(folder, tree):
    """Makes what a tree has, by its names. Modes are set last."""
    for name, what in tree.items():
        put(os.path.join(folder, name), what)
    for name, what in reversed(tree.items()):
        if isinstance(what, Closed):
            os.chmod(os.path.join(folder, name), what.mode)


class Folder:
    """A folder with this tree, which anybody may enter."""

    def __init__(self, tree):
        self.tree = tree
        self.top = tempfile.TemporaryDirectory(prefix="sudoers_tool_tests_")

    def __enter__(self):
        folder = os.path.join(self.top.name, "policy")
        os.mkdir(folder)
        os.chmod(self.top.name, 0o755)
        write(folder, self.tree)
        return folder

    def __exit__(self, *_):
        for path, folders, _ in os.walk(self.top.name):
            for one in folders:
                if not os.path.islink(os.path.join(path, one)):
                    os.chmod(os.path.join(path, one), 0o755)
        self.top.cleanup()


@dataclass(frozen=True)
class Stand:
    """The program, the count of cases, and how the program is started."""

    part: str
    program: str
    tally: object
    who: dict = field(default_factory=dict)

    def run(self, words, folder, stdin=b"", seconds=SECONDS, **how):
        """What the program answers to these words in a folder. `stdin` is bytes or an open file."""
        given = {"input": stdin} if isinstance(stdin, bytes) else {"stdin": stdin}
        words = [word for word in words.split(" ") if word] if isinstance(words, str) else words
        try:
            done = subprocess.run(
                [self.program, *words],
                stdout=subprocess.PIPE,
                stderr=subprocess.PIPE,
                env={},
                cwd=folder,
                timeout=seconds,
                check=False,
                **given,
                **self.who,
                **how,
            )
        except subprocess.TimeoutExpired:
            return Answer(b"", b"", f"none within {seconds} seconds")
        return Answer(done.stdout, done.stderr, done.returncode)

    def note(self, name, words, wanted, folder, stdin=b"", **how):
        """Runs these words, and counts the run."""
        problems = wanted.problems(self.run(words, folder, stdin, **how))
        self.tally.note(f"{self.part}: {name}, {words}", problems)


@contextmanager
def stand_of_nobody(part, program, tally):
    """A stand whose program may not read everything. As root may, another user runs a copy."""
    if os.geteuid() != 0:
        yield Stand(part, program, tally)
        return
    with tempfile.TemporaryDirectory(prefix="sudoers_tool_tests_") as top:
        os.chmod(top, 0o755)
        copy = shutil.copy(program, top)
        os.chmod(copy, 0o755)
        yield Stand(part, copy, tally, AS_NOBODY)
