"""Hostile policies for `check` and `show`: many include lines, and many empty lines."""

import os

import policies
from hostile import POLICY, Asked, Hostile, Peer

INCLUDE_LINES = 20_000
NAMES = 300
FILES = 8
FILE_LINES = 1_000_000


def includes(ground, name, names):
    """The path of lines that include one folder of so many names, all of which an include passes over; and the policy's bytes."""
    folder = os.path.join(ground.table.folder, name)
    os.mkdir(folder, 0o755)
    for number in range(names):
        with open(os.path.join(folder, f"x{number}.conf"), "wb"):
            pass
    policy = f"@includedir {name}\n".encode() * INCLUDE_LINES
    return ground.file(policy), len(policy)


def checking(what, path, size, ordinary):
    """`check` of a policy file, beside an ordinary one of the same size and beside `visudo -c`."""
    return Hostile(what, Asked(("check", path), size), Asked(("check", ordinary), size), Peer("visudo", ("-c", "-f", path)))


def folder_of(ground, name, text):
    """The path of a file that includes a folder of some files, each with the same text."""
    folder = os.path.join(ground.table.folder, name)
    os.mkdir(folder, 0o755)
    for number in range(FILES):
        path = os.path.join(folder, str(number))
        with open(path, "wb") as file:
            file.write(text)
        os.chmod(path, 0o440)
    return ground.file(f"@includedir {folder}\n".encode())


def commands(ground):
    """The hostile commands."""
    for name, names, what in (("empty", 0, "one folder"), ("d", NAMES, "one folder of 300 other names")):
        path, size = includes(ground, name, names)
        yield checking(f"`check`, 20,000 lines that include {what}", path, size, ground.plain(size))
    path, plain = ground.file(b"\n" * POLICY), ground.plain(POLICY)
    yield checking("`check`, 1,048,576 empty lines", path, POLICY, plain)
    yield Hostile("`show`, 1,048,576 empty lines", Asked(("show", path), POLICY), Asked(("show", plain), POLICY))
    path, rules = folder_of(ground, "empty-lines", b"\n" * FILE_LINES), folder_of(ground, "rules", policies.rules(FILE_LINES))
    yield checking("`check`, 8 files of 1,000,000 empty lines", path, FILES * FILE_LINES, rules)
