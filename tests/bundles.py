"""The inputs of `edit` that the rows of tests/rows make: a script and a policy, or a script and files in a bundle; and bundles."""

from dataclasses import replace

import cases
from cases import Case, NoRow
from program import Wanted

MARK = b"%%\n"


def joined(script, policy):
    """A script and a policy with the mark between them."""
    if script and not script.endswith(b"\n") or b"\n" + MARK in b"\n" + script:
        raise NoRow("a script ends in `\\n`, and no line of it is the mark")
    return script + MARK + policy


def bundle(files):
    """The bundle of files, each a name and a text."""
    return b"".join(b"%%%% %d %s\n%s" % (len(text), name, text) for name, text in files)


def files_of(cell):
    """The files `NAME: TEXT` with ` | ` between two."""
    files = [one.partition(b":") for one in cell.split(b" | ")]
    if not all(colon and rest[:1] in (b"", b" ") for _, colon, rest in files):
        raise NoRow(f"no files: {cell!r}")
    return [(name, rest[1:]) for name, _, rest in files]


def files_of_output(output):
    """The bundle of an output or an input of `edit`: its files, from the first line `%% LENGTH NAME` on, as names and texts."""
    at, files = (b"\n" + output).find(b"\n%% "), []
    if at < 0:
        return files
    while at < len(output):
        _, size, name = output[at : output.index(b"\n", at)].split(b" ", 2)
        at = output.index(b"\n", at) + 1
        files.append((name, output[at : at + int(size)]))
        at += int(size)
    return files


def with_files(script, cell):
    """A script and the bundle of the files of a cell after it."""
    return joined(script, b"").removesuffix(MARK) + bundle(files_of(cell))


def refused_in_files(given, answer):
    """A script, files and the error."""
    return Case("", (), with_files(given["script"], given["files"]), cases.error_of(answer[0]))


def pruned_in_files(given, answer):
    """A script, files, the undo script, which leads back to the files alone, and the edited files."""
    words = (b"edit", *given["counts"]) if "counts" in given else ()
    return Case("", words, with_files(given["script"], given["files"]), Wanted(with_files(*answer)))


def accepted_in_files(given, answer):
    """The same, but the undo script leads back to the script too."""
    return replace(pruned_in_files(given, answer), back=True)
