"""Runs the built program on policies of several files, which are made here.

The rows stand in included_rows.py. The program runs in a folder with the files of a row. `check` prints an error of a
policy on standard output, and the other commands on standard error. All of them print an error of the run on standard
error.
"""

import os

from included_rows import ASKED, DEPTH, ERRORS, NOT_READABLE, NOT_REGULAR, PEOPLE, PRINTED, RUN_ERRORS, chain
from program import Wanted, fault
from stand import EMPTY_FOLDER, PIPE, Closed, Folder, Link, Stand, stand_of_nobody

ROOT = "main"
COMMANDS = ("show", "convert -f sudoers", "convert -f json -e", f"{ASKED} bob", f"{ASKED} bob --why")

# How long a run may wait that opens no file for which one waits.
AT_ONCE = 5


def with_people(files):
    """A folder with these files and those of users and groups."""
    return Folder({**PEOPLE, **files})


def with_command(command, root):
    """The words of a command for a policy. A question has a command to ask for."""
    return f"{command} {root} /bin/a" if command.endswith("--why") else f"{command} {root}"


def run_error(stand, name, files, text, root=ROOT):
    """An error of a policy: `check` prints it on standard output."""
    with with_people(files) as folder:
        line = text.encode(errors="surrogateescape")
        stand.note(name, f"check {root}", Wanted(line + b"\n", status=1), folder)
        stand.note(name, f"check -s {root}", Wanted(line + b"\n", status=1), folder)
        stand.note(name, f"check -q {root}", Wanted(status=1), folder)
        for command in COMMANDS:
            stand.note(name, with_command(command, root), Wanted(stderr=b"sudoers_tool: " + line + b"\n", status=1), folder)


def run_failure(stand, name, folder, text, **how):
    """An error of the run: all commands print it on standard error."""
    for command in ("check", "check -q", *COMMANDS):
        stand.note(name, with_command(command, ROOT), fault(text), folder, **how)


def run_links(stand):
    """A link to a file of a folder is a file of it; one to a folder or to nothing is none."""
    links = (("link", "../real"), ("dangling", "../none"), ("to_a_folder", "../e"), ("loop", "loop"))
    tree = {"main": "@includedir d\n", "d/a": "# a\n", "real": "# b\n", "e/f": "no policy\n", "d/pipe": PIPE}
    with with_people({**tree, **{f"d/{name}": Link(target) for name, target in links}}) as folder:
        shown = "file 1 main\n1 include 1\nfile 2 d/a\n1 comment 1\nfile 3 d/link\n1 comment 1\n"
        stand.note("links", "show main", Wanted(shown.encode()), folder)


def run_not_readable(stand):
    """A file or a folder that the user may not read."""
    for name, files, closed, mode in NOT_READABLE:
        with with_people(files) as folder:
            os.chmod(os.path.join(folder, closed), mode)
            run_failure(stand, name, folder, "Failed")


def run_passed_over(stand):
    """Nothing is asked of names that are passed over, in a folder that the user may list but not search."""
    with with_people({"main": "@includedir d\n", "d/a.x": "no policy\n", "d/b~": EMPTY_FOLDER, "d": Closed(None, 0o444)}) as folder:
        listed = b"d/a.x: not read: its name contains '.'\nd/b~: not read: its name ends in '~'\n"
        stand.note("passed_over", "check --skipped main", Wanted(b"main: parsed OK\n" + listed), folder)


def run_all(program, tally):
    """Runs all rows."""
    stand = Stand("including", program, tally)
    for name, files, words, text, status in PRINTED:
        with with_people(files) as folder:
            stand.note(name, words, Wanted(text.encode(), status=status), folder)
    for name, files, text in ERRORS:
        run_error(stand, name, files, text)
    run_error(stand, "nested_too_deep", chain(DEPTH + 1), f"f{DEPTH}:1:1: includes nested too deep", "f0")
    for name, files, text in RUN_ERRORS:
        with with_people(files) as folder:
            run_failure(stand, name, folder, text)
    for name, files in NOT_REGULAR:
        with with_people(files) as folder:
            run_failure(stand, name, folder, "Failed", seconds=AT_ONCE)
    run_links(stand)
    with stand_of_nobody("including", program, tally) as nobody:
        run_not_readable(nobody)
        run_passed_over(nobody)
