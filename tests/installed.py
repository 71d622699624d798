"""Compares the notes of `check --installed` about the disk with what sudo and visudo do.

A row of ROWS changes the owner and the mode of files of a policy, as root may, and has the notes that are wanted: those
of the rules of sudoers(5) and of `visudo -c`, in the words of docs/files.md. The program runs on the folder by its path,
and below `--root`. Then `visudo -c -O -P -f` has to find bad just the files with a note, and sudo has to run just the
commands of the files without a note `not read by sudo`. sudo runs where its policy is the file of the row: the file is
mounted over /etc/sudoers for this one process. Where the system allows that not, or has no sudo, that is skipped.
"""

import os
import re
import shutil
import subprocess
from dataclasses import dataclass

from cases import Case
from devices import Stand as Devices
from devices import refuse_growths
from preload import with_library
from program import SECONDS, Wanted, fault
from stand import EMPTY_FOLDER, Closed, Folder, Link, Stand, stand_of_nobody
from tally import difference

PART = "installed"
REPORT = "{0}/main: parsed OK\n"
FILES = ("main", "inc", "d/a", "d/b")
TREE = {
    "main": "root ALL = ALL\nnobody ALL = /bin/main\n@include {0}/inc\n@includedir {0}/d\n",
    "inc": "nobody ALL = /bin/inc\n",
    "d/a": "nobody ALL = /bin/a\n",
    "d/b": "nobody ALL = /bin/b\n",
}
# The owner, the group and the mode that sudo and visudo accept.
GOOD_FILE, GOOD_FOLDER = (0, 0, 0o440), (0, 0, 0o755)
NO_FILE_OF_THE_FOLDER = ("d/a", "d/b")


@dataclass(frozen=True)
class Row:
    """Owners, groups and modes by names, the notes, and the files whose commands sudo does not know."""

    name: str
    changes: dict
    notes: tuple
    lost: tuple = ()


def not_read(name, wrong):
    """The row of a file in the main file, or of the main file itself, which sudo refuses."""
    return {"lost": FILES if name == "main" else (name,), "notes": (f"{name}: not read by sudo: {wrong}",)}


def refused(name, wrong):
    """The row of a file that visudo refuses and sudo reads."""
    return {"notes": (f"{name}: refused by visudo -c: {wrong}",)}


def rows_of_file(name):
    """The rows of one wrong file."""
    wanted = (
        ("another owner", (1000, 0, 0o440), not_read(name, "owner 1000:0, should be 0:0")),
        ("another owner and group", (1000, 1000, 0o440), not_read(name, "owner 1000:1000, should be 0:0")),
        ("everybody may write", (0, 0, 0o442), not_read(name, "mode 0442, should be 0440")),
        ("everybody may do all", (0, 0, 0o777), not_read(name, "mode 0777, should be 0440")),
        ("the group of root may write", (0, 0, 0o460), refused(name, "mode 0460, should be 0440")),
        ("another group", (0, 1000, 0o440), refused(name, "owner 0:1000, should be 0:0")),
        ("everybody may read", (0, 0, 0o644), refused(name, "mode 0644, should be 0440")),
        ("the owner alone may read", (0, 0, 0o400), refused(name, "mode 0400, should be 0440")),
        ("nobody may read", (0, 0, 0), refused(name, "mode 0000, should be 0440")),
        ("a sticky bit", (0, 0, 0o1440), refused(name, "mode 1440, should be 0440")),
        ("the user's bit", (0, 0, 0o4440), refused(name, "mode 4440, should be 0440")),
    )
    for what, access, row in wanted:
        yield Row(f"{name}, {what}", {name: access}, **row)
    lost = FILES if name == "main" else (name,)
    another_group = (
        f"{name}: refused by visudo -c: owner 0:1000, should be 0:0",
        f"{name}: not read by sudo: mode 0460, should be 0440",
    )
    yield Row(f"{name}, another group may write", {name: (0, 1000, 0o460)}, another_group, lost)
    both = (
        f"{name}: not read by sudo: owner 1000:0, should be 0:0",
        f"{name}: refused by visudo -c: mode 0644, should be 0440",
    )
    yield Row(f"{name}, another owner and mode", {name: (1000, 0, 0o644)}, both, lost)


def folder_row(what, access, *wrong):
    """A row of the included folder, of which sudo reads no file if something is wrong."""
    notes = tuple(f"d: not read by sudo: {one}" for one in wrong)
    return Row(f"folder, {what}", {"d": access}, notes, NO_FILE_OF_THE_FOLDER if wrong else ())


ROWS = (
    Row("all is well", {}, ()),
    *(row for name in ("main", "inc", "d/a") for row in rows_of_file(name)),
    folder_row("another owner", (1000, 0, 0o755), "owner 1000:0, should be 0:0"),
    folder_row("everybody may write", (0, 0, 0o777), "mode 0777, should be 0755"),
    folder_row("as a folder for temporary files", (0, 0, 0o1777), "mode 1777, should be 1755"),
    folder_row("everybody may write, but not list", (0, 0, 0o702), "mode 0702, should be 0700"),
    folder_row("another group may write", (0, 1000, 0o775), "mode 0775, should be 0755"),
    folder_row("another owner, and all may write", (1000, 0, 0o777), "owner 1000:0, should be 0:0", "mode 0777, should be 0755"),
    folder_row("another group may read", (0, 1000, 0o750)),
    folder_row("the group of root may write", (0, 0, 0o775)),
    folder_row("the owner alone", (0, 0, 0o700)),
    folder_row("nobody", (0, 0, 0)),
    Row(
        "all files, in the order of the walk",
        {"main": (0, 0, 0o640), "inc": (0, 0, 0o646), "d": (0, 7, 0o770), "d/a": (5, 6, 0o440), "d/b": (0, 0, 0o600)},
        (
            "main: refused by visudo -c: mode 0640, should be 0440",
            "d: not read by sudo: mode 0770, should be 0750",
            "inc: not read by sudo: mode 0646, should be 0440",
            "d/a: not read by sudo: owner 5:6, should be 0:0",
            "d/b: refused by visudo -c: mode 0600, should be 0440",
        ),
        ("inc", *NO_FILE_OF_THE_FOLDER),
    ),
)

# Links, by their names; where a file of the policy stands in their place; owners and modes; the notes; what sudo lacks.
LINKS = (
    ("a file", {"inc": Link("other")}, {"other": "inc"}, {}, ("inc: symbolic link to {0}/other",), ()),
    ("a link to a link", {"inc": Link("more"), "more": Link("{0}/other")}, {"other": "inc"}, {}, ("inc: symbolic link to {0}/other",), ()),
    (
        "a file of the folder whose target has another owner",
        {"d/a": Link("../other")},
        {"other": "d/a"},
        {"other": (1000, 0, 0o440)},
        ("d/a: symbolic link to {0}/other", "d/a: not read by sudo: owner 1000:0, should be 0:0"),
        ("d/a",),
    ),
    (
        "a file whose target has another mode",
        {"main": Link("e/../other")},
        {"other": "main"},
        {"other": (0, 0, 0o644)},
        ("main: symbolic link to {0}/other", "main: refused by visudo -c: mode 0644, should be 0440"),
        (),
    ),
    ("a folder", {"d": Link("e")}, {"e/a": "d/a", "e/b": "d/b"}, {}, ("d: symbolic link to {0}/e",), ()),
    (
        "a folder whose target everybody may write",
        {"d": Link("{0}/e")},
        {"e/a": "d/a", "e/b": "d/b"},
        {"e": (0, 0, 0o777)},
        ("d: symbolic link to {0}/e", "d: not read by sudo: mode 0777, should be 0755"),
        NO_FILE_OF_THE_FOLDER,
    ),
)


def give(folder, name, access):
    """Gives a file or a folder this owner, group and mode."""
    path = os.path.join(folder, name)
    os.chown(path, *access[:2])
    os.chmod(path, access[2])


def build(folder, top, row_links=(), moved=(), changes=()):
    """Makes the policy in a folder where it is called `top`: the links take the places of files that stand elsewhere."""
    tree = {name: text for name, text in TREE.items() if name not in dict(moved).values()}
    for name, text in (tree | {name: TREE[there] for name, there in dict(moved).items()}).items():
        path = os.path.join(folder, name)
        os.makedirs(os.path.dirname(path), exist_ok=True)
        with open(path, "w", encoding="utf-8") as file:
            file.write(text.format(top))
        give(folder, name, GOOD_FILE)
    for name in {"d", "e"} - set(dict(row_links)):
        os.makedirs(os.path.join(folder, name), exist_ok=True)
        give(folder, name, GOOD_FOLDER)
    for name, link in dict(row_links).items():
        os.symlink(link.target.format(top), os.path.join(folder, name))
        os.lchown(os.path.join(folder, name), 1000, 1000)
    for name, access in reversed(dict(changes).items()):
        give(folder, name, access)


def refusals_in(notes):
    """The notes but for those on links."""
    return [note for note in notes if "symbolic link" not in note]


def run_program(stand, name, folder, top, notes):
    """Runs the program with the options that go with the notes."""
    root = ["--root", folder] if not top else []
    lines = "".join(f"{top}/{note.format(top)}\n" for note in notes).encode()
    report = REPORT.format(top).encode()
    strict = 1 if refusals_in(notes) else 0
    for words, text, status in (
        (["--installed"], report + lines, 0),
        (["--installed", "--skipped"], report + lines, 0),
        (["-s", "--installed"], report + lines, strict),
        (["-q", "-s", "--installed"], b"", strict),
        (["--all", "--installed"], report + lines, 0),
        (["-s", "--skipped"], report, 0),
    ):
        stand.note(name, ["check", *words, *root, f"{top}/main"], Wanted(text, status=status), folder)


def found_by_visudo(folder):
    """The names that visudo calls bad, each with what is wrong."""
    command = ["visudo", "-c", "-O", "-P", "-f", f"{folder}/main"]
    done = subprocess.run(command, capture_output=True, timeout=SECONDS, check=False)
    text = (done.stdout + done.stderr).decode()
    kinds = (
        ("owner", r"(/\S+): wrong owner"),
        ("mode", r"(/\S+): bad permissions"),
        ("folder", r"(/\S+) is owned by [ug]id"),
        ("folder", r"(/\S+) is world writable"),
    )
    return {(os.path.relpath(name, folder), kind) for kind, form in kinds for name in re.findall(form, text)}


def wanted_of_visudo(notes, lost):
    """What visudo has to call bad by the notes. It looks at no file of a folder that it passes over."""
    wanted = set()
    is_folder_lost = any(note.startswith("d: not read") for note in notes)
    for note in refusals_in(notes):
        name, _, wrong = note.partition(": ")
        kind = "folder" if name == "d" else wrong.partition(": ")[2].split(" ")[0]
        if not (is_folder_lost and name in lost and name.startswith("d/")):
            wanted.add((name, kind))
    return wanted


def commands_for_sudo(folder):
    """The commands that sudo has for nobody; its policy is that of the folder. None if nothing can be mounted."""
    script = 'mount --bind "$1" /etc/sudoers || exit 99; exec sudo -l -U nobody'
    command = ["unshare", "-m", "sh", "-c", script, "sh", os.path.realpath(f"{folder}/main")]
    done = subprocess.run(command, capture_output=True, timeout=SECONDS, check=False)
    if done.returncode == 99 or b"unshare" in done.stderr:
        return None
    return set(re.findall(r"/bin/(\w+)", done.stdout.decode()))


def compare_with_sudo(tally, name, folder, notes, lost):
    """Asks visudo and sudo for the files with notes."""
    if shutil.which("visudo") is None or shutil.which("sudo") is None:
        tally.skip(f"{PART}: {name}, sudo and visudo", "they are not installed")
        return
    found = found_by_visudo(folder)
    tally.note(f"{PART}: {name}, visudo", difference("what is bad", wanted_of_visudo(notes, lost), found))
    known = commands_for_sudo(folder)
    if known is None:
        tally.skip(f"{PART}: {name}, sudo", "nothing can be mounted")
        return
    wanted = {os.path.basename(one) for one in FILES if one not in lost}
    tally.note(f"{PART}: {name}, sudo", difference("commands", wanted, known))


def run_row(stand, name, notes, lost, **made):
    """Runs one row by the path of its folder, and below it."""
    for is_rooted in (False, True):
        with Folder({}) as folder:
            folder = os.path.realpath(folder)
            os.chown(folder, 0, 0)
            top = "" if is_rooted else folder
            build(folder, top, **made)
            run_program(stand, f"{name}, {'rooted' if is_rooted else 'plain'}", folder, top, notes)
            if not is_rooted:
                compare_with_sudo(stand.tally, name, folder, notes, lost)


def without_owners(text):
    """The lines of an output that are no notes on owners: these depend on who runs the tests."""
    return b"".join(line for line in text.splitlines(keepends=True) if b": owner " not in line)


def run_whole_outputs(stand):
    """What comes before the notes, also for a user who is not root."""
    main = "bob ALL = WEB\n@includedir d\n@includedir none\n@includedir main\n"
    files = {"main": main, "d/a": "# a\n", "d/b.x": "", "d/c~": ""}
    skipped = "d/b.x: not read: its name contains '.'\nd/c~: not read: its name ends in '~'\n"
    missing = "main: not read: no such folder\nnone: not read: no such folder\n"
    undefined = "main:1:11: undefined Cmnd_Alias WEB\n"
    errors = tuple(f"main:{row}:8: syntax error: EndOfLine\n" for row in (1, 2))
    open_folder = "d: not read by sudo: mode 0777, should be 0755\n"
    empty = {"main": "@includedir d\n@includedir d/\n", "d": Closed(None, 0o777)}
    cases = (
        ("--installed", "an undefined alias", {"main": "bob ALL = WEB\n"}, undefined + "main: parsed OK\n", 0),
        ("-s --installed", "an undefined alias", {"main": "bob ALL = WEB\n"}, undefined + "main: faults found\n", 1),
        ("--installed", "skipped names", files, f"{undefined}main: parsed OK\n{skipped}{missing}", 0),
        ("--installed", "an error", {**empty, "main": "bob ALL\n@includedir d\n"}, errors[0] + open_folder, 1),
        ("--installed", "no lines", {**empty, "main": "@includedir d\n\0"}, "main: NUL at byte 14\n", 1),
        ("--all --installed", "all errors", {"main": "bob ALL\nann ALL\n"}, "".join(errors), 1),
        ("--installed", "a folder twice", empty, f"main: parsed OK\n{open_folder}", 0),
        ("-s --installed", "a folder twice", empty, f"main: parsed OK\n{open_folder}", 1),
    )
    for words, name, tree, text, status in cases:
        with Folder(tree) as folder:
            for one, _, names in os.walk(folder):
                os.chmod(one, 0o777 if "d" in tree and one.endswith("/d") else 0o755)
                for file in names:
                    os.chmod(os.path.join(one, file), 0o440)
            came = stand.run(f"check {words} main", folder)
            problems = difference("lines", text.encode(), without_owners(came.stdout))
            stand.tally.note(f"{PART}: {name}, {words}", problems + difference("status", status, came.status))


def run_no_files(stand):
    """A policy that is no file of the disk, and options that do not go together."""
    with Folder({"d": EMPTY_FOLDER}) as folder:
        os.chmod(os.path.join(folder, "d"), 0o755)
        note = b"-: parsed OK\n-: not looked at: standard input\n"
        stand.note("standard input", "check --installed -", Wanted(note), folder, b"# a\n")
        stand.note("standard input, strict", "check -s --installed -", Wanted(note, status=1), folder, b"# a\n")
        stand.note("standard input, quiet", "check -q -s --installed -", Wanted(status=1), folder, b"# a\n")
        note = b"/dev/null: parsed OK\n/dev/null: not read by sudo: no regular file\n"
        stand.note("a device", "check --installed /dev/null", Wanted(note), folder)
        stand.note("no file", "check --installed none", fault("NoRoot"), folder)
        came = stand.run("check --installed --json main", folder)
        stand.tally.note(f"{PART}: --json", Wanted(status=2, stderr=came.stderr, stderr_has=(b"--json",)).problems(came))


def run_unseen_target(program, tally):
    """A folder behind a part that a user may not search is `Failed`, as without the option: nothing is passed over."""
    if os.geteuid() != 0:
        tally.skip(f"{PART}: a folder that may not be searched", "only root makes one for another user")
        return
    with stand_of_nobody(PART, program, tally) as stand, Folder({"main": "@includedir closed/d\n", "closed/d/a": "# a\n"}) as folder:
        os.chmod(os.path.join(folder, "closed"), 0o700)
        stand.note("a folder that may not be searched", "check --installed main", fault("Failed"), folder)


def run_failing_calls(program, tally):
    """Each call for a file fails: the run fails, or a note says which name was not looked at."""
    tree = {"main": "@include inc\n@includedir d\n", "inc": Link("other"), "other": "# a\n", "e/a": "# b\n", "d": Link("e")}
    unseen = re.compile(r"^(main|inc|d|d/a): not looked at: the device failed$", re.MULTILINE)

    def check(library):
        for root in ((), ("--root", ".")):
            words = ("check", "-s", "--installed", *root, "main")
            seen, failed = set(), 0
            with Folder(tree) as folder:
                case = Case(" ".join(words), words, b"", None, folder=folder)
                for number, (answer, report) in enumerate(library.run_each(program, case, "fail_call", len(root) // 2 + 1), 1):
                    names = unseen.findall(answer.stdout.decode())
                    seen.update(names)
                    is_failed = not fault("Failed").problems(answer)
                    failed += is_failed
                    is_noted = len(names) == 1 and answer.status == 1 and not answer.stderr
                    right = (is_failed or is_noted) if report.met else not names
                    tally.note(f"{PART}: {case.name}, call {number} fails", [] if right else [f"came {answer}"])
            found = seen, failed > 4
            tally.note(f"{PART}: {case.name}, calls that fail", difference("names", ({"main", "inc", "d", "d/a"}, True), found))

    with_library(tally, check)


def run_refused_growths(program, tally):
    """Each growth of memory is refused."""
    files = {"main": "@include inc\n@includedir d\nbob ALL = ALL\n", "inc": Link("other"), "other": "# a\n", "d/a": "# b\n", "d/b.x": ""}

    def check(library):
        with Folder(files) as folder:
            for root in ((), ("--root", ".")):
                words = ("check", "--installed", *root, "main")
                wanted = Wanted(None, stdout_has=(b"main: parsed OK\n", b"inc: symbolic link to ", b"d/b.x: not read: "))
                refuse_growths(Devices(program, library, tally), Case(" ".join(words), words, b"", wanted, folder=folder), wanted)

    with_library(tally, check)


def run_all(program, tally):
    """Runs all rows."""
    stand = Stand(PART, program, tally)
    if os.geteuid() == 0:
        for row in ROWS:
            run_row(stand, row.name, row.notes, row.lost, changes=row.changes)
        for name, links, moved, changes, notes, lost in LINKS:
            run_row(stand, f"link, {name}", notes, lost, row_links=links, moved=moved, changes=changes)
    else:
        tally.skip(f"{PART}: owners and modes", "only root gives a file away")
    run_whole_outputs(stand)
    run_no_files(stand)
    run_unseen_target(program, tally)
    run_failing_calls(program, tally)
    run_refused_growths(program, tally)
