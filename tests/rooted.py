"""Runs the built program with `--root`, and as a program whose root is that folder: both have to answer the same.

The rows stand in rooted_rows.py. What a row says is asked of `edit --files`, which prints the files that it read. The
other commands run for each row, with `--root` and in a chroot. For that a copy of the program and of its libraries stands
in the folder `.tool` of the tree, whose name no include reads. Trees that are drawn at random run in both ways too.
"""

import os
import random
import re
import shutil
import subprocess
import tempfile
from contextlib import contextmanager

from bundles import bundle
from included_rows import ASKED, PEOPLE
from program import Answer, Wanted, fault
from rooted_rows import CLOSED, ROWS
from stand import EMPTY_FOLDER, NOBODY, PIPE, Closed, Folder, Link, Stand, stand_of_nobody, write

PART = "rooted"
PEOPLE_OF = ASKED.replace("--passwd passwd", "--passwd .tool/passwd").replace("--group-file group", "--group-file .tool/group")
COMMANDS = (
    *("edit --files - FILE", "edit --files - --also new FILE", "check -s --skipped FILE", "show FILE"),
    *("convert -f sudoers FILE", "convert -f json -e FILE", f"{PEOPLE_OF} bob FILE", f"{PEOPLE_OF} bob --why FILE /bin/a"),
)
DRAWN = 150

# How long a run may wait, in seconds: it has nothing to wait for.
SOON = 20


def libraries(program):
    """The loader and the libraries of the program, as `ldd` names them."""
    if shutil.which("ldd") is None:
        return []
    done = subprocess.run(["ldd", program], stdout=subprocess.PIPE, stderr=subprocess.DEVNULL, check=False)
    return re.findall(r"(/\S+) \(0x", done.stdout.decode())


class Changed:
    """Runs of the program in a chroot. `words` begins one, or is None where the system allows none."""

    def __init__(self, program, who=()):
        self.held = tempfile.TemporaryDirectory(prefix="sudoers_tool_tests_")
        self.files = [shutil.copy(path, self.held.name) for path in (program, *libraries(program))]
        for path in self.files:
            os.chmod(path, 0o755)
        names = [os.path.basename(path) for path in self.files]
        self.own, self.loader = names[0], next((name for name in names if name.startswith("ld-")), None)
        self.words = next((words for words in self.ways(who) if self.works(words)), None)

    @staticmethod
    def ways(who):
        """How a chroot may begin."""
        return [["chroot", *who]] if os.geteuid() == 0 else [] if who else [["unshare", "-r", "chroot"]]

    def works(self, words):
        """Whether the program runs after these words."""
        with Folder({"image/main": ""}) as folder:
            self.words = words
            self.prepare(folder)
            return self.run("check -q FILE", "main", folder).status == 0

    def prepare(self, folder):
        """Puts the program and its libraries into the tree `image`, and what `list` asks for into both places."""
        for top in (folder, os.path.join(folder, "image")):
            os.makedirs(os.path.join(top, ".tool"))
            for name, text in PEOPLE.items():
                with open(os.path.join(top, ".tool", name), "w", encoding="utf-8") as file:
                    file.write(text)
        for path in self.files:
            os.link(path, os.path.join(folder, "image/.tool", os.path.basename(path)))

    def run(self, command, name, folder):
        """What the program answers to a command for the file `name`, with `image` as its root."""
        words = [name if word == "FILE" else word for word in command.split(" ")]
        own = "/.tool/" + self.own
        start = ["/.tool/" + self.loader, "--library-path", "/.tool", own] if self.loader else [own]
        begin = [*self.words, os.path.join(folder, "image"), *start]
        try:
            done = subprocess.run([*begin, *words], input=b"", capture_output=True, timeout=SOON, check=False)
        except (OSError, subprocess.TimeoutExpired) as error:
            return Answer(b"", b"", str(error))
        return Answer(done.stdout, done.stderr, done.returncode)


def rooted_words(command, name):
    """The words of a command for a file below `image`."""
    first, *others = command.split(" ")
    return [first, "--root", "image", *(name if word == "FILE" else word for word in others)]


def placed(text, folder):
    """A text with the path of the folder OUT."""
    return text.replace("{OUT}", os.path.join(folder, "OUT"))


def tree_of(image, folder):
    """The tree of a row in the folder `image`, and the folder OUT."""
    tree = {"OUT/a": "no policy\n"}
    for name, what in image.items():
        what = Link(placed(what.target, folder)) if isinstance(what, Link) else placed(what, folder) if isinstance(what, str) else what
        tree[f"image/{name}"] = what
    return tree


def text_in(image, name, folder):
    """The text of a file of a row."""
    what = image[name.lstrip("/")]
    return placed(what.text if isinstance(what, Closed) else what, folder).encode()


def wanted_of(image, cell, folder):
    """What `edit --files` answers to a script without edits."""
    error, arrow, name = cell.partition(" <- ")
    if arrow:
        return fault(f"{name}: {error}")
    if " include " in cell:
        return fault(placed(cell, folder))
    files = [one.partition("=") for one in cell.split(", ")]
    return Wanted(bundle([(name.encode(), text_in(image, leads or name, folder)) for name, _, leads in files]))


@contextmanager
def rooted(image, changed):
    """A folder with the tree of a row in the folder `image`."""
    with Folder({"image": EMPTY_FOLDER}) as folder:
        write(folder, tree_of(image, folder))
        if changed.words:
            changed.prepare(folder)
        yield folder


def note_both(stand, changed, name, file, folder, commands=COMMANDS):
    """The program answers the same with `--root` and in a chroot."""
    for command in commands:
        rooted_answer = stand.run(rooted_words(command, file), folder, seconds=SOON)
        alone = changed.run(command, file, folder)
        problems = Wanted(alone.stdout, alone.stderr, alone.status).problems(rooted_answer)
        stand.tally.note(f"{PART}: {name}, {command} as in a chroot", problems)


# ---- trees that are drawn at random

PARTS = ("a", "b", "d", "e", ".", "..", "", "x.y")
LINES = ("@include {}", "@includedir {}", "#include {}", "bob ALL = /bin/a")


def drawn_path(chance):
    """A path of some parts."""
    path = "/".join(chance.choice(PARTS) for _ in range(chance.randint(1, 4)))
    return path or "a"


def drawn_tree(chance):
    """A tree of folders, links and files whose lines include others."""
    tree = {}
    for name in ("a", "b", "d/a", "d/b", "d/e/a", "d/e/d", "e", "e/b", "d/x.y", "b/a"):
        if any(name.startswith(other + "/") or other.startswith(name + "/") for other in tree) or chance.random() < 0.25:
            continue
        kind = chance.random()
        if kind < 0.45:
            tree[name] = Link(drawn_path(chance))
        elif kind < 0.5:
            tree[name] = chance.choice((PIPE, EMPTY_FOLDER))
        else:
            lines = (chance.choice(LINES).format(drawn_path(chance)) for _ in range(chance.randint(0, 2)))
            tree[name] = "".join(line + "\n" for line in lines)
    lines = (chance.choice(LINES[:2]).format(drawn_path(chance)) for _ in range(chance.randint(1, 3)))
    return {"main.x": "".join(line + "\n" for line in lines), **tree}


def run_drawn(stand, changed):
    """Random trees, the same in every run."""
    chance = random.Random(1)
    for number in range(DRAWN):
        image = drawn_tree(chance)
        with rooted(image, changed) as folder:
            note_both(stand, changed, f"tree {number} {image}", "main.x", folder, COMMANDS[:3])


# ---- the rows


def run_row(stand, changed, row):
    """What a row says, and the other commands with `--root` and in a chroot."""
    name, image, file, cell = row
    with rooted(image, changed) as folder:
        wanted = wanted_of(image, cell, folder)
        problems = wanted.problems(stand.run(rooted_words(COMMANDS[0], file), folder, seconds=SOON))
        stand.tally.note(f"{PART}: {name}", problems)
        if changed.words:
            note_both(stand, changed, name, file, folder)


def run_wrong(stand):
    """A folder that is none is a wrong command line."""
    with Folder({"image/main": "", "file": ""}) as folder:
        for top in ("", "none", "file", "file/", "none/.."):
            for command in COMMANDS:
                words = ["--root=" + word if word == "image" else word for word in rooted_words(command, "main") if word != "--root"]
                words = [word.replace("=image", "=" + top) for word in words]
                text = f"error: invalid value '{top}' for '--root <DIR>': no such folder".encode()
                stand.note(f"root {top!r}", words, Wanted(stderr=None, status=2, stderr_has=(text,)), folder)


def run_unseen(program, tally):
    """A folder that cannot be looked at is a wrong command line, with the reason."""
    tree = {"loop": Link("loop"), "closed": Closed(None), "closed/image/main": ""}
    tops = (("loop", "its links lead in a circle"), ("x" * 300, "its name is too long"), ("closed/image", "permission denied"))
    with stand_of_nobody(PART, program, tally) as stand, Folder(tree) as folder:
        for top, reason in tops:
            for words in ("check --root TOP main", "show --root TOP main", "edit --files - --root TOP main"):
                text = f"error: invalid value '{top}' for '--root <DIR>': {reason}".encode()
                wanted = Wanted(stderr=None, status=2, stderr_has=(text,))
                stand.note(f"root {top!r}", words.replace("TOP", top), wanted, folder)


def run_tops(stand):
    """The folder itself may be named in any way, also by a link."""
    with Folder({"image/etc/sudoers": "@include ../a\n", "image/a": "# a\n", "link": Link("image"), "a": "no policy\n"}) as folder:
        for top in ("image", "image/", "image//", "./image/.", "image/etc/..", "link", "link/", folder + "/image"):
            wanted = Wanted(bundle([(b"/etc/sudoers", b"@include ../a\n"), (b"/etc/../a", b"# a\n")]))
            stand.note(f"root {top!r}", ["edit", "--files", "-", "--root", top, "/etc/sudoers"], wanted, folder)
        wanted = Wanted(bundle([(b"image/etc/sudoers", b"@include ../a\n"), (b"image/etc/../a", b"# a\n")]))
        stand.note("root '.'", ["edit", "--files", "-", "--root", ".", "image/etc/sudoers"], wanted, folder)


def put_deep(folder, parts, name, text):
    """Puts a file into folders within each other, whose path may be longer than the system takes."""
    at = os.open(folder, os.O_RDONLY)
    for part in parts:
        os.mkdir(part, dir_fd=at)
        inner = os.open(part, os.O_RDONLY, dir_fd=at)
        os.close(at)
        at = inner
    with os.fdopen(os.open(name, os.O_WRONLY | os.O_CREAT, 0o644, dir_fd=at), "w") as file:
        file.write(text)
    os.close(at)


def run_deep(stand):
    """A folder below a DIR with a long name is read by a short name of DIR, and else it is an error: it is never passed over."""
    parts = ["p" * 250] * 15
    deep, above = "/" + "/".join(parts), "/".join(["t" * 200] * 2)
    tree = {f"{above}/image/dir": f"@includedir {deep}\n", f"{above}/image/file": f"@include {deep}/a\n"}
    with tempfile.TemporaryDirectory(prefix="sudoers_tool_tests_") as folder:
        write(folder, tree)
        near = os.path.join(folder, above)
        put_deep(os.path.join(near, "image"), parts, "a", "WEB ALL = ALL\n")
        for name in ("dir", "file"):
            noted = f"{deep}/a:1:1: undefined User_Alias WEB\n{name}: parsed OK\n".encode()
            stand.note("a deep folder", ["check", "--root", "image", name], Wanted(noted), near)
            stand.note("a path that is too long", ["check", "--root", f"{near}/image", name], fault("Failed"), folder)


def run_all(program, tally):
    """Runs all rows."""
    stand, changed = Stand(PART, program, tally), Changed(program)
    for row in ROWS:
        run_row(stand, changed, row)
    run_tops(stand)
    run_wrong(stand)
    run_unseen(program, tally)
    run_deep(stand)
    if changed.words:
        run_drawn(stand, changed)
    else:
        tally.skip(f"{PART}, a chroot", "the system allows none")
    with stand_of_nobody(PART, program, tally) as nobody:
        changed = Changed(program, (f"--userspec={NOBODY}:{NOBODY}",))
        for row in CLOSED:
            run_row(nobody, changed, row)
