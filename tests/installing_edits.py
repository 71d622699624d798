"""Runs examples/install-edited in folders of their own: what it puts in place and what it refuses.

A case has the files of a folder and an edit script. `edit` makes the output of them, or of other texts, and
examples/install-edited gets that output. A refusal has to leave each file as it was, and to name the reason on standard
error. `place --undo` has to put back what was put in place. In a mount namespace the files are those of /etc, and sudo says
what a user may run.
"""

import os
import shutil
import subprocess
import tempfile
from dataclasses import dataclass, field

from bundles import bundle
from program import SECONDS, Answer, Wanted, run
from tally import difference

TOP = os.path.dirname(os.path.dirname(os.path.abspath(__file__)))
SCRIPT = os.path.join(TOP, "examples", "install-edited")
PATH = "/usr/bin:/bin"
PATH_OF_VISUDO = PATH + ":/usr/sbin:/sbin"

MAIN = "Cmnd_Alias SHELLS = /bin/sh\nroot ALL = (ALL : ALL) ALL\n@includedir sudoers.d\n"
BOB = "bob ALL = ALL, !SHELLS\n"
SITE = {"sudoers": MAIN, "sudoers.d/bob": BOB, "sudoers.d/web": "# web\n"}
WEB = "# web\nbob ALL = ALL\n"
ONE = {"web": WEB}
EXTRA = {**ONE, "extra/x": "bob ALL = NONE\n", "extra/x.old": "no policy\n"}
UP = {"etc/sudoers": "@includedir \"my files\"\n@include ../opt/x\n", "etc/my files/a b": BOB, "opt/x": "Cmnd_Alias SHELLS = /bin/sh\n"}

INSERT = "insert 1\n|ann ALL = /bin/true\n"
ANN = "ann ALL = /bin/true\n"
RENAME = "rename cmnd SHELLS SH\n"
SHELLS = "insert 1\n|Cmnd_Alias SHELLS = /x\n"

OLD = "{}: Changed"
UNDEFINED = "sudoers.d/bob:1:17: undefined Cmnd_Alias SHELLS"


@dataclass(frozen=True)
class Case:
    """A run of the script. It puts `wanted` in place, or it refuses and says `why`. The names of `output_of` are those in the output."""

    name: str
    files: dict
    script: str
    why: str = ""
    wanted: dict = field(default_factory=dict)
    root: tuple = ()
    output_of: tuple = ()
    made_from: dict = field(default_factory=dict)
    cut: int = 0

    def words(self):
        """The words of the script."""
        return ("out", *self.root)

    def output(self, program):
        """What `edit` prints, without the bytes that are cut off."""
        texts = {name: text.encode() for name, text in {**self.files, **self.made_from}.items()}
        files = bundle([(name.encode(), texts[name]) for name in self.output_of or texts])
        answer = run(program, ("edit",), self.script.encode() + files)
        return answer.stdout[: max(len(answer.stdout) - self.cut, 0)]


def one(name, script, **more):
    """A case of a policy of one file."""
    return Case(name, ONE, script, **more)


def site(name, script, **more):
    """A case of a policy of three files, all of which are in the output."""
    return Case(name, SITE, script, **more)


def alone(name, file, script, root=("sudoers",), **more):
    """A case of an output with one file of that policy."""
    return Case(name, SITE, script, root=root, output_of=(file,), **more)


CASES = (
    one("an_insert", INSERT, wanted={"web": ANN + WEB}),
    one("a_folder_that_is_missing", "insert 3\n|@includedir extra\n", wanted={"web": WEB + "@includedir extra\n"}),
    Case("a_last_line_without_an_end", {"web": WEB[:-1]}, INSERT, wanted={"web": ANN + WEB[:-1]}),
    one("no_change", "prune\n"),
    one("a_change_of_a_colleague", INSERT, made_from={"web": "# web\n"}, why=OLD.format("web")),
    one("an_output_without_its_last_byte", INSERT, cut=1, why="out: BadBundle"),
    one("an_output_without_its_file", INSERT, cut=len(ANN + WEB), why="out: BadBundle"),
    one("an_output_without_its_mark", INSERT, cut=len(ANN + WEB) + len("%% 44 web\n"), why="it is no output of edit --files"),
    one("an_empty_output", INSERT, cut=1_000, why="it is no output of edit --files"),
    Case("a_fault_in_a_folder_that_comes", EXTRA, "insert 3\n|@includedir extra\n", why="undefined Cmnd_Alias NONE", output_of=("web",)),
    Case("a_file_that_comes", {**ONE, "x": "# x\n"}, "insert 1\n|@include x\n", wanted={"web": "@include x\n" + WEB}),
    one("a_file_that_is_missing", "insert 1\n|@include x\n", made_from={"x": "# x\n"}, why=OLD.format("x")),
    site("several_files", RENAME, wanted={"sudoers": MAIN.replace("SHELLS", "SH"), "sudoers.d/bob": BOB.replace("SHELLS", "SH")}),
    site("no_change_of_several_files", "prune\n"),
    site("a_file_of_several", "file 2\n" + INSERT, wanted={"sudoers.d/bob": ANN + BOB}),
    site("an_old_file_of_several", INSERT, made_from={"sudoers.d/web": ""}, why=OLD.format("sudoers.d/web")),
    site("several_files_that_are_cut", INSERT, cut=3, why="out: BadBundle"),
    alone("an_insert_before_an_includedir", "sudoers", INSERT, wanted={"sudoers": ANN + MAIN}),
    alone("a_prune_of_an_alias_of_a_drop_in", "sudoers", "prune\n", why=UNDEFINED),
    alone("a_rename_of_an_alias_of_a_drop_in", "sudoers", RENAME, why=UNDEFINED),
    alone("an_alias_of_another_file", "sudoers.d/bob", INSERT, wanted={"sudoers.d/bob": ANN + BOB}),
    alone("an_alias_of_another_file_without_a_root", "sudoers.d/bob", INSERT, root=(), why="undefined Cmnd_Alias SHELLS"),
    alone("a_name_of_another_file", "sudoers.d/bob", SHELLS, why="Cmnd_Alias SHELLS defined twice"),
    alone("another_policy", "sudoers.d/bob", INSERT, root=("sudoers.d/web",), why="sudoers.d/bob is no file of the policy of"),
    alone("a_missing_root", "sudoers.d/bob", INSERT, root=("none",), why="none: no file"),
    Case(
        "a_name_with_a_dot", {**SITE, "sudoers.d/a.b": BOB}, INSERT, root=("sudoers",), output_of=("sudoers.d/a.b",), why="is no file of"
    ),
    Case(
        "blanks_and_folders_up",
        UP,
        INSERT,
        root=("etc/sudoers",),
        output_of=("etc/my files/a b",),
        wanted={"etc/my files/a b": ANN + BOB},
    ),
)


class Folder:
    """A folder with files, and with the program in a folder of commands beside it."""

    def __init__(self, program, files):
        self.top = tempfile.TemporaryDirectory(prefix="sudoers_tool_tests_")
        self.path = os.path.join(self.top.name, "a folder")
        commands = os.path.join(self.top.name, "commands")
        os.mkdir(commands)
        os.symlink(program, os.path.join(commands, "sudoers_tool"))
        self.commands = commands + ":"
        for name, text in files.items():
            self.write(name, text.encode())

    def __enter__(self):
        return self

    def __exit__(self, *_):
        self.top.cleanup()

    def write(self, name, text):
        """Writes a file."""
        path = os.path.join(self.path, name)
        os.makedirs(os.path.dirname(path), exist_ok=True)
        with open(path, "wb") as file:
            file.write(text)

    def texts(self):
        """The bytes of each file but the output."""
        held = {}
        for folder, _, names in os.walk(self.path):
            for name in names:
                path = os.path.join(folder, name)
                with open(path, "rb") as file:
                    held[os.path.relpath(path, self.path)] = file.read()
        return {name: text for name, text in held.items() if name != "out"}

    def run(self, words, path=PATH_OF_VISUDO):
        """Runs these words in the folder."""
        done = subprocess.run(
            words, capture_output=True, cwd=self.path, env={"PATH": self.commands + path}, timeout=SECONDS, check=False
        )
        return Answer(done.stdout, done.stderr, done.returncode)

    def install(self, words, path=PATH_OF_VISUDO):
        """Runs the script in the folder."""
        return self.run(["sh", SCRIPT, *words], path)


def refusal(why):
    """What the script answers when it refuses for this reason."""
    return Wanted(b"", None, 1, stderr_has=(b"install-edited: ", why.encode()))


def run_case(program, tally, case):
    """Runs the script on the output, and takes the edits back if it was put in place."""
    with Folder(program, case.files) as folder:
        before = folder.texts()
        folder.write("out", case.output(program))
        answer = folder.install(case.words())
        if case.why:
            problems = refusal(case.why).problems(answer) + difference("files", before, folder.texts())
        elif not case.wanted:
            problems = Wanted(b"out changes nothing\n").problems(answer) + difference("files", before, folder.texts())
        else:
            after = {**before, **{name: text.encode() for name, text in case.wanted.items()}}
            problems = Wanted(None, None).problems(answer) + difference("files", after, folder.texts())
            problems += difference("names", set(case.wanted), set(answer.stdout.decode().splitlines()))
            problems += Wanted(None).problems(folder.run(["sudoers_tool", "place", "--undo", "out"]))
            problems += difference("files after the way back", before, folder.texts())
        tally.note(f"installing edits: {case.name}", problems)


def run_link(program, tally):
    """The file to which a link leads is replaced, and the link stays."""
    with Folder(program, {**SITE, "real/bob": BOB}) as folder:
        link = os.path.join(folder.path, "sudoers.d", "bob")
        os.remove(link)
        os.symlink("../real/bob", link)
        folder.write("out", run(program, ("edit",), INSERT.encode() + bundle([(b"sudoers.d/bob", BOB.encode())])).stdout)
        problems = Wanted(None, None).problems(folder.install(("out", "sudoers")))
        problems += difference("link", True, os.path.islink(link))
        problems += difference("policy", (ANN + BOB).encode(), folder.texts()["real/bob"])
        tally.note("installing edits: a_link", problems)


def run_words(program, tally):
    """Wrong words, a missing output, and a name that leads out of the folder."""
    with Folder(program, ONE) as folder:
        folder.write("out", bundle([(b"web", WEB.encode())]))
        usage = Wanted(stderr=b"usage: install-edited OUTPUT [ROOT]\n", status=2)
        for words in ((), ("out", "web", "web")):
            tally.note(f"installing edits: {len(words)} words", usage.problems(folder.install(words)))
        tally.note("installing edits: a_missing_output", refusal("none: no file").problems(folder.install(("none",))))
        folder.write("out", bundle([(b"web", WEB.encode()), (b"../x", b"")]))
        tally.note("installing edits: a name outside", refusal("../x leads out of this folder").problems(folder.install(("out",))))


def run_visudo(program, tally):
    """visudo is asked where it is installed, and the script says so where it is not."""
    insert = b"insert 1\n|Defaults nosuch\n"
    for path, has in ((PATH, False), (PATH_OF_VISUDO, True)):
        name = "installing edits: with visudo" if has else "installing edits: without visudo"
        if has != bool(shutil.which("visudo", path=path)):
            tally.skip(name, "visudo is not installed" if has else "visudo is in the folder of the other commands")
            continue
        with Folder(program, ONE) as folder:
            folder.write("out", run(program, ("edit",), insert + bundle([(b"web", WEB.encode())])).stdout)
            said = b"install-edited: visudo is not on the PATH, so it has not seen web\n"
            wanted = refusal("does not pass visudo -c:") if has else Wanted(b"web\n", said)
            problems = wanted.problems(folder.install(("out",), path))
            stays = difference("policy", WEB.encode() if has else b"Defaults nosuch\n" + WEB.encode(), folder.texts()["web"])
            tally.note(name, problems + stays)


def in_system(folder, words):
    """Runs words where the files of the folder are those of /etc, and returns the answer."""
    mounts = 'mount --bind "$0/sudoers" /etc/sudoers && mount --bind "$0/sudoers.d" /etc/sudoers.d && exec "$@"'
    words = ["unshare", "-m", "sh", "-c", mounts, folder.path, *words]
    environment = {"PATH": folder.commands + PATH_OF_VISUDO, "LC_ALL": "C"}
    done = subprocess.run(words, capture_output=True, cwd=folder.path, env=environment, timeout=SECONDS, check=False)
    return Answer(done.stdout, done.stderr, done.returncode)


def has_system():
    """Whether this user may mount files over those of /etc, and sudo is there."""
    with tempfile.TemporaryDirectory() as scratch:
        words = ["unshare", "-m", "sh", "-c", 'mount --bind "$0" /etc/sudoers.d && test -f /etc/sudoers && sudo -V', scratch]
        try:
            return os.geteuid() == 0 and subprocess.run(words, capture_output=True, check=False, timeout=SECONDS).returncode == 0
        except OSError:
            return False


def run_system(program, tally):
    """Without ROOT a file of /etc/sudoers.d belongs to /etc/sudoers. sudo still denies the shell that the policy denies."""
    if not has_system():
        tally.skip("installing edits: /etc/sudoers.d", "sudo is not installed, or nothing can be mounted over /etc")
        return
    asked = ("sudo", "-n", "-l", "-U", "nobody", "/bin/sh")
    files = {"sudoers": "@includedir /etc/sudoers.d\n", "sudoers.d/a": "Cmnd_Alias SH = /bin/sh\n", "sudoers.d/b": "nobody ALL = ALL, !SH\n"}
    rows = (
        ("a", "prune\n", "undefined Cmnd_Alias SH", 1),
        ("a", "rename cmnd SH SHELLS\n", "undefined Cmnd_Alias SH", 1),
        ("b", "insert 1\n|Cmnd_Alias SH = /bin/x\n", "Cmnd_Alias SH defined twice", 1),
        ("b", "insert 1\n|nobody ALL = SH\n", "", 1),
        ("b", "insert 2\n|nobody ALL = SH\n", "", 0),
    )
    for base, script, why, status in rows:
        with Folder(program, files) as folder:
            before = in_system(folder, asked).status
            name = f"/etc/sudoers.d/{base}".encode()
            text = files[f"sudoers.d/{base}"].encode()
            folder.write("out", run(program, ("edit",), script.encode() + bundle([(name, text)])).stdout)
            answer = in_system(folder, ("sh", SCRIPT, "out"))
            problems = (refusal(why) if why else Wanted(name + b"\n", None)).problems(answer)
            problems += difference("sudo before and after", (1, status), (before, in_system(folder, asked).status))
        tally.note(f"installing edits: /etc/sudoers.d/{base}, {script!r}", problems)


def run_all(program, tally):
    """Runs all cases."""
    for case in CASES:
        run_case(program, tally, case)
    run_link(program, tally)
    run_words(program, tally)
    run_visudo(program, tally)
    run_system(program, tally)
