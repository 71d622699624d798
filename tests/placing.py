"""Puts edited files in place with `place` and with `apply`, in folders made here, and back with `place --undo`.

A case has a tree, the words of `edit` behind its script, and the script. What `edit` prints is OUTPUT. `place` has to put the
files in place, all or none, with the owner and the mode that they had. `place --undo` has to put them back byte for byte. A
refusal leaves each file as it was. `apply` has to do the same with the policy and the script, and to write OUTPUT to the new
file `undo`. After a refusal that file is not there. Under kill.c the program is killed before each of its calls in turn. Then
each file is old or new, and both `place` and `place --undo` finish.
"""

import fcntl
import os
import re
import resource
import shutil
import signal
import stat
import subprocess
import tempfile

from cases import Case
from preload import with_library
from program import SECONDS, Wanted
from stand import EMPTY_FOLDER, PIPE, Closed, Folder, Link, Stand, stand_of_nobody
from tally import difference

PART = "placing"
KILLER = os.path.join(os.path.dirname(os.path.abspath(__file__)), "shim", "kill.c")

MAIN = "User_Alias OPS = bob\n@includedir d\n"
WEB = "# web\nOPS ALL = /bin/a\n"
SITE = {"main": Closed(MAIN, 0o440), "d/web": Closed(WEB, 0o640), "d/x.y": "no policy\n"}
RENAME = "rename user OPS CREW\n"
NEW_MAIN, NEW_WEB = MAIN.replace("OPS", "CREW"), WEB.replace("OPS", "CREW")
NAMES = b"d/web\nmain\n"
NAMES_BACK = b"main\nd/web\n"
IMAGE = {
    "image/etc/sudoers": Closed("User_Alias OPS = bob\n@includedir /etc/sudoers.d\n", 0o440),
    "image/etc/sudoers.d/web": Link("/usr/share/web"),
    "image/usr/share/web": "OPS ALL = /bin/a\n",
}
HELP = "  = help: "
COLLEAGUE = "# a colleague\n"

# Scripts, and what `apply --dry-run` prints of them: the changed lines of each file.
CHANGED_MAIN = "main:\n-User_Alias OPS = bob\n+User_Alias CREW = bob\n"
DRY_RUNS = (
    (RENAME, CHANGED_MAIN + "d/web:\n-OPS ALL = /bin/a\n+CREW ALL = /bin/a\n"),
    ("file 2\ninsert 2\n|# new\n", "d/web:\n+# new\n"),
    ("file 2\ndelete 1\n", "d/web:\n-# web\n"),
    ("file 2\ndelete 2\nrename user OPS CREW\n", CHANGED_MAIN + "d/web:\n-OPS ALL = /bin/a\n"),
    ("insert 3\n|bob ALL = ALL, \\\n|    !/bin/a\n", "main:\n+bob ALL = ALL, \\\n+    !/bin/a\n"),
    ("move 1 2\n", "main:\n+@includedir d\n-@includedir d\n"),
    ("file 2\nopenend\n", "d/web:\n-OPS ALL = /bin/a\n+OPS ALL = /bin/a\n\\ No newline at end of file\n"),
    ("file 2\nopenend\nendline\ninsert 1\n|# new\nopenend\n", "d/web:\n+# new\n-OPS ALL = /bin/a\n+OPS ALL = /bin/a\n\\ No newline at end of file\n"),
)
# Scripts that change nothing.
IDLE = ("", "insert 1\n|# gone\ndelete 1\n", RENAME + "rename user CREW OPS\n")
# Scripts whose edits bring an undefined or a cyclic alias, and its place and name. NONE is a command that is undefined before.
UNDEFINED = (
    ("delete 1\n", "d/web:2:1: undefined User_Alias OPS"),
    ("insert 3\n|bob ALL = ALL, !SHELLS\n", "main:3:17: undefined Cmnd_Alias SHELLS"),
    ("insert 3\n|NONE ALL = NONE\n", "main:3:1: undefined User_Alias NONE"),
    ("insert 2\n|Host_Alias ONE = TWO : TWO = h, !ONE\n", "main:2:12: cyclic Host_Alias ONE"),
)
# Scripts and policies with an error, and its text.
WRONG = (
    ("- main", "drop user OPS 2\n", "edit 1: NoPlace"),
    ("- main", RENAME + "delete 9\n", "edit 2: NoLine"),
    ("- main", "insert 2\n|bob ALL\n", "edit 1: NotPolicy: main:2:8: syntax error: EndOfLine"),
    ("- main", "delete x\n", "script:1: BadNumber"),
    ("- d/x.y", RENAME, "d/x.y:1:10: syntax error: EndOfLine"),
    ("- --also d/web main", RENAME, "d/web: SameName"),
    ("none main", "", "none: Read"),
    ("- none", RENAME, "none: NoRoot"),
)
# The runs that are killed.
KILLED = (("place", "output"), ("place", "--undo", "output"), ("apply", "--undo-file", "output", "-", "main"))
BROUGHT = "the edits bring this alias; `--allow-undefined` accepts it"


def refusal(text, help_text=None):
    """What comes of a refusal with this text, and with this advice if there is one."""
    lines = f"sudoers_tool: {text}\n" + (f"{HELP}{help_text}\n" if help_text else "")
    return Wanted(stderr=lines.encode(), status=3)


def state(folder):
    """The bytes, the mode and the owner of each file below a folder, and the target of each link. OUTPUT is left out."""
    found = {}
    for path, _, names in os.walk(folder):
        for name in names:
            full = os.path.join(path, name)
            if os.path.islink(full):
                found[os.path.relpath(full, folder)] = os.readlink(full)
            elif stat.S_ISREG(os.lstat(full).st_mode) and name != "output":
                about = os.stat(full)
                with open(full, "rb") as file:
                    found[os.path.relpath(full, folder)] = (file.read(), oct(about.st_mode & 0o7777), about.st_uid, about.st_gid)
    return found


def with_texts(before, texts):
    """A state in which some files have other texts."""
    return {name: (texts[name].encode(), *what[1:]) if name in texts else what for name, what in before.items()}


class Site:
    """A folder with a tree, in which OUTPUT is what `edit` printed for a script."""

    def __init__(self, stand, tree=None, words="main", script=RENAME):
        self.stand = stand
        self.made = Folder(SITE if tree is None else tree)
        self.words = words
        self.script = script

    def __enter__(self):
        self.folder = self.made.__enter__()
        edited = self.stand.run(["edit", "--files", "-", *self.words.split()], self.folder, self.script.encode())
        self.output = edited.stdout
        self.write_output(self.output)
        self.before = state(self.folder)
        return self

    def __exit__(self, *what):
        self.made.__exit__(*what)

    def write_output(self, text):
        """Writes OUTPUT."""
        with open(os.path.join(self.folder, "output"), "wb") as file:
            file.write(text)

    def applied(self, texts):
        """The state in which some files have other texts, and the new file `undo` has what `edit` printed."""
        return {**with_texts(self.before, texts), "undo": (self.output, "0o600", os.geteuid(), os.getegid())}

    def is_output_whole(self):
        """Whether OUTPUT is there, and is what `edit` printed."""
        try:
            with open(os.path.join(self.folder, "output"), "rb") as file:
                return file.read() == self.output
        except FileNotFoundError:
            return False

    def note(self, name, words, wanted, after, **how):
        """Runs the program with these words, and compares the answer and the files."""
        came = self.stand.run(words, self.folder, **how)
        self.stand.tally.note(f"{PART}: {name}, {words}", wanted.problems(came) + difference("files", after, state(self.folder)))


def run_placed(stand):
    """Two files are replaced, and put back. A second run has nothing to do."""
    with Site(stand) as site:
        new = with_texts(site.before, {"main": NEW_MAIN, "d/web": NEW_WEB})
        site.note("two files", "place output", Wanted(NAMES), new)
        site.note("placed already", "place output", Wanted(), new)
        site.note("put back", "place --undo output", Wanted(NAMES_BACK), site.before)
        site.note("put back already", "place --undo output", Wanted(), site.before)
    with Site(stand) as site:
        os.chmod(os.path.join(site.folder, "main"), 0o600)
        with open(os.path.join(site.folder, "main"), "w", encoding="utf-8") as file:
            file.write(NEW_MAIN)
        new = with_texts(state(site.folder), {"d/web": NEW_WEB})
        site.note("one file is in place already", "place output", Wanted(b"d/web\n"), new)


def run_new_file(stand):
    """A file that was not there is made for root alone to read, and removed again."""
    script = "file 3\ninsert 1\n|OPS ALL = /bin/n\n"
    with Site(stand, words="--also d/night main", script=script) as site:
        owner = (os.geteuid(), os.getegid()) if os.geteuid() else (0, 0)
        new = {**site.before, "d/night": (b"OPS ALL = /bin/n\n", "0o440", *owner)}
        if os.geteuid() == 0:
            site.note("a new file", "place output", Wanted(b"d/night\n"), new)
            site.note("a new file is removed", "place --undo output", Wanted(b"d/night\n"), site.before)
            site.note("a new file is removed already", "place --undo output", Wanted(), site.before)
        with open(os.path.join(site.folder, "d/night"), "w", encoding="utf-8") as file:
            file.write("eve ALL = ALL\n")
        other = state(site.folder)
        site.note("a file that is there by now", "place output", refusal("d/night: Changed"), other)


def run_links(stand):
    """What a link leads to is replaced, also below a root, and the link stays."""
    with Site(stand, IMAGE, "--root image /etc/sudoers") as site:
        texts = {"image/etc/sudoers": "User_Alias CREW = bob\n@includedir /etc/sudoers.d\n", "image/usr/share/web": "CREW ALL = /bin/a\n"}
        names, back = Wanted(b"/etc/sudoers.d/web\n/etc/sudoers\n"), Wanted(b"/etc/sudoers\n/etc/sudoers.d/web\n")
        site.note("a link below a root", "place --root image output", names, with_texts(site.before, texts))
        site.note("a link is put back", "place --undo --root image output", back, site.before)
    tree = {"main": "User_Alias OPS = bob\n@include one\n", "one": Link("two"), "two": "OPS ALL = ALL\n"}
    with Site(stand, tree) as site:
        texts = {"main": "User_Alias CREW = bob\n@include one\n", "two": "CREW ALL = ALL\n"}
        site.note("a link", "place output", Wanted(b"one\nmain\n"), with_texts(site.before, texts))


def run_refusals(stand):
    """What is no output, and files that are not those of the output. Nothing is touched."""
    advice = "OUTPUT is a file with what `edit --files` printed, whole: a script, and each file behind a line `%% LENGTH NAME`"
    with Site(stand) as site:
        with open(os.path.join(site.folder, "output"), "rb") as file:
            output = file.read()
        cases = (
            ("an empty output", b"", refusal("output: NotPlaceable", advice)),
            ("an output of one text", b"%%\nA ALL = ALL\n", refusal("output: NotPlaceable", advice)),
            ("an output that is cut", output[:-1], refusal("output: BadBundle", advice)),
            ("an output with a name twice", output + b"%% 0 main\n", refusal("output: SameName", advice)),
            ("an output whose script is wrong", b"delete x\n" + output, refusal("output: script:1: BadNumber", advice)),
        )
        for name, text, wanted in cases:
            site.write_output(text)
            site.note(name, "place --explain output", wanted, site.before)
        site.note("a folder", "place d", refusal("d: NotPlaceable"), site.before)
        site.note("a missing output", "place --explain none", refusal("none: Read", "none: no such file"), site.before)
    with Site(stand) as site:
        with open(os.path.join(site.folder, "d/web"), "a", encoding="utf-8") as file:
            file.write("# a colleague\n")
        changed = state(site.folder)
        why = "it has neither its bytes from before the edits nor those from after them, so nothing was placed; make the edits anew from the files as they are"
        site.note("another change", "place --explain output", refusal("d/web: Changed", why), changed)
        site.note("another change, put back", "place --undo output", refusal("d/web: Changed"), changed)
        os.remove(os.path.join(site.folder, "d/web"))
        gone = state(site.folder)
        site.note("a file that is gone", "place output", refusal("d/web: Changed"), gone)


def run_applied(stand):
    """Two files are put in place by the script of a file and by that of standard input, and put back. Then there is nothing to do."""
    texts = {"main": NEW_MAIN, "d/web": NEW_WEB}
    with Site(stand, {**SITE, "script": RENAME}) as site:
        new = site.applied(texts)
        old = {**site.before, "undo": new["undo"]}
        site.note("two files", "apply --undo-file undo script main", Wanted(NAMES), new)
        site.note("two files are put back", "place --undo undo", Wanted(NAMES_BACK), old)
    with Site(stand) as site:
        site.note("a script on standard input", "apply --undo-file undo - main", Wanted(NAMES), site.applied(texts), stdin=RENAME.encode())
    with Site(stand) as site:
        for script in IDLE:
            site.note("nothing to do", "apply --undo-file undo - main", Wanted(), site.before, stdin=script.encode())
    with Site(stand, IMAGE, "--root image /etc/sudoers") as site:
        texts = {"image/etc/sudoers": "User_Alias CREW = bob\n@includedir /etc/sudoers.d\n", "image/usr/share/web": "CREW ALL = /bin/a\n"}
        words, names = "apply --root image --undo-file undo - /etc/sudoers", Wanted(b"/etc/sudoers.d/web\n/etc/sudoers\n")
        site.note("a link below a root", words, names, site.applied(texts), stdin=RENAME.encode())
    with Site(stand) as site, open("/dev/full", "wb") as full:
        done = subprocess.run(
            [stand.program, "apply", "--undo-file", "undo", "-", "main"],
            cwd=site.folder,
            env={},
            input=RENAME.encode(),
            stdout=full,
            stderr=subprocess.PIPE,
            check=False,
        )
        new = site.applied({"main": NEW_MAIN, "d/web": NEW_WEB})
        problems = difference("status", 3, done.returncode) + difference("files", new, state(site.folder))
        stand.tally.note(f"{PART}: the names cannot be printed", problems)
    run_default_name(stand)
    run_applied_new_file(stand)
    run_dry(stand)
    run_undefined(stand)
    run_not_applied(stand)


def run_default_name(stand):
    """Without --undo-file the name of OUTPUT is the last part of that of POLICY, and the moment. It is in the current folder."""
    for words, name in (("main", "main"), ("./main", "main"), ("--root image /etc/sudoers", "sudoers")):
        with Site(stand, {**SITE, **IMAGE}, words) as site:
            undo = site.applied({})["undo"]
            came = stand.run(f"apply - {words}", site.folder, RENAME.encode())
            made = {path: what for path, what in state(site.folder).items() if path not in site.before}
            problems = difference("status", 0, came.status) + difference("new files", [undo], list(made.values()))
            problems += [f"its name is {path}" for path in made if not re.fullmatch(rf"{name}\.undo-\d{{14}}Z", path)]
            told = [f"sudoers_tool: {path}: `place --undo` takes the edits back with this file\n" for path in made]
            problems += difference("standard error", "".join(told).encode(), came.stderr)
            stand.tally.note(f"{PART}: the name of OUTPUT, {words}", problems)


def run_applied_new_file(stand):
    """A new file of --also is made, and removed again."""
    with Site(stand, words="--also d/night main", script="file 3\ninsert 1\n|OPS ALL = /bin/n\n") as site:
        how = {"stdin": site.script.encode()}
        words = "apply --undo-file d/night - --also d/night main"
        site.note("OUTPUT is a file of an included folder", words, refusal("d/night: NotPlaceable"), site.before, **how)
        if os.geteuid() != 0:
            return
        undo = site.applied({})
        new = {**undo, "d/night": (b"OPS ALL = /bin/n\n", "0o440", 0, 0)}
        site.note("a new file", "apply --undo-file undo - --also d/night main", Wanted(b"d/night\n"), new, **how)
        site.note("a new file is removed", "place --undo undo", Wanted(b"d/night\n"), undo)


def run_dry(stand):
    """With --dry-run the changed lines are printed, and nothing is written."""
    with Site(stand) as site:
        for script, lines in (*DRY_RUNS, *((script, "") for script in IDLE)):
            wanted = Wanted(lines.encode())
            site.note(f"dry run of {script!r}", "apply --dry-run --undo-file undo - main", wanted, site.before, stdin=script.encode())
        new = Wanted(b"d/night:\n+OPS ALL = /bin/n\n")
        how = {"stdin": b"file 3\ninsert 1\n|OPS ALL = /bin/n\n"}
        site.note("dry run of a new file", "apply --dry-run --also d/night - main", new, site.before, **how)


def run_undefined(stand):
    """An undefined or a cyclic alias that the edits bring is refused, but for --allow-undefined. Others are no reason to refuse."""
    tree = {**SITE, "d/none": "User_Alias LOOP = LOOP\nLOOP ALL = NONE\n"}
    for script, text in UNDEFINED:
        with Site(stand, tree, script=script) as site:
            how = {"stdin": script.encode()}
            name = f"an alias of {script!r}"
            site.note(name, "apply --explain --undo-file undo - main", refusal(f"{text}: Refused", BROUGHT), site.before, **how)
            site.note(name, "apply --dry-run - main", refusal(f"{text}: Refused"), site.before, **how)
            came = stand.run("edit --files - main", site.folder, script.encode())
            main = came.stdout.partition(b" main\n")[2].partition(b"%% ")[0].decode()
            words = "apply --allow-undefined --undo-file undo - main"
            site.note(name, words, Wanted(b"main\n"), site.applied({"main": main}), **how)
    with Site(stand, tree) as site:
        new = site.applied({"main": NEW_MAIN, "d/web": NEW_WEB})
        site.note("aliases that were undefined before", "apply --undo-file undo - main", Wanted(NAMES), new, stdin=RENAME.encode())


def run_not_applied(stand):
    """Errors of the script, of the edits and of the policy, and a file `undo` that is there. Nothing is touched, and OUTPUT is not there."""
    how = {"stdin": RENAME.encode()}
    with Site(stand) as site:
        for words, script, text in WRONG:
            site.note(f"{script!r}", f"apply --undo-file undo {words}", refusal(text), site.before, stdin=script.encode())
        why = "standard input is no file; name the policy"
        site.note("a policy on standard input", "apply --explain --undo-file undo d/x.y -", refusal("-: NotPlaceable", why), site.before, **how)
        words, why = "apply --explain --undo-file none/undo - main", "none/undo: no such file"
        site.note("a folder that is missing", words, refusal("none/undo: NotWritten", why), site.before, **how)
        folder = os.open(site.folder, os.O_RDONLY)
        fcntl.flock(folder, fcntl.LOCK_EX)
        site.note("another place", "apply --undo-file undo - main", refusal("main: Busy"), site.before, **how)
        os.close(folder)
    with Site(stand, {**SITE, "d/web.tmp": ""}) as site:
        site.note("visudo and apply", "apply --undo-file undo - main", refusal("d/web: Busy"), site.before, **how)
    why = "it may be needed to take other edits back; name another file with --undo-file"
    for what in ("of other edits\n", Link("none"), Link("main")):
        with Site(stand, {**SITE, "undo": what}) as site:
            wanted = refusal("undo: Exists", why)
            site.note(f"OUTPUT is there, {what}", "apply --explain --undo-file undo - main", wanted, site.before, **how)


def run_busy(stand):
    """Another `place` runs, or visudo; and a new file that a killed run has left."""
    with Site(stand) as site:
        folder = os.open(site.folder, os.O_RDONLY)
        fcntl.flock(folder, fcntl.LOCK_EX)
        came = stand.run("place output", site.folder)
        problems = [] if came.stderr.endswith(b": Busy\n") and came.status == 3 else [f"{came}"]
        stand.tally.note(f"{PART}: another place", problems + difference("files", site.before, state(site.folder)))
        os.close(folder)
    with Site(stand, {**SITE, "d/web.tmp": ""}) as site:
        site.note("visudo", "place output", refusal("d/web: Busy"), site.before)
    with Site(stand, {**SITE, "main.place": "half"}) as site:
        new = with_texts(site.before, {"main": NEW_MAIN, "d/web": NEW_WEB})
        line = "sudoers_tool: main.place: left by a run that did not end; it may be removed\n"
        site.note("a new file is left over", "place output", Wanted(NAMES, line.encode()), new)


def run_failures(program, tally):
    """No space, and a folder that may not be written. Nothing is touched, and nothing is left."""

    def limit():
        signal.signal(signal.SIGXFSZ, signal.SIG_IGN)
        resource.setrlimit(resource.RLIMIT_FSIZE, (10, 10))

    stand = Stand(PART, program, tally)
    with Site(stand) as site:
        site.note("no space", "place output", refusal("d/web: NotWritten"), site.before, preexec_fn=limit)
        words, how = "apply --undo-file undo - main", {"stdin": RENAME.encode(), "preexec_fn": limit}
        site.note("no space for OUTPUT", words, refusal("undo: NotWritten"), site.before, **how)
    with stand_of_nobody(PART, program, tally) as nobody:
        with Site(nobody, {"main": MAIN, "d/web": WEB, "d": Closed(None, 0o555)}) as site:
            output = os.path.join(site.folder, "output")
            os.chmod(output, 0o444)
            why = "d/web: permission denied"
            site.note("a folder that may not be written", "place --explain output", refusal("d/web: NotWritten", why), site.before)
            os.chmod(os.path.join(site.folder, "d/web"), 0)
            closed = state(site.folder) if os.geteuid() == 0 else None
            if closed:
                site.note("a file that may not be read", "place output", refusal("d/web: NotRead"), closed)
        run_closed_folders(nobody)


def run_closed_folders(nobody):
    """`apply` where the folder of OUTPUT may not be written, and where that of a file may not."""
    tree = {"main": MAIN, "d/web": WEB, "d": Closed(None, 0o555), "room": Closed(None, 0o777)}
    with Site(nobody, tree) as site:
        os.chmod(site.folder, 0o555)
        for undo, text in (("undo", "undo"), ("room/undo", "d/web")):
            wanted = refusal(f"{text}: NotWritten", f"{text}: permission denied")
            words = f"apply --explain --undo-file {undo} - main"
            site.note("a folder that may not be written", words, wanted, site.before, stdin=RENAME.encode())


def is_old_or_new(site, new):
    """The files that are neither old nor new, of a folder in which a run was killed."""
    came = state(site.folder)
    wrong = [name for name in site.before if came.get(name) not in (site.before[name], new[name])]
    left = [name for name in came if name not in site.before and ".place" not in name]
    return [f"neither old nor new: {name}" for name in wrong] + [f"left: {name}" for name in left]


def run_killed(program, tally):
    """The program is killed before each of its calls. Then the files are old or new, and both ways finish."""
    with tempfile.TemporaryDirectory(prefix="sudoers_tool_tests_") as scratch:
        library = os.path.join(scratch, "kill.so")
        try:
            subprocess.run(["cc", "-O1", "-shared", "-fPIC", "-o", library, KILLER], check=True)
        except (OSError, subprocess.CalledProcessError) as error:
            tally.note(f"{PART}: the library that kills", [f"it cannot be built: {error}"])
            return
        stand = Stand(PART, program, tally)
        for words in KILLED:
            at, status = 0, -signal.SIGKILL
            while status == -signal.SIGKILL:
                at += 1
                status = run_killed_at(stand, library, words, at)
            tally.note(f"{PART}: killed {at} times, {words}", [] if at > 20 and status == 0 else [f"{at} calls, status {status}"])
            calls = at
        refused = [run_changed_at(stand, library, at) for at in range(1, calls + 1)]
        tally.note(f"{PART}: changes that were seen", [] if 10 < sum(refused) < calls else [f"{sum(refused)} of {calls}"])


def run_changed_at(stand, library, at):
    """Changes a file before the call with this number. Returns whether that was seen: then no file is replaced.

    It is overlooked only after the last comparison. Then the change is lost, or stands in the new file.
    """
    with Site(stand) as site:
        new = with_texts(site.before, {"main": NEW_MAIN, "d/web": NEW_WEB})
        lost = [new, with_texts(new, {"d/web": NEW_WEB + COLLEAGUE})]
        done = subprocess.run(
            [stand.program, "place", "output"],
            env={"LD_PRELOAD": library, "CHANGE_AT": str(at), "CHANGE_FILE": "d/web"},
            cwd=site.folder,
            capture_output=True,
            timeout=SECONDS,
            check=False,
        )
        came, is_seen = state(site.folder), done.returncode == 3
        wanted = [with_texts(site.before, {"d/web": WEB + COLLEAGUE})] if is_seen else lost
        problems = [] if came in wanted else [f"files {came}"]
        if is_seen:
            problems += difference("standard error", b"sudoers_tool: d/web: Changed\n", done.stderr)
        stand.tally.note(f"{PART}: changed before call {at}", problems)
        return is_seen


def run_killed_at(stand, library, words, at):
    """Kills a run before its call with this number, finishes it in both ways, and returns its status."""
    status = None
    for way in ((), ("--undo",)):
        with Site(stand) as site:
            new = with_texts(site.before, {"main": NEW_MAIN, "d/web": NEW_WEB})
            if "--undo" in words:
                stand.run("place output", site.folder)
            if "apply" in words:
                os.remove(os.path.join(site.folder, "output"))
            done = subprocess.run(
                [stand.program, *words],
                env={"LD_PRELOAD": library, "KILL_AT": str(at)},
                cwd=site.folder,
                input=RENAME.encode(),
                stdout=subprocess.DEVNULL,
                stderr=subprocess.PIPE,
                timeout=SECONDS,
                check=False,
            )
            status = done.returncode
            problems = is_old_or_new(site, new)
            # Before OUTPUT is whole, `apply` replaces no file.
            is_whole = site.is_output_whole()
            came = stand.run(["place", *way, "output"], site.folder)
            problems += difference("status", 0 if is_whole else 3, came.status)
            after = {name: what for name, what in state(site.folder).items() if ".place" not in name}
            problems += difference("files", new if is_whole and not way else site.before, after)
            stand.tally.note(f"{PART}: killed before call {at}, {words}, then {way}", problems)
    return status


def run_growths(stand):
    """If a growth of memory is refused, the files are old or new, and a second run finishes."""

    def check(library):
        for refusal in ("refuse_growth", "refuse_from"):
            number, met = 0, True
            while met:
                number += 1
                with Site(stand) as site:
                    new = with_texts(site.before, {"main": NEW_MAIN, "d/web": NEW_WEB})
                    case = Case("place", ("place", "output"), b"", None, folder=site.folder)
                    came, report = library.run(stand.program, case, **{refusal: number})
                    met = report.met
                    allowed = ((0, b""), (3, b"sudoers_tool: NoMemory\n"), (1, b"sudoers_tool: NoMemory\n"), (3, b""), (1, b""))
                    problems = [] if (came.status, came.stderr) in allowed else [f"{came}"]
                    problems += is_old_or_new(site, new)
                    stand.run("place output", site.folder)
                    after = {name: what for name, what in state(site.folder).items() if ".place" not in name}
                    stand.tally.note(f"{PART}: {refusal} {number}", problems + difference("files", new, after))

    with_library(stand.tally, check)


def run_visudo(stand):
    """What is placed passes `visudo -c`, with owner and mode."""
    visudo = shutil.which("visudo", path="/usr/sbin:/sbin:/usr/bin:/bin")
    if visudo is None or os.geteuid() != 0:
        stand.tally.skip(f"{PART}: visudo -c", "visudo is missing, or this is not root")
        return
    tree = {"main": Closed(MAIN.replace("@includedir d\n", "@include web\n"), 0o440), "web": Closed(WEB, 0o440)}
    with Site(stand, tree) as site:
        stand.run("place output", site.folder)
        done = subprocess.run([visudo, "-c", "-f", "main"], cwd=site.folder, capture_output=True, check=False)
        stand.tally.note(f"{PART}: visudo -c", difference("visudo", 0, done.returncode) + [f"{done.stderr}"] * done.returncode)


def run_all(program, tally):
    """Runs all of it."""
    stand = Stand(PART, program, tally)
    for run in (run_placed, run_new_file, run_links, run_refusals, run_applied, run_busy, run_growths, run_visudo):
        run(stand)
    run_failures(program, tally)
    run_killed(program, tally)
