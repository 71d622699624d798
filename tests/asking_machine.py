"""Runs `who`, `what` and `why`, and compares them with `list` of each user.

The trees stand in asked_rows.py. `who` of a command has to print what `list --why` prints of each user of passwd who may run
it, and `why` what `list --why` prints of one. A listing of `what` without its places has to be that of `list`, and each place
has to be that of the command. Then come the errors, what is printed on a terminal and into devices that fail, refused growths
of memory, and a machine below the folder of `--root`, which a program in a chroot has to see in the same way.
"""

import os
import re
import subprocess

from asked_rows import (
    ADVISED,
    CLOSED_FILES,
    ERRORS,
    GROWTHS,
    IMAGES,
    LINES,
    MACHINE,
    M,
    PATHLESS,
    PEOPLE,
    POLICIES,
    QUESTIONS,
    RULE,
    TERMINALS,
    USAGES,
    WHAT,
    WHO,
)
from cases import Case
from explaining import HELP, stand_in
from preload import with_library
from program import NAME, Answer, Wanted, run
from real_devices import closed_pipe, full_device
from rooted import Changed
from stand import Folder, Stand, stand_of_nobody
from tally import difference
from terminals import run_on_terminal, spelled

PART = "asking_machine"
FILES = ("--passwd", "passwd", "--group-file", "group")
NOBODY_MAY = b"no user may run it\n"
UNDECIDED = b"not decided: "
NEAR = b": matches but for the "
ROW = re.compile(rb"(?m)^([^#+\n-][^:\n]*):")
PLACE = re.compile(rb"    ([^\n]+?):([1-9]\d*):([1-9]\d*): (.+)")
MEMBER = re.compile(rb"!?[^!,:\\\s]+")
ERROR_STATUS = 3


def words_of(text):
    """The words of a text, with single blanks between."""
    return tuple(word for word in text.split(" ") if word)


def without_links(words):
    """The words of a command, which leave the links of this machine aside unless they name a root."""
    command, _, rest = words.partition(" ")
    has_own = "--root" in rest or "--no-same" in rest
    return f"{command} --no-same {rest}" if command in ("who", "why") and not has_own else words


def names_of(folder):
    """The users of a passwd, in the order of the first rows of their names."""
    with open(os.path.join(folder, "passwd"), "rb") as file:
        return list(dict.fromkeys(ROW.findall(file.read())))


def decided(answer):
    """The answer without the lines of rules that match but for one thing, and of what was not decided, which stand last."""
    lines = answer.stdout.splitlines(keepends=True)
    while lines and (lines[-1].startswith(UNDECIDED) or NEAR in lines[-1]):
        lines.pop()
    return Answer(b"".join(lines), answer.stderr, answer.status)


def as_error(answer):
    """What a command of this module answers where `list` has this error."""
    return Answer(b"", answer.stderr, ERROR_STATUS)


class Asking:
    """The program in a folder with a policy, its people, and the words that name a host and a moment."""

    def __init__(self, stand, folder, machine):
        self.stand = stand
        self.folder = folder
        self.machine = words_of(machine)
        self.reasons = {}

    def list(self, user, words):
        """What `list` answers of a user."""
        return self.stand.run(["list", *FILES, *self.machine, "-U", os.fsdecode(user), *words], self.folder)

    def ask(self, command, *words):
        """What a command of this module answers, where no folder has two names."""
        aside = ["--no-same"] if command in ("who", "why") else []
        return self.stand.run([command, *aside, "--policy", "main", *FILES, *self.machine, *words], self.folder)

    def reason(self, user, target, command):
        """What `list --why` answers of a user."""
        asked = (user, target, command)
        if asked not in self.reasons:
            self.reasons[asked] = self.list(user, ["--why", *target, "main", *command])
        return self.reasons[asked]

    def loop(self, target, command, denied):
        """What `who` has to answer: what `list --why` answers of each user."""
        text, is_any = b"", False
        for user in names_of(self.folder):
            answer = self.reason(user, target, command)
            if answer.stderr:
                return as_error(answer)
            if answer.status == 0 or denied and b": denied by: " in answer.stdout:
                text += b"".join(user + b": " + line + b"\n" for line in answer.stdout.splitlines())
            is_any = is_any or answer.status == 0
        return Answer(text if is_any else text + NOBODY_MAY, b"", 0 if is_any else 1)


# ---- who and why are those of a loop over the users


def note_question(asking, name, number, target, command):
    """`who` of a command, and `why` of one user in three."""
    tally, named = asking.stand.tally, " ".join((*target, *command))
    for denied in ((), ("--denied",)):
        wanted = stand_in(asking.loop(target, command, denied))
        came = decided(asking.ask("who", *denied, *target, *command))
        tally.note(f"{PART}: {name}, who {' '.join(denied)} {named}", wanted.problems(came))
    for user in [*names_of(asking.folder), b"nobody"][number % 3 :: 3]:
        answer = asking.reason(user, target, command)
        wanted = stand_in(as_error(answer) if answer.stderr else answer)
        came = decided(asking.ask("why", *target, os.fsdecode(user), *command))
        tally.note(f"{PART}: {name}, why {user} {named}", wanted.problems(came))


def place_problems(folder, line):
    """What is wrong with the place of a line of a listing: the member of its command stands there."""
    found = PLACE.fullmatch(line)
    if found is None:
        return [f"{line} has no place"]
    with open(os.path.join(os.fsencode(folder), found[1]), "rb") as file:
        row = file.read().split(b"\n")[int(found[2]) - 1]
    member = MEMBER.match(row[int(found[3]) - 1 :])
    stands = member is not None and member[0] in found[4]
    return [] if stands else [f"{line} does not stand there"]


def note_rights(asking, name, user):
    """The listing of `what` is that of `list`, and that of an expanded policy with `-e`."""
    tally, named = asking.stand.tally, os.fsdecode(user)
    answer = asking.list(user, ["main"])
    came = asking.ask("what", named)
    if answer.stderr:
        tally.note(f"{PART}: {name}, what {user}", stand_in(as_error(answer)).problems(came))
        return
    lines = came.stdout.partition(b"Defaults")[0].splitlines(keepends=True)
    bare = b"".join(PLACE.sub(rb"    \4", line) for line in lines)
    problems = difference("listing", answer.stdout, bare) + difference("status", 0 if len(lines) > 1 else 1, came.status)
    problems += [problem for line in lines[1:] for problem in place_problems(asking.folder, line.rstrip(b"\n"))]
    tally.note(f"{PART}: {name}, what {user}", problems)
    printed = asking.stand.run("convert -f sudoers -e main", asking.folder)
    with open(os.path.join(asking.folder, "expanded"), "wb") as file:
        file.write(printed.stdout)
    listed = asking.list(user, ["expanded"])
    came = asking.ask("what", "-e", named)
    bare = b"".join(PLACE.sub(rb"    \4", line) for line in came.stdout.partition(b"Defaults")[0].splitlines(keepends=True))
    tally.note(f"{PART}: {name}, what -e {user}", difference("listing", listed.stdout, bare))


def run_policies(stand):
    """Each policy with each command, and with each user."""
    for name, tree, machine in POLICIES:
        with Folder({**MACHINE, **tree}) as folder:
            asking = Asking(stand, folder, machine)
            for number, (target, command) in enumerate(QUESTIONS):
                note_question(asking, name, number, words_of(target), words_of(command))
            for user in (*names_of(folder), b"nobody"):
                note_rights(asking, name, user)


# ---- rows


def run_answers(stand):
    """Each row of WHO and of WHAT: the whole answer."""
    for name, tree, words, text, status in (*WHO, *WHAT):
        with Folder({**MACHINE, **tree}) as folder:
            text = text if isinstance(text, bytes) else text.encode()
            stand.note(name, without_links(words), Wanted(text, status=status), folder)


def run_errors(stand, rows):
    """Each error, plain and explained. An error of no file of the policy has one advice or none."""
    for name, tree, words, error, advice in rows:
        with Folder({**MACHINE, **tree}) as folder:
            line = NAME + error.encode() + b"\n"
            command, rest = words.split(" ", 1)
            stand.note(name, words, Wanted(stderr=line, status=ERROR_STATUS), folder)
            stand.note(name, f"{command} --plain --explain {rest}", Wanted(stderr=line, status=ERROR_STATUS), folder)
            if advice is None:
                continue
            explained = line + (HELP + advice.encode() + b"\n" if advice else b"")
            stand.note(name, f"{command} --explain {rest}", Wanted(stderr=explained, status=ERROR_STATUS), folder)


def run_lines(stand):
    """An error of the policy, with the lines that explain it."""
    for name, tree, words, error, explanation in LINES:
        with Folder({**MACHINE, **tree}) as folder:
            line = NAME + error.encode() + b"\n"
            command, rest = words.split(" ", 1)
            stand.note(name, words, Wanted(stderr=line, status=ERROR_STATUS), folder)
            wanted = Wanted(stderr=line + explanation.encode(), status=ERROR_STATUS)
            stand.note(name, f"{command} --explain {rest}", wanted, folder)


def run_usages(stand):
    """Each wrong command line."""
    with Folder(MACHINE) as folder:
        for words, text in USAGES:
            wanted = Wanted(stderr=None, status=2, stderr_has=(b"error: ", text.encode()))
            stand.note("usage", words, wanted, folder)


def run_pathless(stand):
    """A command without its path has an advice where errors are explained, behind its answer."""
    with Folder({**MACHINE, "main": "bob ALL = ALL\nbob ALL = !/bin/a\n"}) as folder:
        for words, is_pathless in PATHLESS:
            command, rest = without_links(words).split(" ", 1)
            plain = stand.run(f"{command} {rest}", folder)
            stand.tally.note(f"{PART}: {words}, plain", difference("standard error", b"", plain.stderr))
            wanted = Wanted(plain.stdout, HELP + ADVISED + b"\n" if is_pathless else b"", plain.status)
            stand.note("a command without its path", f"{command} --explain {rest}", wanted, folder)
            stand.note("a command without its path", f"{command} --explain --plain {rest}", stand_in(plain), folder)


# ---- streams


def run_streams(stand):
    """A policy on standard input, which may be closed."""
    tree = {**MACHINE, "main": "@include a\nbob ALL = WEB\n", "a": "Cmnd_Alias WEB = /bin/a\n"}
    with Folder(tree) as folder:
        with open(os.path.join(folder, "main"), "rb") as file:
            policy = file.read()
        for words in ("who POLICY /bin/a", "who POLICY --denied /bin/b", "what POLICY -e bob", "why POLICY bob /bin/a", "why POLICY ann /bin/a"):
            words = without_links(words)
            named = stand.run(words.replace("POLICY", M), folder)
            streamed = words.replace("POLICY", f"--policy - {PEOPLE}")
            came = stand.run(streamed, folder, policy)
            came = Answer(re.sub(rb"(?m)(^| )-:", rb"\1main:", came.stdout), came.stderr, came.status)
            stand.tally.note(f"{PART}: {words}, standard input", stand_in(named).problems(came))
            closed = subprocess.run(
                ["/bin/sh", "-c", 'exec "$@" <&-', "sh", stand.program, *words_of(streamed)], cwd=folder, env={}, capture_output=True, check=False
            )
            wanted = Wanted(stderr=NAME + b"Failed\n", status=ERROR_STATUS)
            came = Answer(closed.stdout, closed.stderr, closed.returncode)
            stand.tally.note(f"{PART}: {words}, a closed standard input", wanted.problems(came))


def run_writes(stand):
    """A full device and a closed pipe as standard output; a full standard error changes no status."""
    with Folder({**MACHINE, **RULE}) as folder:
        for words in (f"who {M} /bin/a", f"who {M} /bin/b", f"what {M} bob", f"why {M} bob /bin/a", "who --help"):
            status = 1 if "--help" in words else ERROR_STATUS
            for device, opened in (("a full device", full_device), ("a closed pipe", closed_pipe)):
                output = opened()
                came = run(stand.program, words_of(words), stdout=output, folder=folder)
                os.close(output)
                problems = Wanted(stderr=NAME + b"Write\n", status=status).problems(came)
                stand.tally.note(f"{PART}: {words}, {device}", problems)
        for words, status in (("who", 2), (f"who --policy none {PEOPLE} /bin/a", 3), (f"why {M} --explain bob b", 1)):
            came = run("/bin/sh", ("-c", 'exec "$@" 2>/dev/full', "sh", stand.program, *words_of(words)), folder=folder)
            stand.tally.note(f"{PART}: {words}, a full standard error", difference("status", status, came.status))


def run_terminals(stand):
    """On a terminal errors are explained, and control bytes are spelled."""
    for name, tree, words in TERMINALS:
        with Folder({**MACHINE, **tree}) as folder:
            command, rest = words.split(" ", 1)
            piped = stand.run(words, folder)
            explained = stand.run(words if "--plain" in words else f"{command} --explain {rest}", folder)
            wanted = Wanted(explained.stdout, spelled(explained.stderr), explained.status)
            came = run_on_terminal(stand.program, words.split(" "), folder, "stderr")
            stand.tally.note(f"{PART}: {name}, standard error on a terminal", wanted.problems(came))
            wanted = Wanted(spelled(piped.stdout), piped.stderr, piped.status)
            came = run_on_terminal(stand.program, words.split(" "), folder, "stdout")
            stand.tally.note(f"{PART}: {name}, standard output on a terminal", wanted.problems(came))


# ---- refused growths of memory


def run_growths(stand):
    """If a growth is refused, the answer or the error comes, with or without its explanation, or the error of memory.

    Before the command line is read, the program does not know the command, and the error of memory has the status 1.
    """

    def check(library):
        for words, tree in GROWTHS:
            with Folder({**MACHINE, **tree}) as folder:
                ample, plain = stand.run(words, folder), stand.run(words.replace("--explain", "--plain"), folder)
                refused = Answer(b"", NAME + b"NoMemory\n", ERROR_STATUS)
                allowed = {ample, plain, *(Answer(b"", text, status) for text in (refused.stderr, b"") for status in (1, ERROR_STATUS))}
                case = Case(words, tuple(words.split(" ")), b"", stand_in(ample), folder=folder)
                came = set()
                for refusal in ("refuse_growth", "refuse_from"):
                    for number, (answer, _) in enumerate(library.run_each(stand.program, case, refusal), 1):
                        stand.tally.note(f"{PART}: {words}, {refusal} {number}", [] if answer in allowed else [f"came {answer}"])
                        came.add(answer)
                problems = [] if {ample, refused} <= came else [f"came only {came}"]
                stand.tally.note(f"{PART}: {words}, answers", problems)

    with_library(stand.tally, check)


# ---- a machine below a folder


def run_images(stand, program):
    """A machine below a folder is asked as in a chroot, without a word that names it."""
    changed = Changed(program)
    if not changed.words:
        stand.tally.skip(f"{PART}, a chroot", "the system allows none")
    for name, image, words, text, status in IMAGES:
        with Folder({f"image/{file}": what for file, what in image.items()}) as folder:
            if changed.words:
                changed.prepare(folder)
            command, *rest = words_of(words)
            for top in ("image", "image/", folder + "/image"):
                came = stand.run([command, "--root", top, *rest], folder)
                told = came.stdout + came.stderr.replace(os.fsencode(folder) + b"/", b"").replace(b"image/etc", b"/etc")
                problems = difference("text", text.encode(), told) + difference("status", status, came.status)
                stand.tally.note(f"{PART}: {name}, {words}, --root {top}", problems)
            if changed.words:
                came = changed.run(words, "", folder)
                problems = difference("text", text.encode(), came.stdout + came.stderr)
                stand.tally.note(f"{PART}: {name}, {words} in a chroot", problems + difference("status", status, came.status))


def run_all(program, tally):
    """Runs all of it."""
    stand = Stand(PART, program, tally)
    run_policies(stand)
    run_answers(stand)
    run_errors(stand, ERRORS)
    with stand_of_nobody(PART, program, tally) as nobody:
        run_errors(nobody, CLOSED_FILES)
    run_lines(stand)
    run_usages(stand)
    run_pathless(stand)
    run_streams(stand)
    run_writes(stand)
    run_terminals(stand)
    run_growths(stand)
    run_images(stand, program)
