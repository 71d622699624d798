"""Runs the built program on policies with an error, and compares the explanation that it prints after the error.

A table of tests/explained has the form of tables.py, and the first row of a group is a policy. In a group `policy: TITLE`
it is standard input. In a group `files: TITLE` it has files, the first of which is `main`. The second row is the error,
and the others are its explanation. Each command that reads a policy prints both. Without `--explain`, or with `--plain`, it
prints the error alone.

A policy of a table is also cut after each byte: then the row of the explanation has to be that of the file, and its mark has
to stand under the byte of the place. Without memory for the explanation the error is printed alone.

The other errors are rows of explained_rows.py, and so are the exit statuses that `--error-status` sets. Rows of TERMINALS
say what is explained on a terminal. The words of each hint in hints.rt have to be in a table.
"""

import glob
import os
import pty
import re
import subprocess

from cases import Case
from explained_rows import ANSWERS, CIRCLE, CLOSED, LONG, RULE, RUNS, STATUSES
from included_rows import ASKED, PEOPLE
from preload import with_library
from program import NAME, SECONDS, Answer, Wanted
from stand import PIPE, Folder, Stand, stand_of_nobody
from tables import TOP, NoRow, groups_of, text_of
from tally import difference
from terminals import run_on_terminal

PART = "explaining"
TABLES = os.path.join(TOP, "tests", "explained")
HINTS = os.path.join(TOP, "crates", "sudoers_explain", "src", "hints.rt")

# The commands that print the error of a policy on standard error. `check` prints it on standard output.
COMMANDS = ("show FILE", "convert -f sudoers FILE", "convert -f json -e FILE", f"{ASKED} bob FILE", f"{ASKED} bob --why FILE /bin/a")
HELP = b"  = help: "

WRONG = {"main": "bob ALL\n"}
EXPLAINED = (
    b" --> main:1:8\n  |\n1 | bob ALL\n  |        ^ expected `=` or `,`\n"
    b"  = help: write `=` between the hosts and the commands: `USER HOST = COMMAND`\n"
)

# Words, and whether the error of WRONG is explained on a terminal.
TERMINALS = (
    *((command, True) for command in ("check main", "check -s main", "check --explain main")),
    *((command.replace("FILE", "main"), True) for command in COMMANDS),
    *((command, False) for command in ("check -q main", "check --plain main", "check --explain --plain main", "check -q --explain main")),
    *((command.replace(" FILE", " --plain main"), False) for command in COMMANDS),
)

# A syntax error, and its explanation: a place, the number of a row, the row, and the row with the mark.
SYNTAX_ERROR = re.compile(rb"-:(\d+):(\d+): syntax error: \w+\n")
EXCERPT = re.compile(rb"( *)--> -:(\d+):(\d+)\n\1 \|\n(\d+) \| (.*)\n\1 \| ([ \t]*\^)(?: expected .+)?\n(?:  = help: .+\n)?")
LONGEST_CUT = 100

# Words, and the files of a policy with an error, of which each growth of memory is refused.
GROWTHS = (
    ("check --explain main", {"main": "@include a\n", "a": "# a\nbob ALL = /bin/a \\\n-o a,b\n"}),
    ("show --explain main", {"main": "User_Alias A = x\n@include a\n", "a": "User_Alias A = y\n"}),
    ("convert -f json --explain main", {"main": "@include a\n@include a\n", "a": "# a\n"}),
    (f"{ASKED} bob --explain -g adm main /bin/a", RULE),
    ("show --explain none", {}),
    ("check --all --explain main", {"main": "bob\n@include a\n", "a": "User_Alias A = x\nUser_Alias A = y\n"}),
)

# A value of `--error-status`, and the exit status of an error with it. Each value of WRONG_VALUES is a wrong command line.
VALUES = (("0", 0), ("1", 1), ("2", 2), ("255", 255))
WRONG_VALUES = ("256", "-1", "x", "", "1000000000000000000000", "7 ")

WAITING = b"waiting for SCRIPT, `%%` and POLICY on standard input; `sudoers_tool --help` prints the commands\n"


def note_policy(stand, name, folder, file, stdin, error, explanation):
    """Runs each command on a policy with an error, explained and not."""
    report, line = Wanted(error + b"\n", status=1), Wanted(stderr=NAME + error + b"\n", status=1)
    check = f"check {file}"
    stand.note(name, check, report, folder, stdin)
    stand.note(name, f"{check} --explain", Wanted(report.stdout, explanation, status=1), folder, stdin)
    stand.note(name, f"{check} --explain --plain", report, folder, stdin)
    stand.note(name, f"{check} -q --explain", Wanted(status=1), folder, stdin)
    for command in COMMANDS:
        command = command.replace("FILE", f"--explain {file}")
        stand.note(name, command, Wanted(stderr=line.stderr + explanation, status=1), folder, stdin)
        stand.note(name, command.replace("--explain", "--plain --explain"), line, folder, stdin)


def files_of_row(row):
    """The files that a row has, with their names."""
    pairs = [piece.partition(":") for piece in row.split(" | ")]
    return {name: text_of(text.strip(" ")) for name, _, text in pairs}


def run_group(stand, group):
    """Runs the policy of a group."""
    kind, name = group.words[0], f"{group.where}, {group.title}"
    (number, row), *others = group.rows
    if group.words not in (("policy",), ("files",)) or len(others) < 2:
        raise NoRow(f"row {number}: a group has a policy, an error and its explanation")
    error, *rows = [text_of(row) for _, row in others]
    explanation = b"".join(row + b"\n" for row in rows)
    tree = {} if kind == "policy" else files_of_row(row)
    with Folder({**PEOPLE, **tree}) as folder:
        if kind == "policy":
            note_policy(stand, name, folder, "-", text_of(row), error, explanation)
        else:
            note_policy(stand, name, folder, "main", b"", error, explanation)


def run_tables(stand):
    """Runs all tables, and returns the policies of one file and all rows of explanations."""
    policies, told = [], []
    for path in sorted(glob.glob(os.path.join(TABLES, "*"))):
        where = os.path.relpath(path, TOP)
        try:
            for group in groups_of(path):
                run_group(stand, group)
                policy, *rows = [text_of(row) for _, row in group.rows]
                policies += [policy] * (group.words == ("policy",))
                told += rows
        except (NoRow, UnicodeError) as error:
            stand.tally.note(where, [str(error)])
    stand.tally.note(f"{PART}: tables", [] if told else [f"there is none in {TABLES}"])
    return policies, told


def spelled(row):
    """A row of a file as an explanation has it."""
    return re.sub(rb"[\x00-\x08\x0a-\x1f\x7f]", lambda match: b"\\x%02x" % match[0][0], row)


def excerpt_problems(text, error, explanation):
    """What is wrong with the place, the row and the mark of the explanation of a syntax error."""
    found = EXCERPT.fullmatch(explanation)
    if found is None:
        return ["it has another form"]
    line, column = int(found[2]), int(found[3])
    row = text.split(b"\n")[line - 1].removesuffix(b"\r")
    before = re.sub(rb"[\x80-\xbf]", b"", spelled(row[: column - 1]))
    problems = difference("number", found[2], found[4]) + difference("row", spelled(row), found[5])
    problems += difference("mark", re.sub(rb"[^\t]", b" ", before) + b"^", found[6])
    is_behind = (line, column) > (int(error[1]), int(error[2]))
    return problems + ["the place is behind that of the error"] * is_behind


def run_cut(stand, folder, text):
    """Checks a policy that is cut. Its report does not change with `--explain`, and an error is explained."""
    plain, came = (stand.run(words, folder, text) for words in ("check -", "check --explain -"))
    problems = difference("report", (plain.stdout, plain.status), (came.stdout, came.status))
    problems += [] if came.stderr.startswith(plain.stderr) else ["the error has changed"]
    explanation, error = came.stderr[len(plain.stderr) :], SYNTAX_ERROR.fullmatch(plain.stdout)
    if (explanation == b"") != (plain.status == 0):
        problems += [f"came {came}"]
    elif error:
        problems += [f"{line} of {came}" for line in excerpt_problems(text, error, explanation)]
    stand.tally.note(f"{PART}: {text!r}, a cut policy", problems)


def run_cuts(stand, policies):
    """Cuts each policy of at most LONGEST_CUT bytes after each byte."""
    cuts = {text[:end] for text in policies if len(text) <= LONGEST_CUT for end in range(len(text))}
    with Folder({}) as folder:
        for text in sorted(cuts):
            run_cut(stand, folder, text)


def run_hints(stand, told):
    """The words of each hint are in a table."""
    with open(HINTS, encoding="utf-8") as file:
        code = file.read()
    names = re.findall(r"^    (\w+)(?:\(.*\))?,$", code.partition("pub enum Hint {")[2].partition("\n}\n")[0], re.MULTILINE)
    arms = dict(re.findall(r'(?:Hint::)?(\w+)(?:\(_\))? =>\s+"((?:[^"\\]|\\.)*)"', code))
    stand.tally.note(f"{PART}: hints", [] if len(names) >= 25 and "_" in arms else [f"hints.rt has {names} and {sorted(arms)}"])
    for name in names:
        words = re.sub(r"\\(.)", r"\1", arms.get(name, arms["_"])).encode()
        rows = [row for row in told if row.startswith(HELP + words)]
        stand.tally.note(f"{PART}: hint {name}", [] if rows else [f"no table has {words}"])
    others = set(arms) - set(names) - {"_"}
    stand.tally.note(f"{PART}: hints without a name", [f"{name} is no hint" for name in sorted(others)])


def run_errors(stand, rows):
    """Each error of a run, explained and not."""
    for name, tree, words, error, advice in rows:
        with Folder({**PEOPLE, **tree}) as folder:
            line = NAME + error.encode() + b"\n"
            on_output = words.startswith("check ") and ":" in error
            plain = Wanted(error.encode() + b"\n", status=1) if on_output else Wanted(stderr=line, status=1)
            explained = Wanted(plain.stdout, plain.stderr + HELP + advice.encode() + b"\n", status=1)
            command, rest = words.split(" ", 1)
            stand.note(name, words, plain, folder)
            stand.note(name, f"{command} --plain --explain {rest}", plain, folder)
            stand.note(name, f"{command} --explain {rest}", explained, folder)


def run_long(stand):
    """Each row of LONG."""
    for name, tree, words, report, explanation in LONG:
        with Folder(tree) as folder:
            stand.note(name, words, Wanted(report.encode(), status=1), folder)
            stand.note(name, f"{words} --explain", Wanted(report.encode(), explanation.encode(), status=1), folder)


def run_reports(stand):
    """The report of a policy without an error has no explanation, whatever else the report says."""
    for name, tree in (("rule", RULE), ("circle", CIRCLE), ("undefined alias", {"main": "bob ALL = SH\n"})):
        with Folder(tree) as folder:
            for words in ("check main", "check -s main", "check -q -s main"):
                stand.note(name, f"{words} --explain", stand_in(stand.run(words, folder)), folder)


def stand_in(answer):
    """An answer as what is wanted of another run."""
    return Wanted(answer.stdout, answer.stderr, answer.status)


def run_terminals(stand):
    """With standard error on a terminal an error is explained. With standard output there it is not."""
    with Folder({**PEOPLE, **WRONG}) as folder:
        for words, is_explained in TERMINALS:
            piped = stand.run(words.replace(" --explain", ""), folder)
            wanted = Wanted(piped.stdout, piped.stderr + (EXPLAINED if is_explained else b""), 1)
            came = run_on_terminal(stand.program, words.split(" "), folder, "stderr")
            stand.tally.note(f"{PART}: {words}, standard error on a terminal", wanted.problems(came))
            if "--explain" not in words:
                came = run_on_terminal(stand.program, words.split(" "), folder, "stdout")
                stand.tally.note(f"{PART}: {words}, standard output on a terminal", stand_in(piped).problems(came))


def run_with_terminal_as_input(program, words, text):
    """What the program answers to a text that is typed on a terminal, up to its end."""
    device, other = pty.openpty()
    try:
        streams = {"stdin": other, "stdout": subprocess.PIPE, "stderr": subprocess.PIPE}
        with subprocess.Popen([program, *words], env={}, **streams) as child:
            os.write(device, text + b"\x04")
            texts = child.communicate(timeout=SECONDS)
    finally:
        os.close(other)
        os.close(device)
    return Answer(*texts, child.returncode)


def run_waiting(stand):
    """Before the program waits for a terminal, it says for what. A command line with a command says nothing."""
    for words, told in (([], NAME + WAITING), (["edit"], b""), (["check", "-"], b"")):
        printed = b"-: parsed OK\n" if "check" in words else b"%%\n# a\n"
        typed = b"# a\n" if "check" in words else b"%%\n# a\n"
        came = run_with_terminal_as_input(stand.program, words, typed)
        stand.tally.note(f"{PART}: {words} waits for a terminal", Wanted(printed, told).problems(came))
        came = stand.run(words, TOP, typed)
        stand.tally.note(f"{PART}: {words} reads a pipe", Wanted(printed).problems(came))


def run_growths(stand):
    """If a growth of memory is refused, the error of memory comes, or none, or the error with or without its explanation."""

    def check(library):
        for words, tree in GROWTHS:
            with Folder({**PEOPLE, **tree}) as folder:
                plain = stand.run(words.replace("--explain", "--plain"), folder)
                ample = stand.run(words, folder)
                told = (ample.stderr, plain.stderr, NAME + b"NoMemory\n", b"")
                allowed = [Answer(stdout, stderr, 1) for stdout in {plain.stdout, b""} for stderr in told]
                case = Case(words, tuple(words.split(" ")), b"", stand_in(ample), folder=folder)
                came = set()
                for refusal in ("refuse_growth", "refuse_from"):
                    for number, (answer, _) in enumerate(library.run_each(stand.program, case, refusal), 1):
                        problems = [] if answer in allowed else [f"came {answer}"]
                        stand.tally.note(f"{PART}: {words}, {refusal} {number}", problems)
                        came.add(answer)
                # `--all` prints its report only with its explanation.
                wanted = {ample} if "--all" in words else {ample, plain}
                problems = [] if wanted <= came else ["no growth of the explanation is refused"]
                stand.tally.note(f"{PART}: {words}, answers", problems)

    with_library(stand.tally, check)


def run_statuses(stand):
    """The exit status of an error is that of `--error-status`. A negative answer keeps its own, and the text does not change."""
    with Folder({**PEOPLE, **ANSWERS}) as folder:
        for words, stdin, status in STATUSES:
            first, *rest = words.split(" ")
            came = stand.run([first, "--error-status", "7", *rest], folder, stdin)
            without = stand.run(words, folder, stdin)
            wanted = Wanted(without.stdout, without.stderr, status)
            stand.tally.note(f"{PART}: {words} with --error-status", wanted.problems(came))
            problems = [] if without.status == min(status, 1) else [f"{words} has the status {without.status}"]
            stand.tally.note(f"{PART}: {words} without --error-status", problems)
        for value, status in VALUES:
            stand.note(f"status {value}", f"show --error-status {value} none", Wanted(stderr=NAME + b"NoRoot\n", status=status), folder)
        for command in ("check main", "show main", "convert -f json main", f"{ASKED} bob main", "edit"):
            for value in WRONG_VALUES:
                first, *rest = command.split(" ")
                came = stand.run([first, f"--error-status={value}", *rest], folder)
                problems = Wanted(stderr=None, stderr_has=(f"invalid value '{value}' for '--error-status <N>'".encode(),), status=2).problems(came)
                stand.tally.note(f"{PART}: {command}, status {value!r}", problems)


def run_pipes(stand):
    """A named pipe is read once: its error is explained, and `check --all` prints its report."""
    wrong, right = b"bob ALL\n", b"User_Alias A = x\nbob ALL = /bin/a\n"
    for words, text in (
        ("check --explain", wrong),
        ("show --explain", wrong),
        ("check --all --explain", wrong),
        ("check --all", right),
    ):
        with Folder({"main": text, "pipe": PIPE}) as folder:
            wanted = stand.run(f"{words} main", folder)
            with subprocess.Popen("cat main > pipe", shell=True, cwd=folder):
                came = stand.run(f"{words} pipe", folder)
            texts = [text.replace(b"pipe:", b"main:").replace(b"pipe ", b"main ") for text in (came.stdout, came.stderr)]
            problems = Wanted(wanted.stdout, wanted.stderr, wanted.status).problems(Answer(*texts, came.status))
            stand.tally.note(f"{PART}: a pipe, {words}", problems)


def run_all(program, tally):
    """Runs all of it."""
    stand = Stand(PART, program, tally)
    policies, told = run_tables(stand)
    run_hints(stand, told)
    run_cuts(stand, policies)
    run_errors(stand, RUNS)
    with stand_of_nobody(PART, program, tally) as nobody:
        run_errors(nobody, CLOSED)
    run_long(stand)
    run_pipes(stand)
    run_reports(stand)
    run_terminals(stand)
    run_waiting(stand)
    run_growths(stand)
    run_statuses(stand)
