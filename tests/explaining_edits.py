"""Runs `edit` on scripts and edits with an error, and compares the explanation that it prints after the error.

A table of tests/explained_edits has the form of tables.py. The first row of a group `edit: TITLE` is a script, and the second
one the policy. In a group `files: TITLE` the second row has files, the first of which is `main`. The first row of a group
`input: TITLE` is the whole standard input. The next row is the error, and the others are its explanation. `edit` prints both
with `--explain`, and so does `edit --files` for files that are named as in the table. Without the option, or with `--plain`, they
print the error alone, as the program does without a command. On a terminal all of them print both.

Each script and each input of a table is also cut after each byte: its error does not change with `--explain`, and has an
explanation. Without memory for the explanation the error is printed alone. The words of each hint in edit_hints.rt have to be in
a table or in a row of ROWS, which has errors of large inputs and of files.
"""

import glob
import os
import re
import tempfile

from cases import Case
from explaining import HELP, stand_in
from preload import with_library
from program import NAME, Answer, Wanted
from stand import EMPTY_FOLDER, Closed, Folder, Stand, stand_of_nobody
from tables import TOP, NoRow, groups_of, text_of
from terminals import run_on_terminal

PART = "explaining_edits"
TABLES = os.path.join(TOP, "tests", "explained_edits")
HINTS = os.path.join(TOP, "crates", "sudoers_explain_edits", "src", "edit_hints.rt")
SIZE, LENGTH, EDITS, INPUT = 1048576, 65536, 65536, 4000000
LONGEST_CUT = 60

MAIN = {"main": "# a\n", "script": "prune\n"}
LARGE = "#\n" * (SIZE // 2)
PRUNED = "".join(f"User_Alias A{number} = x\n" for number in range(4096))
UNDOES = "prune\n" + "insert 1\n|# b\ndelete 1\n" * (EDITS // 2 - 1)


def excerpt(place, row, mark, label=""):
    """The lines that show a row of a file: `place` is FILE:LINE:COL, and the mark is below the byte `mark`, from 1."""
    number = place.split(":")[1]
    wide = " " * len(number)
    return f"{wide}--> {place}\n{wide} |\n{number} | {row}\n{wide} | {' ' * (mark - 1)}^{label and ' '}{label}\n"


# A name, a tree, words of `edit --files`, standard input, the error, and its explanation.
ROWS = (
    ("last_line_of_the_script", {**MAIN, "script": "prune"}, "script main", "", "script:1: BadWord", excerpt("script:1:6", "prune", 6) + "  = help: write a line feed at the end of the last line\n"),
    (
        *("last_line_of_a_text", {**MAIN, "script": "insert 1\n|# b"}, "script main", "", "script:2: BadWord"),
        excerpt("script:2:5", "|# b", 5) + "  = help: write a line feed at the end of the last line\n",
    ),
    (
        *("large_file", {"main": LARGE, "script": "insert 1\n|#\n"}, "script main", "", "edit 1: TooLarge"),
        excerpt("script:1:1", "insert 1", 1, "main would have 1048578 bytes") + "  = help: a file has at most 1048576 bytes, and a line 65536\n",
    ),
    (
        *("long_line", {"main": "User_Alias A = x\n", "script": f"add user A 2\n>, {'y' * LENGTH}\n"}, "script main", "", "edit 1: TooLarge"),
        excerpt("script:1:1", "add user A 2", 1) + "  = help: a file has at most 1048576 bytes, and a line 65536\n",
    ),
    (
        *("long_line_to_insert", {**MAIN, "script": f"insert 1\n|#{'y' * LENGTH}\n"}, "script main", "", "edit 1: NotOneLine"),
        excerpt("script:2:2", f"|#{'y' * 119}", 2) + "  = help: a line has at most 65536 bytes, with the lines that continue it\n",
    ),
    ("many_commands", {**MAIN, "script": "prune\n" * (EDITS + 1)}, "script main", "", "TooMany", "  = help: split the script: it has at most 65536 commands\n"),
    ("many_undo_commands", {"main": PRUNED, "script": UNDOES}, "script main", "", "TooMany", "  = help: split the script: its undo script has at most 65536 commands\n"),
    (
        *("large_script", {**MAIN, "script": "#" * (INPUT + 1)}, "script main", "", "InputTooLarge"),
        "  = help: split the script and apply its parts one after another: the input has at most 4000000 bytes\n",
    ),
    ("missing_script", MAIN, "none main", "", "none: Read", "  = help: none: no such file\n"),
    ("folder_as_script", {**MAIN, "d": EMPTY_FOLDER}, "d main", "", "d: Read", "  = help: d: it is a folder\n"),
    ("missing_policy", MAIN, "script none", "", "none: NoRoot", "  = help: none: no such file\n"),
    ("folder_as_policy", {**MAIN, "d": EMPTY_FOLDER}, "script d", "", "d: Failed", "  = help: d: it is no regular file\n"),
    ("missing_policy_below_a_root", {**MAIN, "r/a": ""}, "script --root r /etc/sudoers", "", "/etc/sudoers: NoRoot", "  = help: /etc/sudoers: no such file\n"),
    ("file_of_also_that_is_there", MAIN, "script --also main main", "", "main: SameName", "  = help: leave out `--also`: the policy has this file already\n"),
    ("line_feed_in_a_name", {"script": "", "a\nb": "# a\n"}, ["script", "a\nb"], "", "a\nb: BadBundle", "  = help: rename the file: a bundle has no name with a line feed\n"),
    ("many_files", {"main": "@includedir d\n", "script": "", **{f"d/{number}": "" for number in range(256)}}, "script main", "", "TooManyFiles", "  = help: a policy has at most 256 files\n"),
    ("script_on_standard_input", MAIN, "- main", "prnue\n", "script:1: BadWord", excerpt("script:1:1", "prnue", 1) + "  = help: the command is spelled `prune`\n"),
    (
        *("policy_on_standard_input", MAIN, "script -", "bob ALL\n", "-:1:8: syntax error: EndOfLine"),
        excerpt("-:1:8", "bob ALL", 8, "expected `=` or `,`") + "  = help: write `=` between the hosts and the commands: `USER HOST = COMMAND`\n",
    ),
)

CLOSED = (
    ("closed_script", {**MAIN, "script": Closed("prune\n")}, "script main", "", "script: Read", "  = help: script: permission denied\n"),
    ("closed_policy", {**MAIN, "main": Closed("# a\n")}, "script main", "", "main: Failed", "  = help: main: permission denied\n"),
)

# Scripts with an error, the policy, and the words of `edit`, of which each growth of memory is refused.
POLICY = {"main": "User_Alias ADMINS = ann, bob\n@include a\n", "a": "# a\nUser_Alias OPS = eve\nOPS ALL = ALL\n"}
GROWTHS = (
    ("prnue\n", "edit --explain --files script main"),
    ("delete 1\nadd user ADMNS 1\n>, x\n", "edit --explain --files script main"),
    ("file 2\ndelete 1\nadd user OPS 9\n>, x\n", "edit --explain --files script main"),
    ("rename user OPS ADMINS\n", "edit --explain --files script main"),
    ("add user ADMINS 2\n>, x y\n", "edit --explain --files script main"),
    ("insert 1\n|bob ALL\n", "edit --explain --files script main"),
    ("prune\n%%\r\n", "edit --explain"),
    ("prune\n%% 3 main\n# a\n", "edit --explain"),
    ("drop user A 2\n%%\nUser_Alias A = x\n", "edit --explain"),
)


def note_runs(stand, name, words, folder, stdin, error, explanation):
    """Runs `edit` with words, explained and not."""
    line = NAME + error + b"\n"
    words = words if isinstance(words, list) else words.split(" ")
    words = [word for word in words if word]
    stand.note(name, ["edit", *words], Wanted(stderr=line, status=1), folder, stdin)
    stand.note(name, ["edit", "--explain", *words], Wanted(stderr=line + explanation, status=1), folder, stdin)
    stand.note(name, ["edit", "--plain", "--explain", *words], Wanted(stderr=line, status=1), folder, stdin)


def bundle_of(tree):
    """The files of a tree as a bundle."""
    return b"".join(b"%%%% %d %s\n%s" % (len(text), name.encode(), text) for name, text in tree.items())


def files_of_row(row):
    """The files that a row has, with their names."""
    pairs = [piece.partition(":") for piece in row.split(" | ")]
    return {name: text_of(text.removeprefix(" ")) for name, _, text in pairs}


def words_for_files(stand, tree, folder):
    """The words of `edit --files` for the files of a tree: those that no line includes are files of `--also`."""
    first, *others = tree
    shown = stand.run(["show", first], folder).stdout
    found = {line.split(b" ", 2)[2].decode() for line in shown.splitlines() if line.startswith(b"file ")}
    also = [word for name in others if name not in found for word in ("--also", name)]
    return ["--files", "script", *also, first]


def note_group(stand, group):
    """Runs the script of a group, and returns the standard input, the error and its explanation."""
    kind, name = group.words[0], f"{group.where}, {group.title}"
    if group.words not in (("edit",), ("files",), ("input",)):
        raise NoRow(f"{name}: a group is of an edit, files or an input")
    rows = [row for _, row in group.rows]
    script, rows = text_of(rows[0]), rows[1:]
    tree, stdin = {}, script
    if kind == "edit":
        policy, rows = text_of(rows[0]), rows[1:]
        tree, stdin = {"policy": policy}, script + b"%%\n" + policy
    elif kind == "files":
        tree, rows = files_of_row(rows[0]), rows[1:]
        stdin = script + bundle_of(tree)
    if len(rows) < 2:
        raise NoRow(f"{name}: an error and its explanation are missing")
    error, *rows = map(text_of, rows)
    explanation = b"".join(row + b"\n" for row in rows)
    with Folder({**tree, "script": script}) as folder:
        note_runs(stand, name, "", folder, stdin, error, explanation)
        stand.note(name, [], Wanted(stderr=NAME + error + b"\n", status=1), folder, stdin)
        if tree:
            note_runs(stand, name, words_for_files(stand, tree, folder), folder, b"", error, explanation)
    return stdin, error, explanation


def run_tables(stand):
    """Runs all tables, and returns what `note_group` does for each group."""
    runs = []
    for path in sorted(glob.glob(os.path.join(TABLES, "*"))):
        try:
            runs += [note_group(stand, group) for group in groups_of(path)]
        except (NoRow, UnicodeError) as error:
            stand.tally.note(os.path.relpath(path, TOP), [str(error)])
    stand.tally.note(f"{PART}: tables", [] if runs else [f"there is none in {TABLES}"])
    return runs


def run_rows(stand, rows):
    """Each row of errors of large inputs and of files."""
    for name, tree, words, stdin, error, explanation in rows:
        with Folder(tree) as folder:
            words = ["--files", *(words.split(" ") if isinstance(words, str) else words)]
            note_runs(stand, name, words, folder, stdin.encode(), error.encode(), explanation.encode())


def run_large_input(stand):
    """A standard input that is too large."""
    with Folder({}) as folder:
        advice = next(row[-1] for row in ROWS if row[0] == "large_script")
        note_runs(stand, "large_input", "", folder, b"#" * (INPUT + 1), b"InputTooLarge", advice.encode())


def run_hints(stand, told):
    """The words of each hint are in an explanation."""
    with open(HINTS, encoding="utf-8") as file:
        code = file.read()
    names = re.findall(r"^    (\w+),$", code.partition("pub enum EditHint {")[2].partition("\n}\n")[0], re.MULTILINE)
    arms = dict(re.findall(r'(?:EditHint::)?(\w+) =>\s+"((?:[^"\\]|\\.)*)"', code))
    stand.tally.note(f"{PART}: hints", [] if len(names) >= 50 and "_" in arms else [f"edit_hints.rt has {names} and {sorted(arms)}"])
    for name in names:
        words = re.sub(r"\\(.)", r"\1", arms.get(name, arms["_"])).encode()
        problems = [] if any(HELP + words in explanation for explanation in told) else [f"no table has {words}"]
        stand.tally.note(f"{PART}: hint {name}", problems)
    others = set(arms) - set(names) - {"_"}
    stand.tally.note(f"{PART}: hints without a name", [f"{name} is no hint" for name in sorted(others)])


def run_cuts(stand, inputs):
    """Cuts each input after each byte. Its answer does not change with `--explain`, but that an error is explained."""
    cuts = {text[:end] for text in inputs if len(text) <= LONGEST_CUT for end in range(len(text))}
    with Folder({}) as folder:
        for text in sorted(cuts):
            plain, came = (stand.run(words, folder, text) for words in ("edit", "edit --explain"))
            explanation = came.stderr[len(plain.stderr) :]
            wanted = Answer(plain.stdout, plain.stderr + explanation, plain.status)
            problems = [] if came == wanted else [f"came {came} and {plain}"]
            if (explanation == b"") != (plain.status == 0) or not explanation.endswith(b"\n" * (plain.status != 0)):
                problems += [f"the explanation is {explanation}"]
            stand.tally.note(f"{PART}: {text!r}, a cut input", problems)


def run_terminals(stand, runs):
    """On a terminal each error is explained, also without a command; with `--plain` it is not."""
    with Folder({}) as folder, tempfile.TemporaryFile() as stdin:
        for text, error, explanation in runs[:: max(1, len(runs) // 12)]:
            for words, lines in (([], explanation), (["edit"], explanation), (["edit", "--plain"], b"")):
                stdin.seek(0)
                stdin.truncate()
                stdin.write(text)
                stdin.seek(0)
                came = run_on_terminal(stand.program, words, folder, "stderr", stdin)
                wanted = NAME + error + b"\n" + lines
                problems = [] if came == Answer(b"", wanted, 1) else [f"came {came}"]
                stand.tally.note(f"{PART}: {words}, {text!r}, standard error on a terminal", problems)


def run_growths(stand):
    """If a growth of memory is refused, the error of memory comes, or none, or the error with or without its explanation."""

    def check(library):
        for script, words in GROWTHS:
            name = f"{PART}: {script!r}"
            with Folder({**POLICY, "script": script}) as folder:
                stdin = script.encode()
                plain, ample = (stand.run(line, folder, stdin) for line in (words.replace("--explain", "--plain"), words))
                told = (ample.stderr, plain.stderr, NAME + b"NoMemory\n", b"")
                case = Case(name, tuple(words.split(" ")), stdin, stand_in(ample), folder=folder)
                came = set()
                for refusal in ("refuse_growth", "refuse_from"):
                    for number, (answer, _) in enumerate(library.run_each(stand.program, case, refusal), 1):
                        problems = [] if answer in [Answer(b"", stderr, 1) for stderr in told] else [f"came {answer}"]
                        stand.tally.note(f"{name}, {refusal} {number}", problems)
                        came.add(answer)
                problems = [] if {ample, plain} <= came else ["no growth of the explanation is refused"]
                stand.tally.note(f"{name}, answers", problems)

    with_library(stand.tally, check)


def run_all(program, tally):
    """Runs all of it."""
    stand = Stand(PART, program, tally)
    runs = run_tables(stand)
    run_rows(stand, ROWS)
    with stand_of_nobody(PART, program, tally) as nobody:
        run_rows(nobody, CLOSED)
    run_large_input(stand)
    run_hints(stand, [explanation for _, _, explanation in runs] + [row[-1].encode() for row in ROWS])
    run_cuts(stand, [stdin for stdin, _, _ in runs])
    run_terminals(stand, runs)
    run_growths(stand)
