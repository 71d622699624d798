"""Runs `edit --files` of the built program on policies of several files, which are made here.

A row of ROWS has a name, a tree, words, a script on standard input and what comes. The output of each accepted row is
the next input of `edit`, and has to give back each file as it was.
"""

import os
from dataclasses import replace

from bundles import bundle, files_of_output
from program import Wanted, fault, run
from stand import EMPTY_FOLDER, PIPE, Closed, Folder, Link, Stand, stand_of_nobody
from tally import difference

PART = "editing_files"
LIMIT = 4_000_000
OFF_WALK = "sudoers_tool: %s: no line of the edited policy includes this file\n"
FULL_ERRORS = 'exec "$@" 2>/dev/full'

PAIR = {"s": "insert 1\n|# first\nfile 2\ndelete 1\n", "a": "@include b\nUser_Alias A = x\n", "b": "# gone\nA ALL=ALL\n"}
SITE = {
    "main": "User_Alias OPS = bob\nUser_Alias IDLE = x\n@includedir d\n",
    "d/a": "OPS ALL = /bin/a\n",
    "d/b": "User_Alias WEB = ann\nWEB ALL = /bin/b",
    "d/b~": "no policy\n",
    "d/x.y": "no policy\n",
}
HOST = {
    "copy/etc/sudoers": "User_Alias OPS = bob\nUser_Alias IDLE = x\n@includedir /etc/sudoers.d\n",
    "copy/etc/sudoers.d/10-ops": "OPS ALL = /bin/a\n",
    "copy/etc/sudoers.d/20-web": Link("/usr/share/web"),
    "copy/etc/sudoers.d/20-web~": "no policy\n",
    "copy/usr/share/web": "User_Alias WEB = ann\nWEB, OPS ALL = /bin/b\n",
}
RENAME = "rename user OPS CREW\nprune\n"


def made(undo, *files):
    """What comes of edits: the undo script and the files, each a name and a text."""
    return Wanted(undo.encode() + bundle([(name.encode(), text.encode()) for name, text in files]))


def naming(wanted, *names):
    """The same, with a line on standard error for each of these files of `--also`, which are off the walk."""
    return replace(wanted, stderr="".join(OFF_WALK % name for name in names).encode())


def edited_site(main, folder):
    """The files of SITE after RENAME."""
    return made(
        "insert 2\n|User_Alias IDLE = x\nrename user CREW OPS\n",
        (main, f"User_Alias CREW = bob\n@includedir {folder}\n"),
        (f"{folder}/a", "CREW ALL = /bin/a\n"),
        (f"{folder}/b", "User_Alias WEB = ann\nWEB ALL = /bin/b"),
    )


# Files of `--also`, of which some are off the walk of the edited policy.
NEW = "bob ALL = ALL\n"
FILLED = "file 3\ninsert 1\n|bob ALL = ALL\n"
INSERTED = "insert 1\n|@include local\n"
EMPTIED = "file 3\ndelete 1\n"

OFF_THE_WALK = (
    (
        "other_spelling_of_a_folder",
        {"main": "@includedir ./d\n", "d/a": "# a\n"},
        "edit --files - --also d/new main",
        FILLED,
        naming(made(EMPTIED, ("main", "@includedir ./d\n"), ("./d/a", "# a\n"), ("d/new", NEW)), "d/new"),
    ),
    (
        "two_spellings_of_a_folder",
        {"main": "@includedir ./d\n"},
        "edit --files - --also d/new --also ./d/new main",
        FILLED,
        naming(made(EMPTIED, ("main", "@includedir ./d\n"), ("d/new", ""), ("./d/new", NEW)), "d/new"),
    ),
    (
        "other_spelling_of_a_file",
        {"main": "@include b\n", "b": "# b\n"},
        "edit --files - --also ./b main",
        EMPTIED,
        naming(made("file 3\ninsert 1\n|# b\n", ("main", "@include b\n"), ("b", "# b\n"), ("./b", "")), "./b"),
    ),
    (
        "other_spelling_beside_a_policy_on_standard_input",
        {"b": "# b\n", "s": "prune\n"},
        "edit --files s --also ./b -",
        "@include b\n",
        naming(made("", ("-", "@include b\n"), ("b", "# b\n"), ("./b", "# b\n")), "./b"),
    ),
    (
        "relative_name_of_a_folder_below_a_root",
        {"copy/etc/sudoers": "@includedir /etc/sudoers.d\n"},
        "edit --files - --root copy --also etc/sudoers.d/new /etc/sudoers",
        "",
        naming(made("", ("/etc/sudoers", "@includedir /etc/sudoers.d\n"), ("etc/sudoers.d/new", "")), "etc/sudoers.d/new"),
    ),
    (
        "names_that_a_folder_skips",
        {"main": "@includedir d\n", "d/x.y": "# x\n"},
        "edit --files - --also d/x.y main --also d/b~",
        "",
        naming(made("", ("main", "@includedir d\n"), ("d/x.y", "# x\n"), ("d/b~", "")), "d/x.y", "d/b~"),
    ),
    (
        "two_names_of_which_one_is_off_the_walk",
        {"main": "@includedir d\n"},
        "edit --files - --also d/new --also new main",
        "file 2\ninsert 1\n|bob ALL = ALL\n",
        naming(made("file 2\ndelete 1\n", ("main", "@includedir d\n"), ("d/new", NEW), ("new", "")), "new"),
    ),
    (
        "name_that_an_inserted_line_includes_and_one_that_none_does",
        {"main": "# a\n"},
        "edit --files - --also other --also local main",
        INSERTED,
        naming(made("delete 1\n", ("main", "@include local\n# a\n"), ("other", ""), ("local", "")), "other"),
    ),
    (
        "name_that_a_line_of_another_name_includes",
        {"main": "@includedir d\n"},
        "edit --files - --also d/x.y --also d/sub/x --also d/new main",
        "file 4\ninsert 1\n|@include sub/x\n",
        naming(
            made(
                "file 4\ndelete 1\n",
                ("main", "@includedir d\n"),
                *(("d/x.y", ""), ("d/sub/x", ""), ("d/new", "@include sub/x\n")),
            ),
            "d/x.y",
        ),
    ),
    (
        "name_that_only_a_file_off_the_walk_includes",
        {"main": "# a\n", "c": "@include b\n"},
        "edit --files - --also c --also b main",
        "",
        naming(made("", ("main", "# a\n"), ("c", "@include b\n"), ("b", "")), "c", "b"),
    ),
    (
        "inserted_line_that_an_undo_takes_out",
        {"main": "# a\n"},
        "edit --undo 1 --files - --also local main",
        INSERTED,
        naming(made("", ("main", "# a\n"), ("local", "")), "local"),
    ),
    (
        "inserted_line_that_a_redo_brings_back",
        {"main": "# a\n"},
        "edit --undo 1 --redo 1 --files - --also local --also other main",
        INSERTED,
        naming(made("delete 1\n", ("main", "@include local\n# a\n"), ("local", ""), ("other", "")), "other"),
    ),
    (
        "deleted_line_of_the_folder_of_a_name",
        {"main": "@includedir d\n", "d/a": "# a\n"},
        "edit --files - --also d/new main",
        "delete 1\n",
        naming(made("insert 1\n|@includedir d\n", ("main", ""), ("d/a", "# a\n"), ("d/new", "")), "d/new"),
    ),
    (
        "deleted_line_of_a_file_that_is_no_name",
        {"main": "@include b\n", "b": "# b\n"},
        "edit --files - --also local main",
        "delete 1\n",
        naming(made("insert 1\n|@include b\n", ("main", ""), ("b", "# b\n"), ("local", "")), "local"),
    ),
    (
        "refused_edit_beside_a_name_off_the_walk",
        {"main": "# a\n"},
        "edit --files - --also local main",
        "delete 2\n",
        fault("edit 1: NoLine"),
    ),
)

UNDO_OF_TWO = "file 2\ninsert 1\n|# gone\nfile 1\ndelete 1\n"
AFTER_ONE = "# first\n@include b\nUser_Alias A = x\n"

ROWS = (
    ("script_of_two_files", PAIR, "edit --files s a", "", made(UNDO_OF_TWO, ("a", AFTER_ONE), ("b", "A ALL=ALL\n"))),
    ("policy_before_the_script", PAIR, "edit a --files=s", "", made(UNDO_OF_TWO, ("a", AFTER_ONE), ("b", "A ALL=ALL\n"))),
    ("script_on_standard_input", PAIR, "edit --files - a", "", made("", ("a", PAIR["a"]), ("b", PAIR["b"]))),
    (
        "policy_on_standard_input",
        {**PAIR, "s": "prune\n"},
        "edit --files s -",
        "@include b\n",
        made("", ("-", "@include b\n"), ("b", PAIR["b"])),
    ),
    ("last_edit_taken_back", PAIR, "edit --undo 1 --files s a", "", made("delete 1\n", ("a", AFTER_ONE), ("b", PAIR["b"]))),
    ("policy_of_one_file", {"a": "# a\n"}, "edit --files - a", "insert 2\n|# b\n", made("delete 2\n", ("a", "# a\n# b\n"))),
    ("rename_and_prune_over_a_folder", SITE, "edit --files - main", RENAME, edited_site("main", "d")),
    (
        "file_of_a_folder_that_a_file_of_it_includes",
        {
            "main": "@include z\n@includedir d\n@include a\n", "a": "# a\n", "d/10": "# 10\n", "d/9": "@include n\n",
            "d/n.x": "", "d/n": "# n\n", "z": "# z\n",
        },
        "edit --files - main",
        "file 5\ninsert 1\n|# fifth\n",
        fault("main:2:1: include d/n twice"),
    ),
    (
        "numbers_of_the_walk",
        {
            "main": "@include z\n@includedir d\n@include a\n", "a": "# a\n", "d/10": "# 10\n", "d/9": "@include sub/n\n",
            "d/sub/n": "# n\n", "z": "# z\n",
        },
        "edit --files - main",
        "file 5\ninsert 1\n|# fifth\n",
        made(
            "file 5\ndelete 1\n",
            ("main", "@include z\n@includedir d\n@include a\n"),
            *(("z", "# z\n"), ("d/10", "# 10\n"), ("d/9", "@include sub/n\n"), ("d/sub/n", "# fifth\n# n\n"), ("a", "# a\n")),
        ),
    ),
    (
        "rename_and_prune_on_a_copy_of_a_host",
        HOST,
        "edit --files - --root copy /etc/sudoers",
        RENAME,
        made(
            "insert 2\n|User_Alias IDLE = x\nrename user CREW OPS\n",
            ("/etc/sudoers", "User_Alias CREW = bob\n@includedir /etc/sudoers.d\n"),
            ("/etc/sudoers.d/10-ops", "CREW ALL = /bin/a\n"),
            ("/etc/sudoers.d/20-web", "User_Alias WEB = ann\nWEB, CREW ALL = /bin/b\n"),
        ),
    ),
    (
        "relative_policy_below_a_root",
        HOST,
        "edit --root=copy --files - etc/sudoers --also etc/local",
        "",
        naming(
            made(
                "",
                ("etc/sudoers", HOST["copy/etc/sudoers"]),
                ("/etc/sudoers.d/10-ops", "OPS ALL = /bin/a\n"),
                ("/etc/sudoers.d/20-web", HOST["copy/usr/share/web"]),
                ("etc/local", ""),
            ),
            "etc/local",
        ),
    ),
    (
        "new_file_of_a_folder",
        {"main": "@includedir d\n", "d/a": "User_Alias OPS = bob\n"},
        "edit --files - --also d/new main",
        "file 3\ninsert 1\n|OPS ALL = /bin/a\n",
        made("file 3\ndelete 1\n", ("main", "@includedir d\n"), ("d/a", "User_Alias OPS = bob\n"), ("d/new", "OPS ALL = /bin/a\n")),
    ),
    (
        "new_file_of_a_folder_that_is_not_there",
        {"main": "@includedir d\n"},
        "edit --files - --also d/new main",
        "file 2\ninsert 1\n|bob ALL = /bin/a\n",
        made("file 2\ndelete 1\n", ("main", "@includedir d\n"), ("d/new", "bob ALL = /bin/a\n")),
    ),
    (
        "new_files_of_a_copy_of_a_host",
        {"copy/etc/sudoers": "@includedir /etc/sudoers.d\n", "copy/etc/sudoers.d": EMPTY_FOLDER},
        "edit --root copy --files - /etc/sudoers --also /etc/sudoers.d/b --also /etc/sudoers.d/a",
        "rename user A B\nfile 2\ninsert 1\n|A ALL = /bin/a\n",
        fault("edit 1: NoAlias"),
    ),
    (
        "new_file_that_uses_an_alias_of_another_new_one",
        {"copy/etc/sudoers": "@includedir /etc/sudoers.d\n", "copy/etc/sudoers.d": EMPTY_FOLDER},
        "edit --root copy --files - /etc/sudoers --also /etc/sudoers.d/b --also /etc/sudoers.d/a",
        "file 2\ninsert 1\n|A ALL = /bin/a\nfile 3\ninsert 1\n|User_Alias A = ann\nrename user A B\n",
        made(
            "rename user B A\nfile 3\ndelete 1\nfile 2\ndelete 1\n",
            ("/etc/sudoers", "@includedir /etc/sudoers.d\n"),
            *(("/etc/sudoers.d/b", "B ALL = /bin/a\n"), ("/etc/sudoers.d/a", "User_Alias B = ann\n")),
        ),
    ),
    (
        "new_file_that_an_inserted_line_includes",
        {"main": "bob ALL = ALL\n"},
        "edit --files - --also local main",
        "insert 2\n|@include local\nfile 2\ninsert 1\n|ann ALL = ALL\n",
        made("file 2\ndelete 1\nfile 1\ndelete 2\n", ("main", "bob ALL = ALL\n@include local\n"), ("local", "ann ALL = ALL\n")),
    ),
    (
        "known_file_that_an_inserted_line_includes",
        {"main": "User_Alias A = bob\n", "local": "A ALL = ALL\n"},
        "edit --files - --also local main",
        "insert 2\n|@include local\nprune\nrename user A B\n",
        made("rename user B A\ndelete 2\n", ("main", "User_Alias B = bob\n@include local\n"), ("local", "B ALL = ALL\n")),
    ),
    (
        "known_file_that_no_line_includes",
        {"main": "User_Alias A = bob\n", "local": "A ALL = ALL\n"},
        "edit --files - --also local main",
        "rename user A B\n",
        naming(made("rename user B A\n", ("main", "User_Alias B = bob\n"), ("local", "A ALL = ALL\n")), "local"),
    ),
    *OFF_THE_WALK,
    ("name_that_is_found_already", PAIR, "edit --files s a --also b", "", fault("b: SameName")),
    ("name_of_the_policy", PAIR, "edit --files s a --also a", "", fault("a: SameName")),
    ("name_that_is_given_twice", PAIR, "edit --files s a --also c --also c", "", fault("c: SameName")),
    ("folder_as_a_further_file", {**PAIR, "c": EMPTY_FOLDER}, "edit --files s a --also c", "", fault("c: Failed")),
    ("pipe_as_a_further_file", {**PAIR, "c": PIPE}, "edit --files s a --also c", "", fault("c: Failed")),
    ("policy_that_is_not_there", PAIR, "edit --files s c", "", fault("c: NoRoot")),
    ("policy_that_is_a_folder", {**PAIR, "c": EMPTY_FOLDER}, "edit --files s c", "", fault("c: Failed")),
    ("included_folder", {**PAIR, "a": "@include c\n", "c": EMPTY_FOLDER}, "edit --files s a", "", fault("c: Failed")),
    (
        "included_pipe_of_a_folder",
        {**PAIR, "a": "@includedir d\n", "d/m": "@include c.x\n", "d/c.x": PIPE},
        "edit --files s a",
        "",
        fault("d/c.x: Failed"),
    ),
    ("included_file_that_is_not_there", {**PAIR, "b": "@include d/c\n"}, "edit --files s a", "", fault("b:1:1: include d/c not loaded")),
    ("script_that_is_not_there", PAIR, "edit --files t a", "", fault("t: Read")),
    ("script_that_is_a_folder", {**PAIR, "t": EMPTY_FOLDER}, "edit --files t a", "", fault("t: Read")),
    ("script_and_policy_that_are_not_there", PAIR, "edit --files t c", "", fault("t: Read")),
    ("script_that_is_no_script", {**PAIR, "s": "erase\n"}, "edit --files s a", "", fault("script:1: BadWord")),
    ("script_without_a_line_end", {**PAIR, "s": "prune"}, "edit --files s a", "", fault("script:1: BadWord")),
    ("edit_of_a_third_file", {**PAIR, "s": "file 3\ndelete 1\n"}, "edit --files s a", "", fault("edit 1: NoFile")),
    (
        "edit_that_leaves_no_policy",
        {**PAIR, "s": "file 2\ninsert 1\n|bob ALL\n"},
        "edit --files s a",
        "",
        fault("edit 1: NotPolicy: b:1:8: syntax error: EndOfLine"),
    ),
    ("policy_with_a_line_end_in_its_name", {**PAIR, "a\nb": ""}, "edit --files s a\nb", "", fault("a\nb: BadBundle")),
    ("further_file_with_a_line_end_in_its_name", PAIR, "edit --files s a --also b\nc", "", fault("b\nc: BadBundle")),
    (
        "file_of_a_folder_with_a_line_end_in_its_name",
        {**PAIR, "a": "@includedir d\n", "d/b\nc": ""},
        "edit --files s a",
        "",
        fault("d/b\nc: BadBundle"),
    ),
    ("policy_that_is_too_large", {"s": "", "a": "#" * 1_048_577}, "edit --files s a", "", fault("a: TooLarge")),
    ("script_of_the_limit", {"s": "#" * LIMIT, "a": ""}, "edit --files s a", "", fault("InputTooLarge")),
    ("script_beyond_the_limit", {"s": "#" * (LIMIT + 1), "a": ""}, "edit --files s a", "", fault("InputTooLarge")),
    ("257_files", {"s": "", "a": "@includedir d\n", **{f"d/{n}": "" for n in range(256)}}, "edit --files s a", "", fault("TooManyFiles")),
)

# Wrong command lines: status 2, nothing on standard output, and these words on standard error.
WRONG = (
    ("two_policies", "edit --files s a b", (b"error: --files takes one POLICY", b"`--also NAME`")),
    ("three_policies", "edit a b c --files s", (b"error: --files takes one POLICY",)),
    ("script_and_policy_on_standard_input", "edit --files - -", (b"error: standard input cannot be both SCRIPT and POLICY",)),
    ("no_policy", "edit --files s", (b"error:",)),
    ("policy_without_a_script", "edit a", (b"error:", b"--files <SCRIPT>")),
    ("root_without_a_script", "edit --root .", (b"error:", b"--files <SCRIPT>")),
    ("further_file_without_a_script", "edit --also b", (b"error:", b"--files <SCRIPT>")),
    ("root_that_is_no_folder", "edit --files s --root a a", (b"error: invalid value 'a' for '--root <DIR>': no such folder",)),
    ("root_that_is_not_there", "edit --files s --root none a", (b"error: invalid value 'none' for '--root <DIR>': no such folder",)),
)

# The same, with a file or a folder that the user may not read.
NOT_READABLE = (
    ("policy_that_may_not_be_read", {**PAIR, "a": Closed("# a\n")}, fault("a: Failed")),
    ("included_file_that_may_not_be_read", {**PAIR, "b": Closed("# b\n")}, fault("b: Failed")),
    ("script_that_may_not_be_read", {**PAIR, "s": Closed("")}, fault("s: Read")),
    ("file_of_a_folder_that_may_not_be_read", {**PAIR, "a": "@includedir d\n", "d/m": "", "d/n": Closed("")}, fault("d/n: Failed")),
    ("folder_that_may_not_be_read", {**PAIR, "a": "@includedir d\n", "d/m": "", "d": Closed(None)}, fault("d: Failed")),
)


def on_disk(folder, words, stdin, name):
    """The text of the file of this name before the edits: empty where it is missing."""
    if name == b"-":
        return stdin
    top = next((word.rpartition("=")[2] for word in words if word.startswith("--root=")), "")
    top = words[words.index("--root") + 1] if "--root" in words else top
    path = os.path.join(folder, top, name.decode().lstrip("/"))
    if top:  # the one link of these trees
        path = path.replace("etc/sudoers.d/20-web", "usr/share/web")
    if not os.path.exists(path):
        return b""
    with open(path, "rb") as file:
        return file.read()


def note_way_back(stand, name, folder, words, stdin, output):
    """The output as an input of `edit` gives each file back. `stdin` is the policy, where that was standard input."""
    back = stand.run("edit", folder, output)
    wanted = [(one, on_disk(folder, words, stdin, one)) for one, _ in files_of_output(output)]
    problems = Wanted(None).problems(back) or difference("files", wanted, files_of_output(back.stdout))
    stand.tally.note(f"{PART}: {name}, way back", problems)


def run_rows(stand):
    """Runs the rows, and the way back of those that are accepted."""
    for name, tree, words, stdin, wanted in ROWS:
        with Folder(tree) as folder:
            answer = stand.run(words, folder, stdin.encode())
            stand.tally.note(f"{PART}: {name}, {words}", wanted.problems(answer))
            if answer.status == 0 and b"%% " in answer.stdout:
                note_way_back(stand, name, folder, words.split(" "), stdin.encode(), answer.stdout)


def run_numbers(stand):
    """The numbers and the names of the files are those of `show`."""
    tree = {"main": "@include e\n@includedir d/\n", "e": "@includedir d/e\n", "d/b": "# b\n", "d/a": "@include f/g\n"}
    with Folder({**tree, "d/f/g": "# g\n", "d/e/h": "# h\n", "d/e/i.j": ""}) as folder:
        shown = stand.run("show main", folder).stdout.splitlines()
        edited = files_of_output(stand.run("edit --files - main", folder).stdout)
    heads = [b"file %d %s" % (number, name) for number, (name, _) in enumerate(edited, 1)]
    wanted = [line for line in shown if line.startswith(b"file ")]
    stand.tally.note(f"{PART}: numbers_of_show", difference("files", wanted, heads))


def run_wrong(stand):
    """Wrong command lines read nothing."""
    for name, words, texts in WRONG:
        with Folder(PAIR) as folder:
            stand.note(name, words, Wanted(stderr=None, status=2, stderr_has=texts), folder)
    with Folder(PAIR) as folder:
        texts = (b"error: invalid value '' for '--root <DIR>': no such folder",)
        stand.note("empty_root", ["edit", "--files", "s", "--root", "", "a"], Wanted(stderr=None, status=2, stderr_has=texts), folder)


def run_limit(stand):
    """A script and files of 4,000,000 bytes together, and of one more."""
    size, first = 1_000_000, "@includedir d\n"
    left = LIMIT - 3 * (size + len("%% 1000000 d/0\n")) - len(f"%% 999955 main\n{first}")
    for name, more, wanted in (("files_of_the_limit", 0, Wanted(None)), ("files_beyond_the_limit", 1, fault("InputTooLarge"))):
        text = first + "#\n" * ((left + more) // 2) + "\n" * ((left + more) % 2)
        with Folder({"main": text, **{f"d/{number}": "#\n" * (size // 2) for number in range(3)}}) as folder:
            stand.note(name, "edit --files - main", wanted, folder)


def run_reads(stand):
    """No file is read behind the one that passes the limit: the next ones are pipes for which nobody writes, by their names."""
    tree = {f"d/{number}": "#\n" * 500_000 for number in range(100, 104)}
    with Folder({"main": "@includedir d\n@include e\n", **tree, "e": PIPE}) as folder:
        stand.note("nothing_is_read_beyond_the_limit", "edit --files - main", fault("InputTooLarge"), folder, seconds=20)


def run_full(stand):
    """The line of a file off the walk comes before the output, and changes nothing if it cannot be written."""
    words = ("edit", "--files", "-", "--also", "local", "main")
    with Folder({"main": "# a\n"}) as folder:
        with open("/dev/full", "wb") as full:
            answer = run(stand.program, words, folder=folder, stdout=full)
        wanted = Wanted(stderr=(OFF_WALK % "local").encode() + fault("Write").stderr, status=1)
        stand.tally.note(f"{PART}: file_off_the_walk, a full standard output", wanted.problems(answer))
        answer = run("/bin/sh", ("-c", FULL_ERRORS, "sh", stand.program, *words), folder=folder)
        wanted = made("", ("main", "# a\n"), ("local", ""))
        stand.tally.note(f"{PART}: file_off_the_walk, a full standard error", wanted.problems(answer))


def run_all(program, tally):
    """Runs all rows."""
    stand = Stand(PART, program, tally)
    run_rows(stand)
    run_numbers(stand)
    run_wrong(stand)
    run_limit(stand)
    run_reads(stand)
    run_full(stand)
    with stand_of_nobody(PART, program, tally) as nobody:
        for name, tree, wanted in NOT_READABLE:
            with Folder(tree) as folder:
                nobody.note(name, "edit --files s a", wanted, folder)
