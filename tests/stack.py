"""Runs every command on hostile inputs with a stack of 512 KiB: each answers as with the stack of the system.

The inputs are those of the modules large_*.py that are named here, the files of included_rows.py, and some that are deep or
long in one place. No run may end by a signal. large.py runs its cases with this stack too, and compares what they answer.
"""

import os
import tempfile

import large
from included_rows import DEPTH, FILES, chain, many
from program import Wanted, run
from small_stack import on_small_stack
from stand import write
from tally import difference
from way_back import policy_of

PEOPLE = {"passwd": "root:x:0:0:::\nbob:x:1000:1000:::\n", "group": "adm:x:4:bob\n", "none": ""}
LIST = ("list", "--passwd", "../people/passwd", "--group-file", "../people/group", "--host", "h1", "--moment", "2026010100Z", "-U", "bob")
MACHINE = ("--passwd", "../people/passwd", "--group-file", "../people/group", "--host", "h1", "--moment", "2026010100Z", "--policy")
ARGUMENT = "a" * 65_536

# The words of each command before the policy and after it.
COMMANDS = (
    *((words, ()) for words in (("show",), ("show", "--json"), ("check",), ("check", "-s"), ("check", "--all", "--json"))),
    (("check", "--overruled"), ()),
    (("check", "--lint"), ()),
    (("diff", "../people/none"), ()),
    (("diff", "--json", "../people/none"), ()),
    (("check", "--json", "--overruled", "--lint"), ()),
    *((("convert", "-f", form, *more), ()) for form in ("sudoers", "json") for more in ((), ("-e",))),
    *((("convert", "-f", "sudoers", *more, "-m", "user=bob,host=h1"), ()) for more in ((), ("-e", "-p"))),
    *((LIST, words) for words in ((), ("/bin/a",), ("/a", ARGUMENT))),
    ((*LIST, "-u", "root", "-g", "adm", "--why"), ("/a", *["x"] * 10_000)),
    *((("who", "--denied", *MACHINE), words) for words in (("/bin/a",), ("/a", ARGUMENT))),
    *((("what", *more, *MACHINE), ("bob",)) for more in ((), ("-e",))),
    (("why", "-u", "root", "-g", "adm", *MACHINE), ("bob", "/a", *["x"] * 10_000)),
)

# The edits of each policy, with the words of `edit`; and those of a policy with aliases of a kind.
EDITS = b"insert 1\n|# first\nprune\ndelete 1\n"
ALIAS_EDITS = b"rename %s A1 B1\nadd %s B1 2\n>, A2\ndrop %s B1 2\nprune\n"
COUNTS = ((), ("--undo", "2", "--redo", "1"))

# Cases of large_*.py by their names: their policies.
LARGE = (
    *("policy_at_the_limit_is_read", "line_at_the_limit_is_read", "line_of_many_pieces_at_the_limit_is_read"),
    *("policy_of_as_many_definitions_as_allowed_is_read", "show_of_very_many_definitions_in_one_line"),
    *("show_of_very_many_members", "check_of_very_many_undefined_names", "why_of_the_last_of_very_many_lines_of_a_rule"),
    *("pattern_of_very_many_stars", "why_of_forty_aliases_beside_forty_that_say_nothing"),
    *("expand_of_aliases_doubled_ten_times", "expand_to_as_many_commands_as_there_may_be"),
    "script_of_as_many_edits_as_allowed_is_accepted",
)

# Lines that are deep or long in one place.
DEEP = {
    "negations": b"!" * 20_000 + b"bob " + b"! " * 10_000 + b"ALL=" + b"!" * 20_000 + b"/a",
    "arguments": b"bob ALL=/a" + b" x" * 32_700,
    "sets": b"bob ALL=/a " + b"[" * 30_000 + b"]" * 30_000,
    "open_parentheses": b"bob ALL=" + b"(" * 65_000,
    "backslashes": b"bob ALL=/a " + b"\\\\" * 32_000,
    "name": b"a" * 65_000 + b" ALL=ALL",
    "quoted_name": b'"' + b"a" * 65_000 + b'" ALL=ALL',
    "users": b"u," * 30_000 + b"bob ALL=ALL",
    "host_groups": b"bob ALL=/a" + b":ALL=/a" * 8_000,
    "tags": b"bob ALL=" + b"NOEXEC:" * 9_000 + b"ALL",
    "options": b"bob ALL=" + b"CWD=/x " * 9_000 + b"ALL",
    "digests": b"bob ALL=" + b"sha224:0," * 7_000 + b"sha224:0 /a",
    "parameters": b"Defaults a" + b",a" * 30_000,
    "path": b"@include " + b"a/" * 32_000 + b"a",
}

# What uses the alias A1 of each kind.
USES = {
    b"User_Alias": b"A1 ALL=/a\nDefaults:A1 x\n",
    b"Runas_Alias": b"bob ALL=(A1 : A1) /a\nDefaults>A1 x\n",
    b"Host_Alias": b"bob A1=/a\nDefaults@A1 x\n",
    b"Cmnd_Alias": b"bob ALL=A1\nDefaults!A1 x\n",
}


def large_inputs():
    """Yields the policies of the cases of LARGE, each with its name, its files and its edits."""
    made = {make.__name__: large.made_case(make) for make in large.load_cases()}
    for name in LARGE:
        case = made[name]
        is_edit = not case.words or case.words[0] == "edit"
        policy = policy_of(case.stdin) if is_edit else case.stdin
        script = case.stdin[: -len(policy)].removesuffix(large.MARK) if is_edit else b""
        yield name, {"main": policy}, script or EDITS


def inputs():
    """Yields all inputs, each with its name, its files and edits. The first file is the policy."""
    yield from large_inputs()
    for name, line in DEEP.items():
        yield name, {"main": line + b"\n"}, EDITS
    for kind, use in USES.items():
        edits = ALIAS_EDITS % ((kind.partition(b"_")[0].lower(),) * 3)
        for name, aliases in (("chain", large.chain), ("cycle", large.cycle)):
            yield f"{name}_of_{kind.decode()}", {"main": aliases(kind, large.ALIAS_LIMIT) + use}, edits
    yield "includes_of_128_levels", chain(DEPTH), b"file 129\n" + EDITS
    yield "as_many_levels_as_there_may_be_files", chain(FILES - 1), EDITS
    yield "file_that_includes_itself_by_another_name", {"main": "@include ./main\n"}, EDITS
    yield "as_many_files_as_there_may_be", many(FILES), b"file 256\n" + EDITS


def runs_of(files, edits):
    """Yields the words and the standard input of each run on files in the current folder."""
    root = next(iter(files))
    for before, after in COMMANDS:
        yield (*before, root, *after), b""
    for counts in COUNTS:
        yield ("edit", *counts, "--files", "-", root), edits


def note_input(programs, folder, name, files, edits, tally):
    """Notes the runs on an input: with both stacks they answer the same, and none ends by a signal."""
    for words, stdin in runs_of(files, edits):
        wanted, came = (run(program, words, stdin, folder=folder) for program in programs)
        problems = Wanted(wanted.stdout, wanted.stderr, wanted.status).problems(came)
        problems += difference("an exit status, and no signal", True, came.status in (0, 1, 3))
        tally.note(f"stack: {name}, {' '.join(words)[:120]}", problems)


def run_all(program, tally):
    """Runs every command on every input, with the stack of the system and with the small one."""
    with on_small_stack(program) as small, tempfile.TemporaryDirectory(prefix="sudoers_tool_tests_") as top:
        write(os.path.join(top, "people"), PEOPLE)
        for name, files, edits in inputs():
            folder = os.path.join(top, name)
            write(folder, files)
            note_input((program, small), folder, name, files, edits, tally)
