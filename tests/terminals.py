"""Runs the built program on a terminal: control bytes are spelled there, and a pipe gets them as they are.

A row of SHOWN has a name, a tree, words, what both streams show together on a terminal, and the exit status. A row of ROWS
has the stream with control bytes in place of the text. The program runs with its output, or its errors, on a terminal, and
again with pipes. What the terminal gets has to be what the pipe gets, with `\\xHH` for each control byte but LF and tab. As an
error is explained on a terminal, the rows with an error of a policy have the option `--plain`.
"""

import os
import pty
import re
import subprocess
import tty

from included_rows import ASKED, PEOPLE
from program import SECONDS, Answer, Wanted
from stand import Folder, Link, Stand
from tally import difference

PART = "terminals"
BYTES = "\x01\x1b]0;own\x07\x1b[2J\x7f\r\b"
NAME = f"a{BYTES}b\nc"
LINE = NAME.replace("\n", "")
MANY = {
    "main": "@includedir d\n",
    f"d/{NAME}": "User_Alias A = bob\nbob ALL = /bin/a\n",
    f"d/{NAME}.x": "",
    f"d/{NAME}~": "",
    f"d/{NAME}z": Link("none"),
}
PLAIN = "\x01\x1b\x07\x7f\b"
ARGUMENTS = {"main": f"User_Alias A = x{PLAIN}, bob\nA ALL = /bin/a {PLAIN}\tx, /bin/b {PLAIN}\n"}
QUOTED = '@include "x\\x1b]0;own\\x07\\x0ay"\n'


def missing(row):
    """The explanation of an include line of a missing file, which is the first row of `main`."""
    return b" --> main:1:10\n  |\n1 | %s\n  |          ^ no such file\n  = help: put the file there, or remove the line\n" % row


HOSTILE = {"main": "bob ALL = /bin/a\x1b[2J, /bin/a\x7f\n"}

SHOWN = (
    ("the_report", {"main": '@include "x\\x1b]0;owned\\x07"\n'}, "check main", b"main:1:1: include x\\x1b]0;owned\\x07 not loaded\n" + missing(b'@include "x\\x1b]0;owned\\x07"'), 1),
    ("an_error", {"main": '@include "x\\x1b[2J"\n'}, "show main", b"sudoers_tool: main:1:1: include x\\x1b[2J not loaded\n" + missing(b'@include "x\\x1b[2J"'), 1),
    (
        "an_excerpt",
        {"main": "bob ALL = /bin/a\x1b[2J, ls\n"},
        "check main",
        b"main:1:23: syntax error: UnexpectedToken\n --> main:1:23\n  |\n1 | bob ALL = /bin/a\\x1b[2J, ls\n  |                          ^ "
        b"expected a command (a path from `/`, `ALL` or an alias in capitals), `(`, a tag as `NOPASSWD:` or an option as `CWD=/dir`\n"
        b"  = help: write the full path of the command, as `/usr/bin/ls`\n",
        1,
    ),
    ("a_name_of_a_missing_file", {}, "show \x1b[2J", b"sudoers_tool: NoRoot\n  = help: \\x1b[2J: no such file\n", 1),
    (
        "a_plan",
        {"main": "User_Alias OPS = bob\nOPS ALL = ALL\n"},
        ["plan", "main", "has user OPS eve"],
        b"main:\n-User_Alias OPS = bob\n+User_Alias OPS = bob, eve\n",
        0,
    ),
    (
        "a_plan_with_a_note",
        {"main": 'bob, ann ALL = ALL\n"%a\x1b" ALL = ALL\n'},
        ["plan", "main", "no-user bob"],
        b'main:\n-bob, ann ALL = ALL\n+ann ALL = ALL\nsudoers_tool: main:2:1: "%a\\x1b": bob may be in this group\n',
        0,
    ),
    ("a_plan_of_nothing", {"main": "User_Alias OPS = bob\n"}, ["plan", "main", "has user OPS bob"], b"", 0),
    ("a_listing", HOSTILE, f"{ASKED} bob main", b"bob on h:\n    (root) /bin/a\\x1b[2J\n    (root) /bin/a\\x7f\n", 0),
    ("a_reason", HOSTILE, f"{ASKED} bob --why main /bin/a\x7f", b"main:1:23: allowed by: (root) /bin/a\\x7f\n", 0),
    ("names_of_files", {"main": "@includedir d\n", "d/\x1bx": "# a\n"}, "show main", b"file 1 main\n1 include 1\nfile 2 d/\\x1bx\n1 comment 1\n", 0),
    (
        "a_carriage_return",
        {"main": "bob\r\n"},
        "edit --files main main",
        b"sudoers_tool: script:1: BadWord\n --> script:1:4\n  |\n1 | bob\n  |    ^\n  = help: remove the carriage return at the end of the line\n",
        1,
    ),
    (
        "names_of_members",
        {"s": "drop cmnd A 3\n", "main": "Cmnd_Alias A = /bin/a\x1b[2J, /bin/\x7f\n"},
        "edit --files s main",
        b"sudoers_tool: edit 1: NoPlace\n --> script:1:13\n  |\n1 | drop cmnd A 3\n  |             ^ 2 members: /bin/a\\x1b[2J, /bin/\\x7f\n"
        b"  = help: write a number from 1 to 2\n",
        1,
    ),
    ("edited_carriage_returns", {"s": "", "main": "# a\r\n"}, "edit --files s main", b"%% 5 main\n# a\\x0d\n", 0),
    (
        "a_name_off_the_walk",
        {"s": "", "main": "# a\n"},
        "edit --files s --also \x1b[2J main",
        b"%% 4 main\n# a\n%% 0 \\x1b[2J\nsudoers_tool: \\x1b[2J: no line of the edited policy includes this file\n",
        0,
    ),
    ("line_feeds_and_tabs", {"main": '@include "x\\x0a\\x09y"\n'}, "check main", b"main:1:1: include x\n\ty not loaded\n" + missing(b'@include "x\\x0a\\x09y"'), 1),
    ("bytes_that_are_not_utf_8", {"main": '@include "x\\xff\\x9b"\n'}, "check main", b"main:1:1: include x\xff\x9b not loaded\n" + missing(b'@include "x\\xff\\x9b"'), 1),
)

# The stream that has the control bytes is the first word.
ROWS = (
    ("report", MANY, "stdout", "check main", 0),
    ("skipped_names", MANY, "stdout", "check --skipped main", 0),
    ("error_in_a_report", {"main": QUOTED}, "stdout", "check --plain main", 1),
    ("lines", MANY, "stdout", "show main", 0),
    ("reason", MANY, "stdout", f"{ASKED} bob --why main /bin/a", 0),
    ("listing", ARGUMENTS, "stdout", f"{ASKED} bob main", 0),
    ("policy", ARGUMENTS, "stdout", "convert -f sudoers main", 0),
    ("edited_files", {"s": "", **MANY, "main": "@includedir d\n# \x1b[0m\r\n", f"d/{NAME}": Link("none")}, "stdout", "edit --files s main", 0),
    ("error", {"main": QUOTED}, "stderr", "show --plain main", 1),
    ("error_with_a_name", MANY, "stderr", "edit --plain --files main main", 1),
    ("name_off_the_walk", {"s": "", "main": "# a\n"}, "stderr", ["edit", "--files", "s", "--also", LINE, "main"], 0),
    ("wrong_folder", {}, "stderr", ["check", "--root", f"none{NAME}", "main"], 2),
    ("wrong_word", {}, "stderr", ["check", f"--{LINE}"], 2),
    ("wrong_command", {}, "stderr", [f"ch{NAME}"], 2),
    ("help", {}, "stdout", ["check", "--help"], 0),
)


def spelled(text):
    """A text as a terminal gets it."""
    return re.sub(rb"[\x00-\x08\x0b-\x1f\x7f]", lambda match: b"\\x%02x" % match[0][0], text)


def read_all(device):
    """All that comes of a terminal until its other side is closed."""
    parts = []
    while True:
        try:
            part = os.read(device, 65536)
        except OSError:  # the other side is closed
            part = b""
        if not part:
            return b"".join(parts)
        parts.append(part)


def run_on_terminal(program, words, folder, stream, stdin=subprocess.DEVNULL):
    """What the program writes if one of its streams is a terminal, which changes no byte."""
    device, other = pty.openpty()
    tty.setraw(other)
    streams = {"stdout": subprocess.PIPE, "stderr": subprocess.PIPE, stream: other}
    try:
        with subprocess.Popen([program, *words], stdin=stdin, env={}, cwd=folder, **streams) as child:
            os.close(other)
            shown = read_all(device)
            texts = dict(zip(("stdout", "stderr"), child.communicate(timeout=SECONDS)))
    finally:
        os.close(device)
    texts[stream] = shown
    return Answer(texts["stdout"] or b"", texts["stderr"] or b"", child.returncode)


def run_row(stand, row):
    """Runs a row with pipes and with each of its streams on a terminal."""
    name, tree, stream, words, status = row
    words = words.split(" ") if isinstance(words, str) else words
    with Folder({**PEOPLE, **tree}) as folder:
        piped = stand.run(words, folder)
        stand.tally.note(f"{PART}: {name}, status", difference("status", status, piped.status))
        for other in ("stdout", "stderr"):
            came = run_on_terminal(stand.program, words, folder, other)
            texts = {"stdout": piped.stdout, "stderr": piped.stderr}
            texts[other] = spelled(texts[other])
            stand.tally.note(f"{PART}: {name}, {other} on a terminal", Wanted(**texts, status=status).problems(came))
        raw = getattr(piped, stream)
        problems = [] if name == "help" or spelled(raw) != raw else ["there is no control byte"]
        stand.tally.note(f"{PART}: {name}, raw bytes of a pipe", problems)


def run_shown(stand, row):
    """Runs a row with each of its streams on a terminal: standard output and then standard error show the text."""
    name, tree, words, text, status = row
    words = words.split(" ") if isinstance(words, str) else words
    with Folder({**PEOPLE, **tree}) as folder:
        shown = b""
        for stream in ("stdout", "stderr"):
            came = run_on_terminal(stand.program, words, folder, stream)
            shown += getattr(came, stream)
            stand.tally.note(f"{PART}: {name}, {stream}", difference("status", status, came.status))
        stand.tally.note(f"{PART}: {name}", difference("shown", text, shown))


def run_all(program, tally):
    """Runs all rows."""
    stand = Stand(PART, program, tally)
    for row in SHOWN:
        run_shown(stand, row)
    for row in ROWS:
        run_row(stand, row)
