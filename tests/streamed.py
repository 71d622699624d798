"""Runs the built program on standard input, and on the same text as a file of the current folder: both answer the same.

The trees are those of included_rows.py and rooted_rows.py whose first file is in the current folder. A copy of this file
is named STREAM, which no line includes. The answers are compared with `-` in place of that name.
"""

import os
import re
import threading

from included_rows import ASKED, ERRORS, PEOPLE, PRINTED, RUN_ERRORS
from program import Answer, Wanted, fault
from rooted import tree_of
from rooted_rows import ROWS
from stand import EMPTY_FOLDER, Folder, Stand, write

PART = "streamed"
STREAM = "stream.in"
SOON = 10
COMMANDS = (
    *("check -s --skipped FILE", "check FILE", "show FILE", "convert -f sudoers FILE", "convert -f json FILE"),
    *(f"{ASKED} bob FILE", f"{ASKED} bob FILE /bin/a", f"{ASKED} bob --why FILE /bin/su", "edit --files script FILE"),
)

DENIED = {"main": "bob ALL=ALL\n@includedir d\n", "d/x": "bob ALL=!/bin/su\n"}
FILES = {"main": "@include a\n@includedir d\n", "a": "User_Alias A = bob\n", "d/b": "A ALL = SH\n", "d/c.x": "", "script": "rename user A B\n"}
SHOWN = b"file 1 -\n1 include 1\n2 include 2\nfile 2 a\n1 alias 1\n1.1 User_Alias A 1\nfile 3 d/b\n1 spec 1\n"

# Words, the policy on standard input, and what they answer beside the files of FILES.
STREAMS = (
    ("show -", FILES["main"], Wanted(SHOWN)),
    ("check --skipped -", FILES["main"], Wanted(b"d/b:1:9: undefined Cmnd_Alias SH\n-: parsed OK\nd/c.x: not read: its name contains '.'\n")),
    ("check -", "@include main\n", Wanted(b"d/b:1:9: undefined Cmnd_Alias SH\n-: parsed OK\n")),
    ("check --skipped -", "@includedir e\n", Wanted(b"-: parsed OK\ne: not read: no such folder\n")),
    ("check -", "@include none\n", Wanted(b"-:1:1: include none not loaded\n", status=1)),
    ("check -", "@include -\n", Wanted(b"-:1:1: include - twice\n", status=1)),
    ("check -", "@include a\n@include a\n", Wanted(b"-:2:1: include a twice\n", status=1)),
    ("convert -f sudoers -", "@include a\nA ALL = ALL\n", Wanted(b"User_Alias A = bob\nA ALL = ALL\n")),
    ("show -", "@include d\n", fault("Failed")),
    ("edit --files script -", "@include a\n", Wanted(b"rename user B A\n%% 11 -\n@include a\n%% 19 a\nUser_Alias B = bob\n")),
    ("edit", "%%\n@include a\n", fault("policy:1:1: include a not loaded")),
    ("edit", "%%\n@includedir d\nbob ALL = SH\n", Wanted(b"%%\n@includedir d\nbob ALL = SH\n")),
    ("edit", "%% 19 policy\n@include a\n@include b\n%% 0 a\n", fault("BadBundle")),
    ("edit", "%% 22 policy\n@include a\n@include b\n%% 0 a\n", fault("policy:2:1: include b not loaded")),
    ("", "%%\n@include a\n", fault("policy:1:1: include a not loaded")),
)


def as_stream(answer):
    """An answer about the file STREAM, with `-` in place of the name. In a folder it keeps its name."""
    texts = [re.sub(rb"(?<!/)%s" % re.escape(STREAM.encode()), b"-", text) for text in (answer.stdout, answer.stderr)]
    return Answer(*texts, answer.status)


def note_both(stand, name, folder, path, root=()):
    """Each command answers the same about the file and about standard input with the same bytes. `path` is the file on the disk."""
    with open(path, "rb") as file:
        text = file.read()
    for command in COMMANDS:
        first, *others = command.split(" ")
        words = [[first, *root, *(one if word == "FILE" else word for word in others)] for one in (STREAM, "-")]
        wanted = as_stream(stand.run(words[0], folder, seconds=SOON))
        came = stand.run(words[1], folder, text, seconds=SOON)
        problems = Wanted(wanted.stdout, wanted.stderr, wanted.status).problems(came)
        stand.tally.note(f"{PART}: {name}, {' '.join(words[1])}", problems)


def run_included(stand):
    """The trees without `--root`."""
    trees = [row[:2] for row in (*PRINTED, *ERRORS, *RUN_ERRORS)]
    trees += [(f"rooted_{row[0]}", row[1]) for row in ROWS]
    for name, tree in trees:
        main = next((one for one in ("main", "f0", "sudoers.x") if isinstance(tree.get(one), str)), None)
        if main is None or "{OUT}" in tree[main]:
            continue
        with Folder({**PEOPLE, "script": "", **tree, STREAM: tree[main]}) as folder:
            note_both(stand, name, folder, os.path.join(folder, STREAM))


def run_rooted(stand):
    """The trees below `--root`, whose first file is at its top."""
    for name, image, file, _ in ROWS:
        if "/" in file or not isinstance(image.get(file), str):
            continue
        with Folder({**PEOPLE, "script": "", "image": EMPTY_FOLDER}) as folder:
            write(folder, tree_of({**image, STREAM: image[file]}, folder))
            note_both(stand, f"root_{name}", folder, os.path.join(folder, "image", STREAM), ("--root", "image"))


def run_denied(stand):
    """A denial of an included file counts, whichever way the first file comes."""
    asked = f"{ASKED} bob"
    with Folder({**PEOPLE, **DENIED}) as folder:
        for file, stdin in (("main", b""), ("-", DENIED["main"].encode())):
            stand.note("denied", f"{asked} {file} /bin/su", Wanted(status=1), folder, stdin)
            stand.note("allowed", f"{asked} {file} /bin/sh", Wanted(b"/bin/sh\n"), folder, stdin)
            stand.note("why", f"{asked} --why {file} /bin/su", Wanted(b"d/x:1:9: denied by: (root) !/bin/su\n", status=1), folder, stdin)


def feed(path, text):
    """Writes a text into a pipe once somebody reads it."""
    with open(path, "wb") as pipe:
        pipe.write(text)


def run_pipes(stand):
    """The first file may be a pipe, by its name or by that of a descriptor."""
    text, shown = FILES["main"].encode(), SHOWN.replace(b" -\n", b" %s\n")
    with Folder({**FILES, "image/a": FILES["a"], "image/d/b": FILES["d/b"]}) as folder:
        for name, words in (("pipe", "show pipe"), ("image/pipe", "show --root image pipe")):
            os.mkfifo(os.path.join(folder, name))
            writer = threading.Thread(target=feed, args=(os.path.join(folder, name), text), daemon=True)
            writer.start()
            stand.note("pipe", words, Wanted(shown % b"pipe"), folder, seconds=SOON)
            writer.join(1)
        asked = "convert -f sudoers /dev/stdin"
        stand.note("descriptor", asked, Wanted(b"ann ALL = ALL\n"), folder, b"ann ALL = ALL\n")


def run_all(program, tally):
    """Runs all rows."""
    stand = Stand(PART, program, tally)
    for words, text, wanted in STREAMS:
        with Folder(FILES) as folder:
            stand.note(repr(text), words, wanted, folder, text.encode())
    run_denied(stand)
    run_pipes(stand)
    run_included(stand)
    run_rooted(stand)
