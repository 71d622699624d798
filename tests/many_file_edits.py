"""Makes 200 edits of all eleven kinds on a policy of five files by the program `cases`, and takes them back.

Each edit has to be made. After each, all that is asked of the policy has to be what the policy of its files answers, which
are loaded anew. On the way files leave the walk and come back. After each undo all has to be as before the edit, and after
each redo as after it.
"""

import os
import re
import subprocess

from edited_files import files_in, problems_of_state, problems_of_turns, states_of
from many_edits import KINDS_OF_EDITS
from policies import KINDS, drawn_outcome
from table_calls import named
from tables import PROGRAM, call, programs
from tally import difference

MAIN = rb"""# people
User_Alias OPS = ann, \
    bob, cho : WEB = dan, %web, OPS # two
@include a
@includedir d
OPS H = (DB) SH, TOOLS : SITES = !SH
"""
FILES = [
    (b"main", MAIN),
    (b"a", b"Runas_Alias DB = postgres, mysql\n@include b\nDefaults:OPS !lecture\nWEB, !OPS SITES = ALL\n"),
    (b"b", b"Cmnd_Alias SH = /bin/sh, /bin/bash -c x : TOOLS = SH, !/bin/tool\nDefaults!SH noexec\n"),
    (b"d/x", b"Host_Alias H = h1, 10.0.0.0/8, !h2 : SITES = H, h3\nDefaults@H log_host\n"),
    (b"d/y", b"# last\nDefaults>DB env_reset\n"),
]

# The edits of a round, each a script of its own. `{n}` is the number of the round, from 1. But for P{n} each round takes out
# what it brings.
ROUND = r"""insert 1
|User_Alias N = eve{n}, OPS : M = N, x # {n}
add user N 3
>, WEB
file 4
adddef 1 3
> : K{n} = h4, H
rename host H HH
file 3
delete 2
file 3
insert 1
|Defaults!SH noexec
file 3
move 1 2
delete 4
file 2
insert 1
|Runas_Alias DB = other{n}
file 2
delete 1
insert 4
|@include a
rename cmnd SH SHELLS
rename cmnd SHELLS SH
rename host HH H
drop user N 1
file 5
openend
file 5
endline
file 4
dropdef 1 3
prune
file 5
insert 1
|Runas_Alias P{n} = r{n}, DB
"""
ROUNDS = 10
COUNT = 200

NAMES = "OPS WEB DB H HH SITES SH SHELLS TOOLS N M".split() + [f"{name}{n}" for name in "KP" for n in range(1, ROUNDS + 1)]
ALIASES = [named(kind, name.encode()) for kind in KINDS for name in NAMES]


def all_edits():
    """The edits of all rounds."""
    rounds = (ROUND.replace("{n}", str(n)) for n in range(1, ROUNDS + 1))
    return [edit.encode() for text in rounds for edit in re.findall(r"(?:file \d\n)?[a-z].*\n(?:[|>].*\n)*", text)]


def kind_of(edit):
    """The kind of an edit."""
    return re.sub(rb"^file \d\n", b"", edit).split()[0].decode()


def run_edits(program, tally):
    """Makes the edits, takes them back and makes them again, and notes each."""
    edits = all_edits()
    tally.note("many_file_edits: edits", difference("how many", COUNT, len(edits)))
    tally.note("many_file_edits: kinds", difference("kinds", set(KINDS_OF_EDITS), {kind_of(edit) for edit in edits}))
    calls = [*[call(b"1", edit) for edit in edits], *[call(b"-")] * len(edits), *[call(b">")] * len(edits)]
    begun, turns = states_of(program, FILES, calls, ALIASES)
    states = [begun]
    for number, (edit, (outcome, state)) in enumerate(zip(edits, turns), 1):
        problems = difference("outcome", "ok", drawn_outcome(outcome)) + problems_of_state(program, state, ALIASES)
        if files_in(state) == files_in(states[-1]):
            problems.append("the files are as before")
        states.append(state)
        tally.note(f"many_file_edits: edit {number}: {edit}", problems[:8])
    tally.note("many_file_edits: the first files", difference("files", FILES, files_in(begun)))
    undone, made_again = turns[len(edits) : 2 * len(edits)], turns[2 * len(edits) :]
    tally.note("many_file_edits: undos", problems_of_turns(undone, states[-2::-1])[:8])
    tally.note("many_file_edits: redos", problems_of_turns(made_again, states[1:])[:8])


def run_all(_program, tally):
    """Asks each build of the program `cases`."""
    built = programs()
    if not os.access(built[0], os.X_OK):
        tally.note("many_file_edits", [f"no program: run `rt run < /dev/null` in crates/{PROGRAM}"])
        return
    for program in built:
        try:
            run_edits(program, tally)
        except (LookupError, OSError, TypeError, ValueError, subprocess.SubprocessError) as error:
            tally.note("many_file_edits", [f"{type(error).__name__}: {error}"])
