"""Makes 200 edits of all eleven kinds on one policy by the program `cases`, and takes them back.

Each edit has to be made. After each, what every line says and where every name is defined and mentioned has to be what
the policy of the text says, which is read anew. After each undo it has to be what it was before the edit.
"""

import os
import re
import subprocess

from policies import KINDS, bytes_of, drawn_definition, drawn_outcome, drawn_spans, lines_of
from table_calls import SUBJECT, named
from tables import PROGRAM, asked, call, frame, joined, programs
from tally import difference

POLICY = rb"""# people
User_Alias OPS = ann, \
    bob, cho : WEB = dan, %web, OPS # two
Runas_Alias DB = postgres, mysql
Host_Alias H = h1, 10.0.0.0/8, !h2 : SITES = H, h3
Cmnd_Alias SH = /bin/sh, /bin/bash -c x : TOOLS = SH, !/bin/tool

Defaults:OPS !lecture
Defaults@H log_host
Defaults>DB env_reset
Defaults!SH noexec
OPS H = (DB) SH, NOPASSWD: TOOLS : SITES = (root : DB) !SH
WEB, !OPS SITES = ALL
@includedir /etc/more
"""

# The edits of a round. `{n}` is the number of the round, from 1, and `{n+3}` is 3 more. But for P{n} each round brings
# the same names, and takes them out again.
ROUND = r"""insert 1
|User_Alias N = eve{n}, OPS : M = N, x # {n}
add user N 3
>, WEB
add user OPS 1
>%g{n},
adddef 1 3
> : K = M, N
rename user N P{n}
dropdef 1 2
move 1 {n+3}
insert 2
|P{n}, M H = (DB) SH : SITES = TOOLS
drop user P{n} 1
rename host H I
insert {n+4}
|User_Alias M = P{n} : N = M, \
|    K
move {n+4} 1
insert 3
|Cmnd_Alias U = /bin/u{n}, SH
openend
add cmnd TOOLS 1
>/bin/t{n} -a,
endline
insert {n+5}
|Runas_Alias X = a : N = X
rename host I H
delete 1
prune
"""
ROUNDS = 10
COUNT = 200
KINDS_OF_EDITS = "insert delete move add drop adddef dropdef rename endline openend prune".split()

NAMES = "OPS WEB DB H I SITES SH TOOLS N M K U X NONE".split() + [f"P{n}" for n in range(1, ROUNDS + 1)]
ALIASES = [(kind, name) for kind in KINDS for name in NAMES]
# What is asked of a policy: its text, its lines, and the definition and the mentions of each name.
QUERIES = [call(b"t"), call(b"a")]
QUERIES += [call(byte, named(kind, name.encode())) for kind, name in ALIASES for byte in (b"d", b"m")]


def edits_of(script):
    """The edits of a script, each a script of its own."""
    return re.findall(r"[a-z].*\n(?:[|>].*\n)*", script)


def all_edits():
    """The edits of all rounds."""
    edits = []
    for n in range(1, ROUNDS + 1):
        text = re.sub(r"\{n(?:\+(\d+))?\}", lambda found, n=n: str(n + int(found[1] or 0)), ROUND)
        edits += edits_of(text)
    return edits


def answers_to(program, sort, text, calls):
    """The answers to calls of an editor."""
    lines = asked(program, [frame(SUBJECT, sort, joined(text) + b"".join(calls))])
    if len(lines) != len(calls):
        raise ValueError(f"{len(lines)} answers to {len(calls)} calls")
    return lines


def in_lots(lines, size):
    """The lines in lots of a size."""
    return [lines[i : i + size] for i in range(0, len(lines), size)]


def differences(wanted, came):
    """The lines that say which answers to the queries differ."""
    problems = difference("text", *(bytes_of(answers[0]) for answers in (wanted, came)))
    theirs, ours = (lines_of(answers[1]) for answers in (wanted, came))
    problems += difference("lines", len(theirs), len(ours))
    for at, (their, our) in enumerate(zip(theirs, ours)):
        problems += difference(f"line {at}", their.text, our.text)
        problems += difference(f"what line {at} says", their.drawn_node(), our.drawn_node())
    for i, (kind, name) in enumerate(ALIASES):
        for what, drawn, at in (("definition", drawn_definition, 2 * i + 2), ("mentions", drawn_spans, 2 * i + 3)):
            problems += difference(f"{what} of {kind} {name}", *(drawn(answers[at]) for answers in (wanted, came)))
    # What is drawn leaves out options, tags and values.
    return problems or difference("answers", wanted, came)


def run_edits(program, tally):
    """Makes the edits and takes them back, and notes each."""
    edits = all_edits()
    tally.note("many_edits: edits", difference("how many", COUNT, len(edits)))
    found = {edit.split()[0] for edit in edits}
    tally.note("many_edits: kinds", difference("kinds", set(KINDS_OF_EDITS), found))
    calls = [call(b"1", edit.encode()) for edit in edits] + [call(b"-")] * len(edits)
    asking = QUERIES + [one for edit in calls for one in (edit, *QUERIES)]
    lines = answers_to(program, b"e", POLICY, asking)
    size = len(QUERIES)
    states, turns = [lines[:size]], in_lots(lines[size:], size + 1)
    for number, (edit, (outcome, *state)) in enumerate(zip(edits, turns), 1):
        problems = difference("outcome", "ok", drawn_outcome(outcome))
        anew = answers_to(program, b"e", bytes_of(state[0]), QUERIES)
        problems += differences(anew, state)
        if state[0] == states[-1][0]:
            problems.append("the text is as before")
        states.append(state)
        tally.note(f"many_edits: edit {number}: {edit}", problems[:8])
    for number, (outcome, *state) in zip(range(len(edits), 0, -1), turns[len(edits) :]):
        problems = difference("outcome", "yes", drawn_outcome(outcome)) + differences(states[number - 1], state)
        tally.note(f"many_edits: undo of edit {number}", problems[:8])
    tally.note("many_edits: the first text", difference("text", POLICY, bytes_of(turns[-1][1])))


def run_all(_program, tally):
    """Asks each build of the program `cases`."""
    built = programs()
    if not os.access(built[0], os.X_OK):
        tally.note("many_edits", [f"no program: run `rt run < /dev/null` in crates/{PROGRAM}"])
        return
    for program in built:
        try:
            run_edits(program, tally)
        except (LookupError, OSError, TypeError, ValueError, subprocess.SubprocessError) as error:
            tally.note("many_edits", [f"{type(error).__name__}: {error}"])
