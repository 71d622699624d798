"""An editor of a policy of several files, as the program `cases` answers for it.

After each call all that is asked of the policy is a state: its walk, its files, the lines of each, and where names are
defined and mentioned.
"""

import re

from changed_files import drawn_named, frame_of, queries_of
from policies import drawn_bytes, drawn_outcome
from tables import asked, call
from tally import difference

EDITOR, LOADED = b"g", b"f"
EDIT = re.compile(rb"(?:file (\d+)\n)?([a-z].*\n(?:[|>].*\n)*)")
OF_A_FILE = (b"insert", b"delete", b"move", b"adddef", b"dropdef", b"endline", b"openend")


def edits_of(script):
    """The edits of a script, each a script of its own."""
    edits, file = [], b"1"
    for number, edit in EDIT.findall(script):
        file = number or file
        is_set = file != b"1" and edit.split()[0] in OF_A_FILE
        edits.append(b"file %s\n" % file * is_set + edit)
    return edits


def files_in(state):
    """The names and texts of the files of a state."""
    return drawn_named(state[2])


def states_of(program, files, calls, aliases, sort=EDITOR):
    """The state of an editor of files, and for each call its answer and the state after it."""
    queries = queries_of(files, aliases)
    asking = queries + [one for each in calls for one in (each, *queries)]
    lines = asked(program, [frame_of(files, asking, sort)])
    if len(lines) != len(asking):
        raise ValueError(f"{len(lines)} answers to {len(asking)} calls")
    size = len(queries)
    turns = [lines[at : at + size + 1] for at in range(size, len(lines), size + 1)]
    return lines[:size], [(answer, state) for answer, *state in turns]


def state_anew(program, files, aliases):
    """The state of the policy of files that are loaded."""
    return states_of(program, files, [], aliases, LOADED)[0]


def problems_of_state(program, state, aliases):
    """What is wrong with a state: it has to be that of its files, loaded anew."""
    return difference("the policy, and that of its files", state_anew(program, files_in(state), aliases), state)


def problems_of_turns(turns, states):
    """What is wrong with calls of `undo` or `redo`, each of which has to lead to a state."""
    problems = []
    for number, ((answer, came), wanted) in enumerate(zip(turns, states), 1):
        problems += difference(f"call {number}", "yes", drawn_outcome(answer))
        problems += difference(f"the policy after call {number}", wanted, came)
    return problems


def problems_of_script(program, files, script, edited, inverse, aliases):
    """What is wrong with a script that has to lead to the edited files, and with the script that undoes it."""
    edits = edits_of(script)
    begun, turns = states_of(program, files, [call(b"+", script), call(b"<")], aliases)
    (outcome, state), (undo, _) = turns
    problems = difference("edits", "ok", drawn_outcome(outcome))
    problems += difference("files", edited, files_in(state)) + difference("undo script", inverse, drawn_bytes(undo))
    if problems:
        return problems
    problems += problems_of_state(program, state, aliases)
    singles = [call(b"1", edit) for edit in edits]
    calls = [*singles, *[call(b"-")] * len(edits), *[call(b">")] * len(edits)]
    _, turns = states_of(program, files, calls, aliases)
    on_the_way = [begun, *(one for _, one in turns[: len(edits)])]
    problems += difference("the policy after all edits, one by one", state, on_the_way[-1])
    problems += problems_of_turns(turns[len(edits) :], [*reversed(on_the_way[:-1]), *on_the_way[1:]])
    _, ((outcome, back),) = states_of(program, edited, [call(b"+", inverse)], aliases)
    return problems + difference("edits back", "ok", drawn_outcome(outcome)) + difference("the policy back", begun, back)


def problems_of_refusal(program, files, script, wanted, aliases):
    """What is wrong with a script that has to be refused: the edits before stay, and all else is as before them."""
    place = int(wanted.split(":")[0])
    _, ((outcome, state), (steps, _)) = states_of(program, files, [call(b"+", script), call(b"s")], aliases)
    problems = difference("edits", wanted, drawn_outcome(outcome)) + difference("steps", str(place - 1), steps)
    front = [call(b"1", edit) for edit in edits_of(script)[: place - 1]]
    begun, turns = states_of(program, files, front, aliases)
    problems += difference("the edits before", ["ok"] * len(front), [drawn_outcome(answer) for answer, _ in turns])
    return problems + difference("the policy after the refused edit", turns[-1][1] if turns else begun, state)
