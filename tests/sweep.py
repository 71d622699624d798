"""Sweeps policies that are grown out of the worked ones: what the program and the libraries do with each has to agree.

grown_policies.py grows them from a seed, of one file and of several, grown_edits.py draws edits and grown_questions.py
questions. This has to hold for each:

    show        the lines, joined, are the files; an error has a name and a place
    check       the report of the program is that of the libraries
    edit        accepted edits and then their undo script give the policy byte for byte, and the undo script of that script
                are the edits; undone and made again, they lead to the same; a refused edit changes nothing, and the program
                names its number and its cause
    convert     what is printed is a policy, and is printed again as it is, with the same JSON; the only error of `-e` is
                `Cycle`, just where no question has an answer
    list        the row that decides, its place, tags and options are the same before and after `convert`, a rename and a
                prune; with `-e` they are but for the place in its list; after edits they are those of the edited text

Texts and edits are asked of the program `cases`. The built program converts each policy, prints the error of each that is
none, and runs all commands on one in EACH: as a file, as several files of a folder and as a bundle.
tests/sweep runs other seeds and more policies.
"""

import os
import subprocess
import sys
import tempfile

from grown_policies import Draw, Seeds, grown_policy
from sweep_answers import answer_all, convert_all
from sweep_edits import edit_all, edit_back, gather_all, keep_answers, load_all
from sweep_runs import Ground, run_refused, run_sample
from swept import Sweep, Swept
from tables import PROGRAM, programs
from tally import difference

SEED, COUNT = 1, 8_000
LOT, EACH = 500, 8

# The script that sweeps more, and what the part asks of it: another seed, and a few policies.
SCRIPT = os.path.join(os.path.dirname(os.path.abspath(__file__)), "sweep")
FEW = ("2", "24")
SECONDS = 300

# The least shares of what has to come: policies that load of all, edits that are accepted and that are refused of all, rows that
# allow and that deny of all.
LEAST = (
    ("policies that load", "policies", 1 / 3),
    ("of several files", "policies", 1 / 10),
    ("edits accepted", "edits", 1 / 5),
    ("edits refused", "edits", 1 / 5),
    ("rename accepted", "policies that load", 1 / 10),
    ("prune accepted", "policies that load", 1 / 10),
    ("rows: allow", "questions", 1 / 20),
    ("rows: deny", "questions", 1 / 100),
    ("cycles", "policies that load", 1 / 200),
)


def grown(sweep, numbers):
    """Returns the policies of these numbers, with what is drawn for them later."""
    policies = []
    for number in numbers:
        files = grown_policy(sweep.seeds, sweep.seed, number)
        policies.append(Swept(number, files, Draw(sweep.seed + 1_000_000, number)))
    return policies


def run_lot(sweep, ground, numbers, tally):
    """Sweeps the policies of these numbers, and notes each."""
    policies = grown(sweep, numbers)
    gather_all(sweep, policies)
    load_all(sweep, policies)
    loaded = [policy for policy in policies if policy.loads]
    edit_all(sweep, loaded)
    edit_back(sweep, loaded)
    keep_answers(sweep, loaded)
    convert_all(ground, loaded)
    answer_all(sweep, loaded)
    run_sample(sweep, ground, [policy for policy in loaded if policy.number % EACH == 0])
    for policy in policies:
        if not policy.loads:
            run_refused(ground, policy)
        tally.note(f"sweep: policy {policy.number} of seed {sweep.seed}: {policy.files}", policy.problems[:6])
    sweep.counts["policies"] += len(policies)
    sweep.counts["policies that load"] += len(loaded)
    sweep.counts["of several files that lead to each other"] += sum(policy.is_gathered and not policy.is_alone for policy in loaded)
    sweep.counts["of several files"] += sum(not policy.is_alone for policy in policies)


def run_sweep(program, cases, seeds, seed, numbers, tally):
    """Sweeps the policies of a seed with these numbers, and returns what was counted."""
    sweep = Sweep(program, cases, seeds, seed)
    for begin in range(0, len(numbers), LOT):
        lot = numbers[begin : begin + LOT]
        with tempfile.TemporaryDirectory(prefix="sudoers_tool_tests_") as top:
            ground = Ground(program, top)
            try:
                run_lot(sweep, ground, lot, tally)
            except (ArithmeticError, LookupError, OSError, TypeError, ValueError, subprocess.SubprocessError) as error:
                tally.note(f"sweep: policies {lot[0]} to {lot[-1]} of seed {seed}", [f"{type(error).__name__}: {error}"])
            sweep.counts["runs of the program"] += ground.runs
    return sweep.counts


def print_counts(seed, counts):
    """Prints what was counted."""
    counts["edits"] = counts["edits accepted"] + counts["edits refused"]
    counts["questions"] = sum(count for what, count in counts.items() if what.startswith("rows: "))
    print(f"sweep of seed {seed}: " + ", ".join(f"{what} {counts[what]}" for what in sorted(counts)))


def note_counts(counts, tally):
    """Notes where too little came."""
    for what, of_all, share in LEAST:
        problems = [] if counts[what] >= share * counts[of_all] > 0 else [f"{counts[what]} of {counts[of_all]} {of_all}"]
        tally.note(f"sweep: enough {what}", problems)


def note_script(program, tally):
    """Has the script sweep a few policies, and refuse a word that is no number."""
    for words, wanted in ((FEW, (0, True)), (("2", "few"), (2, False))):
        done = subprocess.run([sys.executable, SCRIPT, program, *words], capture_output=True, timeout=SECONDS, check=False)
        came = (done.returncode, done.stdout.endswith(b" passed, 0 failed\n"))
        tally.note(f"tests/sweep {' '.join(words)}", difference("status, and whether all passed", wanted, came))


def run_all(program, tally):
    """Sweeps the policies of SEED, with the build of the program `cases` that `rt run` makes."""
    built = programs()
    if not os.access(built[0], os.X_OK):
        tally.note("sweep", [f"no program: run `rt run < /dev/null` in crates/{PROGRAM}"])
        return
    counts = run_sweep(program, built[0], Seeds(), SEED, range(COUNT), tally)
    print_counts(SEED, counts)
    note_counts(counts, tally)
    note_script(program, tally)
