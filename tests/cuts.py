"""Cuts the worked policies after each byte: what is left is read as just these bytes, or refused with an error that has a name.

The policies are those that worked_policies.py gathers. Of one file each text of at most MOST bytes is cut, and of several
files each file in turn, the others being whole. The program `cases` reads all cuts: it says the names and texts of the
files, and the report on them. The built program reads some of them: `check` has to print that report or that error, and
`edit` of a bundle and of no edits the bundle or the error; of fewer, `show` has to print the lines. A syntax error has its
place in what is left.

FIRST says of each cut of one policy whether it is read.
"""

import os
import re
import subprocess
import tempfile

import worked_policies
from bundles import bundle
from changed_files import frame_of
from policies import bytes_of
from printed import error_in_empty_root, printed_error, printed_fault, printed_lines
from program import Wanted, run
from tables import PROGRAM, asked, call, programs
from tally import difference

MOST = 600
# The name of the one file: that of standard input.
STREAM = b"-"
PARSED = b": parsed OK\n"
PLACE = re.compile(rb"(.*?):(\d+):(\d+): syntax error: ", re.S)

# A policy, and its cuts that are read; each other is too short by its last byte.
FIRST, READ = b"bob ALL=ALL\n", (0, 9, 10, 11, 12)

# How many cuts are asked at once; and of how many cuts one goes to `check` and `edit`, and one to `show`.
LOT, EACH, EACH_SHOWN = 20_000, 24, 48

# Less than this would show that policies or cuts got lost: texts and policies of several files, cuts, and cuts that are read.
FEWEST = (5_000, 200, 80_000, 25_000)


def cuts_of(files):
    """Yields the files with each cut of each file, and the files as they are."""
    for at, (name, text) in enumerate(files):
        for length in range(len(text)):
            yield (*files[:at], (name, text[:length]), *files[at + 1 :])
    yield files


def all_cuts(tally):
    """Returns the cuts of all policies, each once, with the place of the policy."""
    texts = {FIRST: "the first policy", **worked_policies.texts(MOST)}
    several = {files: where for files, where in worked_policies.policies().items() if len(files) > 1}
    several = {files: where for files, where in several.items() if sum(len(text) for _, text in files) <= MOST}
    found = {}
    alone = {((STREAM, text),): where for text, where in texts.items()}
    for files, where in {**alone, **several}.items():
        for cut in cuts_of(files):
            found.setdefault(cut, where)
    print(f"cuts: {len(texts)} texts and {len(several)} policies of several files, cut in {len(found)} ways")
    enough = [len(texts) >= FEWEST[0], len(several) >= FEWEST[1], len(found) >= FEWEST[2]]
    tally.note("cuts: texts, policies of several files, cuts", difference("enough", [True] * 3, enough))
    return found


def problems_of_place(files, text):
    """Returns what is wrong with the place of a syntax error, which has to be in the file that is cut."""
    found = PLACE.match(text)
    if not found:
        return []
    rows = dict(files)[found[1]].split(b"\n")
    row, column = int(found[2]), int(found[3])
    is_there = 1 <= row <= len(rows) and 1 <= column <= len(rows[row - 1]) + 1
    return [] if is_there else [f"an error outside of its text: {text!r}"]


def problems_of_cut(files, named, report):
    """Returns what is wrong with the answers to a cut: the names and texts of its files and their report, or the same error twice."""
    if named == "".join(f"{list(name)}\t{list(text)}\t" for name, text in files):
        parsed = str(list(files[0][0] + PARSED))[1:]
        return [] if report.endswith(parsed) else [f"a report without its end: {report[:80]}"]
    text = printed_fault(named)
    if text is None:
        return [f"neither the text nor an error with a name: {named[:160]}"]
    return difference("the error in place of the report", named, report) + problems_of_place(files, text)


def ask_cuts(program, cuts, tally):
    """Asks the program `cases` all cuts, and notes each policy. Returns what it said of the report on each cut."""
    order, reports, problems = list(cuts), {}, {where: [] for where in cuts.values()}
    calls = [call(b"N"), call(b"p")]
    for begin in range(0, len(order), LOT):
        lot = order[begin : begin + LOT]
        lines = asked(program, [frame_of(files, calls) for files in lot])
        if len(lines) != len(calls) * len(lot):
            raise ValueError(f"{len(lines)} answers to {len(calls) * len(lot)} calls")
        for files, named, report in zip(lot, lines[::2], lines[1::2]):
            reports[files] = report
            found = problems_of_cut(files, named, report)
            problems[cuts[files]] += [f"{files}: {problem}" for problem in found]
    for where, found in problems.items():
        tally.note(f"cuts of {where}", found[:4])
    read = sum(report.startswith("[") for report in reports.values())
    print(f"cuts: the libraries read {read} and refuse {len(reports) - read}")
    tally.note("cuts that are read", difference("enough", True, read >= FEWEST[3]))
    return reports


def run_cut(program, folder, files, report, tally):
    """Has the built program edit a cut by no edits, and check it where it is one file."""
    text = None if report.startswith("[") else printed_fault(report)
    wanted = Wanted(bundle(files)) if text is None else printed_error(text)
    if not all(name for name, _ in files):
        wanted = printed_error(b"BadBundle")
    tally.note(f"edit of {files}", wanted.problems(run(program, ("edit",), bundle(files))))
    if len(files) > 1:
        return
    wanted = Wanted(bytes_of(report)) if text is None else error_in_empty_root("check", text)
    tally.note(f"check of {files}", wanted.problems(run(program, ("check", "--root", ".", "-"), files[0][1], folder=folder)))


def show_cuts(program, folder, cuts, built, tally):
    """Has the built program show cuts of one file that are read."""
    lines = asked(built, [frame_of(files, [call(b"a"), call(b"b")]) for files in cuts])
    for files, said, rows in zip(cuts, lines[::2], lines[1::2]):
        wanted = Wanted(printed_lines(said, rows))
        tally.note(f"show of {files}", wanted.problems(run(program, ("show", "--root", ".", "-"), files[0][1], folder=folder)))


def run_program(program, reports, built, tally):
    """Has the built program read some cuts."""
    first = [((STREAM, FIRST[:length]),) for length in range(len(FIRST) + 1)]
    chosen = [files for at, files in enumerate(reports) if at % EACH == 0 or files in first]
    alone = [files for at, files in enumerate(reports) if at % EACH_SHOWN == 0 and len(files) == 1]
    alone = [files for files in [*first, *alone] if reports[files].startswith("[")]
    print(f"cuts: the program edits or checks {len(chosen)} of them, and shows {len(alone)}")
    with tempfile.TemporaryDirectory(prefix="sudoers_tool_tests_") as folder:
        for files in chosen:
            run_cut(program, folder, files, reports[files], tally)
        show_cuts(program, folder, alone, built, tally)


def note_first(reports, tally):
    """Notes each cut of FIRST: it is read, or its line ends too early."""
    for length in range(len(FIRST) + 1):
        report = reports[((STREAM, FIRST[:length]),)]
        text = b"-: parsed OK\n" if length in READ else b"-:1:%d: syntax error: EndOfLine" % (length + 1)
        came = bytes_of(report)[-len(text) :] if report.startswith("[") else printed_fault(report)
        tally.note(f"cuts: {FIRST[:length]}", difference("report", text, came))


def run_all(program, tally):
    """Cuts all policies. Each build of the program `cases` is asked."""
    built = programs()
    if not os.access(built[0], os.X_OK):
        tally.note("cuts", [f"no program: run `rt run < /dev/null` in crates/{PROGRAM}"])
        return
    cuts = all_cuts(tally)
    for number, one in enumerate(built):
        try:
            reports = ask_cuts(one, cuts, tally)
            note_first(reports, tally)
            if number == 0:
                run_program(program, reports, one, tally)
        except (LookupError, OSError, TypeError, ValueError, subprocess.SubprocessError) as error:
            tally.note("cuts", [f"{type(error).__name__}: {error}"])
