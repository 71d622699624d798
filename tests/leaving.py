"""Has users leave policies by the wish `no-user`, in folders made here.

A row of `leaving_rows.py` has files, the script that is wanted, the files after it and the notes. Each is planned, put in place, planned
again and put back. A model of lists does so with random policies.
"""

import os
import random
import shutil
import subprocess

from cases import Case
from leaving_model import SEED, RandomPolicy
from leaving_rows import KEPT, LEFT, NO_LONGER_DENIED, REFUSED, said
from placing import Site, refusal, state, with_texts
from preload import with_library
from program import Wanted
from stand import Stand

PART = "leaving"
RANDOM_POLICIES = 150
MOST_NOTES = 32
PASSWD = "root:x:0:0:::\nbob:x:1001:1001:::\n"
GROUP = "bob:x:1001:\n"
LISTED = ["list", "-U", "bob", "--passwd", "passwd", "--group-file", "group", "--host", "h1", "--moment", "2026010100Z"]


def note_left(stand, name, row):
    """The plan of a row is its script. `apply` makes its files, the same wish then wants nothing, and `place --undo` brings the bytes back."""
    wish, notes = f"no-user {row.user}", "".join(row.notes).encode()
    with Site(stand, row.files, script="") as site:
        planned = Wanted(row.script.encode(), notes)
        site.note(name, ["plan", *row.options, "main", wish], planned, site.before)
        checked = Wanted(row.script.encode(), notes, 1 if row.script else 0)
        site.note(f"{name}, checked", ["plan", "--check", *row.options, "main", wish], checked, site.before)
        site.note(f"{name}, dry", ["apply", "--dry-run", *row.options, "--wish", wish, "main"], Wanted(None, notes), site.before)
        placed = stand.run(["apply", "--undo-file", "undo", *row.options, "--wish", wish, "main"], site.folder)
        problems = Wanted(None, notes).problems(placed)
        after = {**state(site.folder)}
        output = after.pop("undo", None)
        wanted = with_texts(site.before, {file: text for file, text in row.after.items() if row.files[file] != text})
        stand.tally.note(f"{PART}: {name}, applied", problems + ([] if after == wanted else [f"files: {after}"]))
        site.note(f"{name}, again", ["plan", "--check", *row.options, "main", wish], Wanted(None, None), state(site.folder))
        if output is not None:
            stand.run(["place", "--undo", "undo"], site.folder)
            back = {**state(site.folder)}
            back.pop("undo")
            stand.tally.note(f"{PART}: {name}, back", [] if back == site.before else [f"files: {back}"])


def run_left(stand):
    """The user leaves each policy of the table."""
    for name, row in LEFT.items():
        note_left(stand, name, row)


def run_refused(stand):
    """Each refusal names its wish and the line, and leaves each file as it was."""
    for row in REFUSED:
        with Site(stand, row.files, script="") as site:
            wanted = refusal(f"{row.wishes[row.number]}: {row.error}")
            site.note("refused", ["plan", *row.options, "main", *row.wishes], wanted, site.before)
            named = [word for wish in row.wishes for word in ("--wish", wish)]
            site.note("refused", ["apply", "--undo-file", "undo", *row.options, *named, "main"], wanted, site.before)
    emptied = {"main": "User_Alias OPS = bob\nDefaults:OPS !lecture\n"}
    with Site(stand, emptied, script="") as site:
        words = ["plan", "main", "lacks-line main Defaults:OPS !lecture", "no-user bob"]
        site.note("the Defaults line goes first", words, Wanted(b"delete 2\ndelete 1\n"), site.before)


def run_notes(stand):
    """What may still concern the user is noted, after a plan that wants nothing too."""
    for text, notes in KEPT:
        with Site(stand, {"main": text}, script="") as site:
            site.note("noted", ["plan", "--check", "main", "no-user bob"], Wanted(b"", notes.encode()), site.before)
            site.note("noted", ["apply", "--wish", "no-user bob", "main"], Wanted(b"", notes.encode()), site.before)
    for text, notes in NO_LONGER_DENIED:
        with Site(stand, {"main": text}, script="") as site:
            site.note("no longer denied", ["plan", "main", "no-user bob"], Wanted(None, notes.encode()), site.before)
    several = {"main": "@include a\n%adm ALL = ALL\n", "a": "#7 ALL = ALL\n"}
    first = said("a:1:1", "#7", "{} may have this ID") + said("main:2:1", "%adm", "{} may be in this group")
    with Site(stand, several, script="") as site:
        notes = first.format("bob", "bob") + first.format("eve", "eve")
        site.note("two users", ["plan", "main", "no-user bob", "has-line main # x", "no-user eve"], Wanted(None, notes.encode()), site.before)
        site.note("no user", ["plan", "main", "has-line main # x"], Wanted(None), site.before)
        site.note("from standard input", ["plan", "main", "-"], Wanted(b"", first.format("bob", "bob").encode()), site.before, stdin=b"no-user bob\n")
    for more in (0, 1, 9):
        rules = "%adm ALL = ALL\n" * (MOST_NOTES + more)
        notes = "".join(said(f"main:{row + 1}:1", "%adm", "bob may be in this group") for row in range(MOST_NOTES))
        notes += f"sudoers_tool: .. and {more} more\n" if more else ""
        with Site(stand, {"main": rules}, script="") as site:
            site.note(f"{more} notes too many", ["plan", "main", "no-user bob"], Wanted(b"", notes.encode()), site.before)


def visudo_or_none():
    """The program `visudo`, if it is installed and this is root, who alone may own what it reads."""
    return shutil.which("visudo", path="/usr/sbin:/sbin:/usr/bin:/bin") if os.geteuid() == 0 else None


def visudo_problems(visudo, folder, files):
    """What `visudo -c` says of the policy `main` with these files, where it does not pass."""
    for file in files:
        os.chmod(os.path.join(folder, file), 0o440)
    done = subprocess.run([visudo, "-c", "-f", "main"], cwd=folder, capture_output=True, check=False)
    return [] if done.returncode == 0 else [f"{done.stdout} {done.stderr}"]


def run_random(stand):
    """Random policies lose the user as the model does. Where no member is wider than a name, he may then run nothing."""
    draw, visudo = random.Random(SEED), visudo_or_none()
    with Site(stand, {"main": "", "passwd": PASSWD, "group": GROUP}, script="") as site:
        nothing = stand.run([*LISTED, "main"], site.folder)
    for number in range(RANDOM_POLICIES):
        policy = RandomPolicy(draw)
        options = ["--even-denials"] if draw.random() < 0.5 else []
        after, error, notes = policy.left("bob", bool(options))
        with Site(stand, {**policy.files(), "passwd": PASSWD, "group": GROUP}, script="") as site:
            name = f"random policy {number}, {policy.files()}"
            words = ["apply", "--undo-file", "undo", *options, "--wish", "no-user bob", "main"]
            if error is not None:
                site.note(name, words, refusal(f"no-user bob: {error}"), site.before)
                continue
            placed = stand.run(words, site.folder)
            found = {**state(site.folder)}
            is_placed = found.pop("undo", None) is not None
            problems = Wanted(None, notes.encode()).problems(placed)
            wanted = with_texts(site.before, {file: text for file, text in after.items() if policy.files()[file] != text})
            problems += [] if found == wanted else [f"files: {found}"]
            stand.tally.note(f"{PART}: {name}", problems)
            if not policy.has_wider_members():
                site.note(f"{name}, listed", [*LISTED, "main"], Wanted(nothing.stdout, nothing.stderr, nothing.status), state(site.folder))
            if is_placed:
                problems = visudo_problems(visudo, site.folder, ()) if visudo is not None else []
                stand.tally.note(f"{PART}: {name}, visudo -c", problems)
                stand.run(["place", "--undo", "undo"], site.folder)
                back = {**state(site.folder)}
                back.pop("undo")
                stand.tally.note(f"{PART}: {name}, back", [] if back == site.before else [f"files: {back}"])


def run_visudo(stand):
    """What `apply` puts in place passes `visudo -c`."""
    visudo = visudo_or_none()
    if visudo is None:
        stand.tally.skip(f"{PART}: visudo -c", "visudo is missing, or this is not root")
        return
    for name, row in LEFT.items():
        with Site(stand, row.files, script="") as site:
            stand.run(["apply", "--undo-file", "undo", *row.options, "--wish", f"no-user {row.user}", "main"], site.folder)
            problems = visudo_problems(visudo, site.folder, row.files)
            stand.tally.note(f"{PART}: visudo -c after {name}", [] if name == "aliases in a circle" else problems)


def run_growths(stand):
    """If a growth of memory is refused, the answer is as with ample memory, or the error says so and nothing else is printed."""
    files = {"main": "User_Alias A = bob : B = A, ann\nA, ann ALL = (bob) ALL, !/bin/su\n%adm ALL = ALL\nann, !B ALL = ALL\n"}
    words = (
        ["plan", "--even-denials", "main", "no-user bob"],
        ["plan", "main", "no-user bob"],
        ["apply", "--dry-run", "--even-denials", "--wish", "no-user bob", "main"],
    )

    def check(library):
        with Site(stand, files, script="") as site:
            for asked in words:
                ample = stand.run(asked, site.folder)
                for refused in ("refuse_growth", "refuse_from"):
                    number, met = 0, True
                    while met:
                        number += 1
                        case = Case("leave", tuple(asked), b"", None, folder=site.folder)
                        came, report = library.run(stand.program, case, **{refused: number})
                        met = report.met
                        told = (came.stdout, came.stderr, came.status)
                        allowed = [(ample.stdout, ample.stderr, ample.status)]
                        allowed += [(b"", text, status) for text in (b"sudoers_tool: NoMemory\n", b"") for status in (1, 3)]
                        stand.tally.note(f"{PART}: {asked}, {refused} {number}", [] if told in allowed else [f"{told}"])

    with_library(stand.tally, check)


def run_all(program, tally):
    """Runs all of it."""
    stand = Stand(PART, program, tally)
    for run in (run_left, run_refused, run_notes, run_random, run_visudo, run_growths):
        run(stand)
