"""The sweep's runs of the built program, which has to answer as the libraries do.

A policy of one file is standard input, in an empty folder. One of several files stands in a folder of its own. Both folders
are the root of a system, so that no line leads out of them.
"""

import os
import re

import way_back
from bundles import bundle
from changed_files import eight, frame_of
from edited_files import LOADED
from grown_edits import script_of
from printed import error_in_empty_root, printed_error, printed_lines
from program import Wanted, fault, run
from sweep_answers import CONVERT
from sweep_edits import prunes
from tables import call

ROOT = ("--root", ".")
JSON = ("convert", "-f", "json")
PLACE = rb"([^\n]+):(\d+):(\d+): "
REASON = re.compile(PLACE + rb"(allow|deni)ed by: [^\n]+\n(?:" + PLACE + rb"in Cmnd_Alias \w+: [^\n]+\n)?")
NO_REASON = b"no rule matches\n"


class Ground:
    """The folders in which the program runs: one that is empty, one of people, and one for each policy of several files."""

    def __init__(self, program, top):
        self.program, self.top, self.runs = program, top, 0
        self.empty = self.put("empty", ())

    def put(self, name, files):
        """Writes files into a folder of this name, and returns its path."""
        folder = os.path.join(self.top, name)
        os.makedirs(folder, exist_ok=True)
        for file, text in files:
            path = os.path.join(folder, file.decode())
            os.makedirs(os.path.dirname(path), exist_ok=True)
            with open(path, "wb") as opened:
                opened.write(text)
        return folder

    def start(self, words, stdin, folder):
        """Runs the program, and counts the run."""
        self.runs += 1
        return run(self.program, words, stdin, folder=folder)

    def run_text(self, text, words, after=()):
        """Runs the program on a policy of one file, with these words before and after FILE."""
        return self.start((*words, *ROOT, "-", *after), text, self.empty)

    def run(self, policy, words, after=()):
        """Runs the program on a policy, likewise."""
        if policy.is_alone:
            return self.run_text(policy.files[0][1], words, after)
        return self.run_files(str(policy.number), policy.files, words, after)

    def run_files(self, name, files, words, after=(), stdin=b""):
        """Runs the program on files in a folder of this name, likewise."""
        folder = os.path.join(self.top, name)
        if not os.path.exists(folder):
            self.put(name, files)
        return self.start((*words, *ROOT, "main", *after), stdin, folder)

    def edit(self, text):
        """Runs `edit` on an input."""
        return self.start(("edit",), text, self.empty)


def note(policy, what, wanted, came):
    """Notes what is wrong with an answer of the program."""
    policy.problems += [f"{what}: {line}" for line in wanted.problems(came)]


def options_of(ground, policy):
    """Returns the words of `list` about a policy for its first question. The files of its people are written."""
    people = ground.put("people", ((b"passwd", policy.people.passwd()), (b"group", policy.people.group())))
    return policy.questions[0].options(people)


def run_refused(ground, policy):
    """Runs one of the commands on files that are no policy: it prints their error."""
    if not policy.is_alone or policy.number % 7 == 0:
        note(policy, "edit", printed_error(policy.fault), ground.edit(bundle(policy.files)))
        return
    people = ground.put("nobody", ((b"passwd", b"bob:x:1:1:::\n"), (b"group", b"")))
    asked = ("list", "--passwd", f"{people}/passwd", "--group-file", f"{people}/group", "-U", "bob", "--host", "h", "--moment", "2026010100Z")
    commands = (CONVERT, (*JSON, "-e"), ("check",), ("check", "-s"), ("show",), asked)
    words = commands[policy.number % len(commands)]
    after = ("/bin/ls",) * (words is asked and policy.number % 5 == 0)
    note(policy, words[0], error_in_empty_root(words[0], policy.fault), ground.run(policy, words, after))


def run_edits(ground, policy):
    """Runs `edit` on the edits that are accepted, on what it printed, and on the edits of which one is refused."""
    script, edited = script_of(policy.accepted), policy.inverse + bundle(policy.edited)
    came = ground.edit(script + bundle(policy.files))
    note(policy, "edit", Wanted(edited), came)
    wanted, back = script + bundle(policy.files), ground.edit(came.stdout)
    if prunes(policy):
        wanted = way_back.policy_of(wanted)
        back = Wanted(way_back.policy_of(back.stdout), back.stderr, back.status)
    note(policy, "edit back", Wanted(wanted), back)
    if policy.refusal is not None:
        came = ground.edit(script_of(policy.edits) + bundle(policy.files))
        note(policy, "edit with a refused edit", printed_error(policy.refusal), came)


def note_reason(policy, row, came):
    """Notes what is wrong with a reason: its verdict and status are those of the row, and its places are bytes of the policy."""
    found = REASON.fullmatch(came.stdout)
    if found is None:
        policy.problems.append(f"no reason: {came}")
        return
    verdict, status = ("allow", 0) if row.startswith("allow") else ("deni", 1)
    policy.wants("verdict and status of a reason", (verdict, status), (found[4].decode(), came.status))
    files = dict(policy.files)
    for name, line, column in (found.group(1, 2, 3), found.group(5, 6, 7)):
        if name is not None:
            lines = files[name].split(b"\n")[int(line) - 1 :]
            policy.wants(f"a place in the policy for {came.stdout!r}", True, bool(lines) and 0 < int(column) <= len(lines[0]))


def run_questions(ground, policy):
    """Runs `list` on a policy: it lists what the library lists, and answers the first question as the library does."""
    options, question, row = options_of(ground, policy), policy.questions[0], policy.rows[0]
    if policy.is_alone:
        wanted = fault("Cycle") if row == "Cycle" else Wanted(policy.listing)
        note(policy, "list", wanted, ground.run(policy, options))
    words, after = (*options, *question.targets()), ("--", *question.words)
    note(policy, f"list of {question}", answer_wanted(question, row), ground.run(policy, words, after))
    came = ground.run(policy, (*words, "--why"), after)
    if row.startswith(("allow", "deny")):
        note_reason(policy, row, came)
    else:
        note(policy, "why", fault("Cycle") if row == "Cycle" else Wanted(NO_REASON, status=1), came)


def answer_wanted(question, row):
    """Returns what `list` has to answer to a question, by the row that decides."""
    if row == "Cycle":
        return fault("Cycle")
    return Wanted(b" ".join(question.words) + b"\n") if row.startswith("allow") else Wanted(status=1)


def run_reports(ground, policy, shown):
    """Runs `check` and `show` on a policy whose files are all on its walk."""
    strict = Wanted(policy.strict, status=0 if policy.strict.endswith(b": parsed OK\n") else 1)
    note(policy, "check", Wanted(policy.report), ground.run(policy, ("check",)))
    note(policy, "check -s", strict, ground.run(policy, ("check", "-s")))
    note(policy, "show", Wanted(shown), ground.run(policy, ("show",)))


def run_conversions(ground, policy):
    """Runs `convert` on what `-e` printed, which is printed again, and on the policy and what was printed: both have the same JSON."""
    if policy.expanded.status == 0:
        again = ground.run_text(policy.expanded.stdout, CONVERT)
        note(policy, "convert of what -e printed", Wanted(policy.expanded.stdout), again)
    json = ground.run(policy, JSON)
    note(policy, "convert to JSON", Wanted(json.stdout, json.stderr, json.status), ground.run_text(policy.printed, JSON))


def shown_of(policy, answers):
    """Returns what `show` has to print: the lines of each file and their places."""
    shown = b""
    for number, (name, _) in enumerate(policy.files, 1):
        shown += b"file %d %s\n" % (number, name) * (not policy.is_alone) + printed_lines(*answers[2 * number - 2 : 2 * number])
    return shown


def run_files(ground, policy):
    """Runs `edit --files` on the files of a folder with the edits that are accepted, and `list` on what a rename and a prune leave."""
    if policy.is_gathered:
        came = ground.run_files(str(policy.number), policy.files, ("edit", "--files", "-"), stdin=script_of(policy.accepted))
        note(policy, "edit --files", Wanted(policy.inverse + bundle(policy.edited)), came)
    words, question = (*options_of(ground, policy), *policy.questions[0].targets()), policy.questions[0]
    for what, files in policy.versions.items():
        came = ground.run_files(f"{policy.number}_{what}", files, words, ("--", *question.words))
        note(policy, f"list after a {what}", answer_wanted(question, policy.rows[0]), came)


def run_sample(sweep, ground, policies):
    """Runs all commands on policies."""
    frames = []
    for policy in policies:
        calls = [call(byte, eight(file)) for file in range(len(policy.files)) for byte in (b"a", b"b")]
        frames.append((frame_of(policy.files, calls, LOADED), len(calls)))
    for policy, answers in zip(policies, sweep.ask(frames)):
        run_edits(ground, policy)
        run_questions(ground, policy)
        run_conversions(ground, policy)
        if policy.is_gathered:
            run_reports(ground, policy, shown_of(policy, answers))
        if not policy.is_alone:
            run_files(ground, policy)
