"""Prints policies as JSON documents with `--json`, and compares them with what is printed without.

Each worked policy and each policy of tests/explained is checked and shown: the documents have to say the same errors,
notes, lines and places, with the same exit status. json_asked.py asks them with `who`, `what` and `why`.
docs/json.schema.json has to accept each document, if the library `jsonschema` is installed. The rows of json_rows.py and
json_changes.py have whole documents. Each growth of memory of some runs is refused.
"""

import glob
import json
import os
import subprocess
import tempfile

import json_asked
import json_changes
import json_compared as compared
import worked_policies
from all_errors import has_place
from cases import Case
from explaining import TABLES, files_of_row, stand_in
from json_lines import has_document
from json_rows import GROWTHS, ROWS, UNREADABLE
from preload import with_library
from program import NAME, Answer, Wanted
from stand import PIPE, Folder, Stand, stand_of_nobody
from sweep_runs import ROOT, Ground
from tables import groups_of, text_of
from tally import difference

PART = "json"

# The words with which each policy is checked, with its lines where they are no error, and those with which one with an error is checked too.
WORDS = ("check", "-s", "--skipped")
LINE_WORDS = (*WORDS, "--overruled", "--lint")
ALL_WORDS = ("check", "--all")
# A policy of more lines is checked alone: Python takes minutes for the documents with its lines, or with an error of each.
MOST_LINES = 5_000
# A policy of tests/explained is cut after each byte whose number differs from its length by a multiple of this.
CUT_EVERY = 41
# As many errors of `check --all` are explained at most.
EXPLAINED = 64
# Less than this many policies that are read, or that are not, would show that policies got lost.
FEWEST = 300


def policies():
    """Returns the policies that are printed: the files of each, and the place that has it first. Those of tests/explained are also cut."""
    found = dict(worked_policies.policies())
    for path in sorted(glob.glob(os.path.join(TABLES, "*"))):
        for group in groups_of(path):
            row = group.rows[0][1]
            where = f"{group.where}, {group.title}"
            if group.words != ("policy",):
                found.setdefault(tuple((name.encode(), text) for name, text in files_of_row(row).items()), where)
                continue
            text = text_of(row)
            for end in (len(text), *range(len(text) % CUT_EVERY, len(text), CUT_EVERY)):
                found.setdefault(((b"policy", text[:end]),), where if end == len(text) else f"{where}, cut after {end} bytes")
    return found


def can_stand(names):
    """Whether files of these names can stand together below a folder, which is the root of a system."""
    names = list(names)
    return all(has_place(name) for name in names) and len({compared.key_of(name) for name in names}) == len(names)


class Printed:
    """A policy in a folder, or on standard input, and the runs of the program on it."""

    def __init__(self, ground, number, files):
        self.ground = ground
        self.is_alone = len(files) == 1
        self.file = "-" if self.is_alone else files[0][0].decode()
        self.stdin = files[0][1] if self.is_alone else b""
        self.files = {b"-": self.stdin} if self.is_alone else {compared.key_of(name): text for name, text in files}
        self.folder = ground.empty
        if not self.is_alone:
            self.folder = ground.put(str(number), [(name.removeprefix(b"/"), text) for name, text in files])

    def count_lines(self):
        """How many lines the files have."""
        return sum(text.count(b"\n") for text in self.files.values())

    def run(self, *words):
        """What the program answers to these words and the policy."""
        return self.ground.start((*words, *ROOT, "--", self.file), self.stdin, self.folder)

    def words_of_check(self):
        """The words with which the policy is checked."""
        return WORDS if self.run(*LINE_WORDS).stderr else LINE_WORDS

    def problems_of_errors(self, words, errors):
        """What is wrong with the errors of a document of `check`."""
        problems = [line for error in errors for line in compared.error_problems(self.files, error)]
        explanation = self.run(*words, "--explain").stderr
        if len(errors) == 1:
            return problems + compared.hint_problems(errors[0], explanation)
        told = [row.partition(b"= help: ")[2] for row in explanation.splitlines() if row.lstrip(b" ").startswith(b"= help: ")]
        hints = [compared.bytes_of(error["hint"]["text"]) for error in errors if error["hint"]]
        return problems + (difference("advices", told, hints) if len(errors) <= EXPLAINED else [])

    def problems_of_check(self, words):
        """What is wrong with the document of `check`."""
        plain, came = self.run(*words), self.run(*words, "--json")
        document, problems = compared.document_of(came.stdout)
        problems += difference("status", plain.status, came.status) + compared.stderr_problems(plain, came)
        if not document or plain.stderr:
            return problems
        problems += difference("report", plain.stdout, compared.check_text(document))
        problems += compared.note_problems(self.files, document)
        return problems + (self.problems_of_errors(words, document["errors"]) if document["errors"] else [])

    def problems_of_show(self):
        """What is wrong with the document of `show`, and whether the policy was read."""
        plain, came = self.run("show"), self.run("show", "--json")
        document, problems = compared.document_of(came.stdout)
        problems += difference("status", plain.status, came.status) + compared.stderr_problems(plain, came)
        if not document:
            return problems, False
        told = b"" if document["read"] else NAME + compared.errors_text(document)
        problems += difference("lines", plain.stdout, compared.show_text(document)) + difference("error", plain.stderr, told)
        return problems + compared.line_problems(self.files, document), document["read"]


def run_policies(program, tally):
    """Prints each policy."""
    read = [0, 0]
    with tempfile.TemporaryDirectory(prefix="sudoers_tool_tests_") as top:
        ground = Ground(program, top)
        for number, (files, where) in enumerate(policies().items()):
            if len(files) > 1 and not can_stand(name for name, _ in files):
                continue
            try:
                printed = Printed(ground, number, files)
            except OSError:
                continue
            problems = printed.problems_of_check(printed.words_of_check())
            if printed.count_lines() <= MOST_LINES:
                wrong, is_read = printed.problems_of_show()
                wrong += json_asked.problems_of_policy(ground, number, printed.files, printed.folder, printed.file, printed.stdin)
                problems += wrong + ([] if is_read else printed.problems_of_check(ALL_WORDS))
                read[is_read] += 1
            tally.note(f"{PART}: {where}", problems)
    tally.note(f"{PART}: policies", [] if min(read) >= FEWEST else [f"{read} policies are not read, and read"])


def run_rows(stand, rows):
    """Compares the document of each row."""
    for name, tree, words, stdin, document, status, stderr in rows:
        with Folder(tree) as folder:
            came = stand.run(words, folder, stdin)
        problems = difference("stderr", stderr, came.stderr) + difference("status", status, came.status)
        if document is None:
            problems += difference("stdout", b"", came.stdout)
        else:
            printed, wrong = compared.document_of(came.stdout)
            problems += wrong + difference("document", json.dumps(document, sort_keys=True), json.dumps(printed, sort_keys=True))
        stand.tally.note(f"{PART}: {name}, {words}", problems)


def run_growths(stand):
    """If a growth of memory is refused, the whole document comes, with or without the error, or none and the error of memory."""

    def check(library):
        for words, tree in (*GROWTHS, *json_changes.GROWTHS):
            with Folder(tree) as folder:
                ample = stand.run(words, folder)
                case = Case(words, tuple(words.split(" ")), b"", stand_in(ample), folder=folder)
                outputs = {ample.stdout: ample.stderr}
                if words in json_changes.OF_NONE:
                    document, told = json_changes.OF_NONE[words]
                    outputs[compared.spelled(document)] = told
                statuses = (1, json_asked.ERROR_STATUS) if has_document(words.split(" ")) else (1,)
                stderrs = (NAME + b"NoMemory\n", b"", *outputs.values())
                without = {Answer(b"", told, status) for told in stderrs for status in statuses}
                whole = {Answer(text, told, ample.status) for text, error in outputs.items() for told in (error, b"")}
                allowed = {ample, *whole, *without}
                came = set()
                for refusal in ("refuse_growth", "refuse_from"):
                    for number, (answer, _) in enumerate(library.run_each(stand.program, case, refusal), 1):
                        problems = [] if answer in allowed else [f"came {answer}"]
                        stand.tally.note(f"{PART}: {words}, {refusal} {number}", problems)
                        came.add(answer)
                problems = [] if ample in came and len(came) > 1 else ["no growth is refused"]
                stand.tally.note(f"{PART}: {words}, answers", problems)

    with_library(stand.tally, check)


def run_pipes(stand):
    """A named pipe is read once."""
    for words in ("check --json", "check --all --json", "check --overruled --lint --json", "show --json", "diff --json other"):
        for text in (b"bob ALL\n", b"User_Alias A = x\nbob ALL = /bin/a\n"):
            with Folder({"main": text, "other": "", "pipe": PIPE}) as folder:
                wanted = stand.run(f"{words} main", folder)
                with subprocess.Popen("cat main > pipe", shell=True, cwd=folder):
                    came = stand.run(f"{words} pipe", folder)
                texts = [text.replace(b"pipe", b"main") for text in (came.stdout, came.stderr)]
                problems = Wanted(wanted.stdout, wanted.stderr, wanted.status).problems(Answer(*texts, came.status))
                stand.tally.note(f"{PART}: a pipe, {words} of {text!r}", problems)


def run_full_device(stand):
    """A document that cannot be written is the error `Write`; of an error that is none of the policy that error is printed."""
    for words, tree, told, status in (
        ("check --json main", {"main": "bob ALL\n"}, b"Write", 1),
        ("check --json main", {"main": "# a\n"}, b"Write", 1),
        ("show --json main", {"main": "# a\n"}, b"Write", 1),
        ("show --json main", {"main": "bob ALL\n"}, b"Write", 1),
        ("check --json none", {}, b"NoRoot", 1),
        ("check --json --lint main", {"main": "# a\n"}, b"Write", 3),
        ("diff --json old new", {"old": "", "new": "bob ALL = /bin/a\n"}, b"Write", 3),
        ("diff --json old new", {"old": "", "new": "bob ALL\n"}, b"new:1:8: syntax error: EndOfLine", 3),
        ("diff --json old none", {"old": ""}, b"none: NoRoot", 3),
    ):
        with Folder(tree) as folder, open("/dev/full", "wb") as full:
            done = subprocess.run([stand.program, *words.split(" ")], stdout=full, stderr=subprocess.PIPE, cwd=folder, env={}, check=False)
        problems = difference("stderr", NAME + told + b"\n", done.stderr) + difference("status", status, done.returncode)
        stand.tally.note(f"{PART}: {words} on a full device, {tree}", problems)


def run_other_commands(stand):
    """The other commands do not have the option."""
    for words in ("convert -f json --json main", "list --json main", "edit --json", "--json"):
        with Folder({"main": ""}) as folder:
            came = stand.run(words, folder)
        stand.tally.note(f"{PART}: {words}", Wanted(stderr=None, stderr_has=(b"unexpected argument '--json'",), status=2).problems(came))


def run_all(program, tally):
    """Prints all policies and all rows."""
    if compared.validator() is None:
        tally.skip(f"{PART}: docs/json.schema.json", "the library jsonschema is missing")
    stand = Stand(PART, program, tally)
    run_rows(stand, (*ROWS, *json_changes.ROWS))
    with stand_of_nobody(PART, program, tally) as nobody:
        run_rows(nobody, (*UNREADABLE, *json_changes.UNREADABLE))
    run_pipes(stand)
    run_full_device(stand)
    run_other_commands(stand)
    run_growths(stand)
    json_asked.run_all(stand)
    run_policies(program, tally)
