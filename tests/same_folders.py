"""Runs `who`, `why` and `list` where folders have two names, and `why` where rules match in all parts but one.

The rows stand in same_rows.py. Random questions are compared with same_model.py: the rule that decides, the rules that match but
for one part, and what was not decided. A pair that no path belongs to changes no answer: neither of random questions nor of the
rows of `list`. It may change which of several errors of `list` comes first.
"""

import os
import re
from random import Random

import rows
from program import NAME, Wanted, run
from same_model import WORDS, answer, near_misses, random_question, undecided
from same_rows import ANSWERS, ERRORS, P, PEOPLE, ROOTS, USAGES
from stand import Folder, Stand
from undecided import GROUP, PASSWD, lines_of, wanted_lines, words_of

PART = "same_folders"
CASES = 1200
NOWHERE = ("--same", "/no/where=/else/where")
RULE = re.compile(r"main:(\d+):(\d+): (allowed|denied) by: .*")
NEAR = re.compile(r"main:(\d+):(\d+): matches but for ([a-z ]+): (.*)")


# ---- rows


def run_answers(stand):
    """Each row of ANSWERS and of ROOTS."""
    for name, policy, words, text, status in ANSWERS:
        with Folder({**PEOPLE, "main": policy}) as folder:
            stand.note(name, words, Wanted(text.encode(), status=status), folder)
    for name, root, words, text, status in ROOTS:
        command, rest = words.split(" ", 1)
        with Folder({**PEOPLE, **{f"image/{file}": what for file, what in root.items()}}) as folder:
            for top in ("image", "image/", folder + "/image"):
                stand.note(name, f"{command} --root {top} {rest}", Wanted(text.encode(), status=status), folder)


def run_errors(stand):
    """Each row of ERRORS."""
    for name, policy, words, error, status in ERRORS:
        with Folder({**PEOPLE, "main": policy}) as folder:
            stand.note(name, words, Wanted(stderr=NAME + error.encode() + b"\n", status=status), folder)


def run_usages(stand):
    """Each wrong command line, before any file is read."""
    with Folder({**PEOPLE, "main": "ann ALL = ALL\n"}) as folder:
        for words, text in USAGES:
            stand.note("usage", words, Wanted(stderr=None, status=2, stderr_has=(b"error: ", text.encode())), folder)


def run_machine(stand):
    """The links of the system on which the program runs: its first line names them."""
    links = [f"{name}=/usr{name}" for name in ("/bin", "/sbin") if os.path.islink(name) and os.readlink(name).lstrip("./").rstrip("/") == f"usr{name}"]
    first = f"same folders: {', '.join(links)}\n" if links else ""
    with Folder({**PEOPLE, "main": "ann ALL = /bin/a\n"}) as folder:
        stand.note("the links of this system", f"who {P} /bin/a", Wanted(f"{first}ann: main:1:11: allowed by: (root) /bin/a\n".encode()), folder)


# ---- the model


def pair_words(pairs):
    """The words that name pairs of folders."""
    return [word for pair in pairs for word in ("--same", "=".join(pair))]


def wanted_rule(found):
    """What is read of the rule that decides."""
    if found is None:
        return None
    member, allows = found
    return member.line + 1, member.start + 1, "allowed" if allows else "denied"


def rule_of(line):
    """What is read of a first line."""
    found = RULE.fullmatch(line)
    return found and (int(found[1]), int(found[2]), found[3])


def near_of(lines):
    """The rules that match but for one part, as they are printed."""
    found = [NEAR.fullmatch(line) for line in lines]
    return [(int(it[1]), int(it[2]), it[3], it[4].endswith) for it in found if it]


def problems_of_near(lines, wanted):
    """What is wrong with these rules: place, part, and the text of the command at the end."""
    came = near_of(lines)
    places = [(member.line + 1, member.start + 1, WORDS[part]) for member, part in wanted]
    ends = all(ends_with(member.text) for (*_, ends_with), (member, _) in zip(came, wanted))
    return [] if [row[:3] for row in came] == places and ends else [f"near misses: wanted {places}", f"came {lines}"]


def problems_of_why(question, came):
    """What is wrong with an answer of `why`."""
    lines, rule = came.stdout.decode().splitlines(), wanted_rule(answer(question))
    problems = [] if came.stderr == b"" and rule_of(lines[0]) == rule else [f"wanted {rule}, came {came}"]
    problems += [] if rule or lines[0] == "no rule matches" else [f"no answer: {came}"]
    problems += [] if came.status == (0 if rule and rule[2] == "allowed" else 1) else [f"status {came.status}"]
    problems += problems_of_near(lines, near_misses(question))
    wanted = wanted_lines(undecided(question))
    return problems + ([] if lines_of(came.stdout, None) == wanted else [f"not decided: wanted {wanted}, came {came}"])


def run_case(stand, seed, counts):
    """The question of a seed, by `why`, `who` and `list`."""
    question = random_question(Random(f"same {seed}"))
    policy, request, pairs = question
    counts[0] += bool(answer(question))
    counts[1] += len(near_misses(question))
    told = words_of(request)
    machine = told[told.index("--passwd") :]
    with Folder({"main": policy.text, "passwd": PASSWD, "group": GROUP}) as folder:

        def note(name, problems):
            stand.tally.note(f"{PART}: {name} of case {seed}", [*problems, f"{request} {pairs}", policy.text] if problems else [])

        came = stand.run(["why", *pair_words(pairs), *told, request.user, *request.words], folder)
        note("why", problems_of_why(question, came))
        reason = [line for line in came.stdout.splitlines(keepends=True) if b"matches but for" not in line and not line.startswith(b"not decided")]
        listed = stand.run(["list", "-U", request.user, *machine, *pair_words(pairs), "--why", "main", *request.words], folder)
        note("list --why", Wanted(b"".join(reason), status=came.status).problems(listed))
        listed = stand.run(["list", "-U", request.user, *machine, *pair_words(pairs), "main", *request.words], folder)
        note("list", Wanted(b"" if came.status else " ".join(request.words).encode() + b"\n", status=came.status).problems(listed))
        named = stand.run(["who", "--denied", *pair_words(pairs), *told, *request.words], folder)
        own = request.user.encode() + b": "
        lines = [line[len(own) :] for line in named.stdout.splitlines(keepends=True) if line.startswith(own)]
        note("who", [] if lines == [line for line in reason if line != b"no rule matches\n"] else [f"wanted {reason}, came {named}"])
        if not pairs:
            other = stand.run(["why", *NOWHERE, *told, request.user, *request.words], folder)
            note("a pair of other folders", Wanted(came.stdout, came.stderr, came.status).problems(other))


# ---- the rows of list


def run_list_rows(stand):
    """Each row of `list` that asks for a command, with a pair to which no path belongs."""
    for case in rows.load_every().values():
        words = [os.fsdecode(word) for word in case.words]
        if words[:1] != ["list"] or "--same" in words:
            continue
        came, plain = run_with(stand, case, [*words[:1], *NOWHERE, *words[1:]]), run_with(stand, case, words)
        problems = Wanted(plain.stdout, None if plain.stderr else b"", plain.status).problems(came)
        problems += [] if bool(plain.stderr) == bool(came.stderr) else [f"{came.stderr}"]
        stand.tally.note(f"{PART}: {case.name} with a pair", problems)


def run_with(stand, case, words):
    """What the program answers to a case with these words."""
    return run(stand.program, words, case.stdin, folder=case.folder, files=case.files)


def run_all(program, tally):
    """Runs all of it."""
    stand, counts = Stand(PART, program, tally), [0, 0]
    run_answers(stand)
    run_errors(stand)
    run_usages(stand)
    run_machine(stand)
    for seed in range(CASES):
        run_case(stand, seed, counts)
    tally.note(f"{PART}: questions with an answer, and rules that miss one part", [] if min(counts) > CASES // 6 else [f"only {counts}"])
    run_list_rows(stand)
