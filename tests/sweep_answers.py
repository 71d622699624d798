"""The sweep's conversions and answers: what `convert` prints, and what a rename, a prune or edits leave, answers as it has to.

A row that decides is that of the program `cases`: it has the place of the rule, its tags and its options. A policy of several
files is asked as `convert` prints it; sweep_runs.py asks some of them as they are.
"""

import re

from grown_edits import script_of
from grown_questions import People, questions_of
from printed import printed_text
from program import Wanted, fault

CONVERT = ("convert", "-f", "sudoers")
QUESTIONS = 3
PLACE = re.compile(r"(allow|deny) (\d+\.\d+)\.\d+")


def convert_all(ground, policies):
    """Converts each policy as it is and with `-e`, and what was printed once more: that prints the same."""
    for policy in policies:
        printed, policy.expanded = ground.run(policy, CONVERT), ground.run(policy, (*CONVERT, "-e"))
        again = ground.run_text(printed.stdout, CONVERT)
        policy.problems += [f"convert: {line}" for line in Wanted(None).problems(printed)]
        policy.problems += [f"convert twice: {line}" for line in Wanted(printed.stdout).problems(again)]
        policy.printed = printed.stdout


def texts_of(policy):
    """Returns the texts that have to give the same row as the policy, by what was done: first the policy itself."""
    texts = {"policy": policy.files[0][1] if policy.is_alone else policy.printed}
    if policy.expanded.status == 0:
        texts["expanded"] = policy.expanded.stdout
    if policy.is_alone:
        texts["printed"] = policy.printed
        texts.update((what, files[0][1]) for what, files in policy.versions.items())
    return texts


def frames_of(policy):
    """Yields the frames of all questions about a policy: each with its question, and what it is asked of."""
    for number, question in enumerate(policy.questions):
        for what, text in texts_of(policy).items():
            yield (number, what), question.frame(policy.people, text)
        if policy.is_alone and policy.accepted:
            yield (number, "edits"), question.frame(policy.people, policy.files[0][1], script_of(policy.accepted))
            yield (number, "edited"), question.frame(policy.people, policy.edited[0][1])
    if policy.is_alone:
        for what, text in (("listing", policy.files[0][1]), ("listing of printed", policy.printed)):
            yield (0, what), policy.questions[0].listing(policy.people, text)


def without_member(row):
    """Returns a row without the number of its command, which is another where aliases are replaced by their members."""
    return PLACE.sub(r"\1 \2", row)


def note_answers(sweep, policy, said):
    """Notes what differs in the answers to the questions about a policy."""
    for number, question in enumerate(policy.questions):
        row = said[number, "policy"]
        policy.rows.append(row)
        sweep.counts[f"rows: {row.split(' ')[0]}"] += 1
        for what in texts_of(policy):
            came = said[number, what]
            sweep.counts["answers compared"] += what != "policy"
            if what == "expanded":
                policy.wants(f"the answer to {question} when expanded", without_member(row), without_member(came))
            else:
                policy.wants(f"the answer to {question} of {what}", row, came)
        if (number, "edits") in said:
            sweep.counts["answers compared"] += 1
            policy.wants(f"the answer to {question} after edits", said[number, "edited"], said[number, "edits"])
    if policy.is_alone:
        sweep.counts["listings compared"] += 1
        policy.wants("the listing of what is printed", said[0, "listing"], said[0, "listing of printed"])
        policy.listing = printed_text(said[0, "listing"])


def note_expansion(sweep, policy):
    """Notes where `convert -e` ends in another error than in `Cycle`, or in that of a policy without a cycle, or not in that of one with it."""
    is_cyclic = set(policy.rows) == {"Cycle"}
    sweep.counts["cycles"] += is_cyclic
    wanted = fault("Cycle") if is_cyclic else Wanted(None)
    policy.problems += [f"convert -e: {line}" for line in wanted.problems(policy.expanded)]


def answer_all(sweep, policies):
    """Draws questions about each policy, and compares the answers of all that has to answer as it does."""
    frames = []
    for policy in policies:
        text = b"".join(text for _, text in policy.files)
        policy.people = People(text)
        policy.questions = questions_of(policy.draw, policy.people, text, QUESTIONS)
        frames += [(policy, key, frame) for key, frame in frames_of(policy)]
    answers = sweep.ask([(frame, 1) for _, _, frame in frames])
    said = {policy.number: {} for policy in policies}
    for (policy, key, _), (line,) in zip(frames, answers):
        said[policy.number][key] = line
    for policy in policies:
        note_answers(sweep, policy, said[policy.number])
        note_expansion(sweep, policy)
