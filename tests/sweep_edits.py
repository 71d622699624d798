"""The sweep's questions to the libraries: what is loaded, what edits do, and what takes them back."""

from changed_files import drawn_named, eight, frame_of
from edited_files import EDITOR, LOADED
from grown_edits import Editing, script_of
from policies import bytes_of, drawn_files, drawn_outcome
from printed import printed_fault, printed_refusal
from tables import call

NAMED, LINES, REPORT, STRICT = call(b"N"), call(b"n"), call(b"p"), call(b"p", b"s")
UNDO, REDO, INVERSE, STEPS = call(b"-"), call(b">"), call(b"<"), call(b"s")
LOADING = [NAMED, LINES, REPORT, STRICT]
TEXT = b"t"
DONE, YES, NO = "Ok(())", "Ok(true)", "Ok(false)"

# Why an edit may be refused (docs/editing.md).
REFUSALS = {"NoFile", "NoLine", "NotOneLine", "OpenLine", "NoAlias", "NoPlace", "OnlyOne", "BadName", "NameTaken", "BadSplice", "EndAsIs"}


def said_of(files):
    """Returns what the libraries say of the names and texts of these files."""
    return "".join(f"{list(name)}\t{list(text)}\t" for name, text in files)


def gather_all(sweep, policies):
    """Puts the files of each policy into the order in which they are gathered from the first one, where that leads to all."""
    frames = [(frame_of(policy.files, [call(b"g", eight(0) + policy.files[0][0])], TEXT), 1) for policy in policies]
    for policy, (line,) in zip(policies, sweep.ask(frames)):
        names = [bytes_of(one.rpartition(":")[0]) for one in line.split("\t")[:-1] if one.startswith("[")]
        files = dict(policy.files)
        policy.is_gathered = len(names) == len(policy.files) and set(names) == set(files)
        if policy.is_gathered:
            policy.files = tuple((name, files[name]) for name in names)


def load_all(sweep, policies):
    """Loads each policy: it is read byte for byte, and its lines joined are its texts; or it is refused for a cause with a name."""
    frames = [(frame_of(policy.files, LOADING, LOADED), len(LOADING)) for policy in policies]
    for policy, answers in zip(policies, sweep.ask(frames)):
        named, lines, report, strict = answers
        if report.startswith("["):
            policy.wants("files", said_of(policy.files), named)
            policy.wants("lines", list(policy.files), drawn_files(lines))
            policy.report, policy.strict = bytes_of(report), bytes_of(strict)
            continue
        policy.fault = printed_fault(named)
        policy.wants("an error with a name", True, policy.fault is not None)
        policy.wants("the error in place of each answer", [named] * len(answers), answers)
        policy.fault = policy.fault or b"no error"


def calls_of(policy):
    """Returns the calls of an editor that makes the edits of a policy one by one, takes all back and makes them again."""
    count = len(policy.edits)
    made = [one for edit in policy.edits for one in (call(b"1", edit.alone()), NAMED)]
    return [NAMED, *made, INVERSE, STEPS, *[UNDO] * count, NAMED, *[REDO] * count, NAMED]


def note_edits(sweep, policy, answers):
    """Notes what edits did one by one: a refused one changes nothing, and all that were made are undone and made again."""
    begun, count = answers[0], len(policy.edits)
    turns, rest = answers[1 : 2 * count + 1], answers[2 * count + 1 :]
    states = [begun]
    for edit, outcome, state in zip(policy.edits, turns[::2], turns[1::2]):
        is_made = outcome == DONE
        sweep.counts["edits accepted" if is_made else "edits refused"] += 1
        if is_made:
            policy.accepted.append(edit)
            states.append(state)
            continue
        why = drawn_outcome(outcome).partition(",")[0]
        policy.wants(f"a known cause of {edit.text}", True, why in REFUSALS or why in ("NotPolicy", "TooLarge"))
        policy.wants(f"files after the refused edit {edit.text}", states[-1], state)
        sweep.counts[f"refused as {why}"] += 1
    made, none = len(policy.accepted), count - len(policy.accepted)
    policy.wants("steps", str(made), rest[1])
    policy.wants("undos", [YES] * made + [NO] * none, rest[2 : 2 + count])
    policy.wants("files after all undos", begun, rest[2 + count])
    policy.wants("redos", [YES] * made + [NO] * none, rest[3 + count : 3 + 2 * count])
    policy.wants("files after all redos", states[-1], rest[3 + 2 * count])
    policy.inverse, policy.edited = bytes_of(rest[0]), tuple(drawn_named(states[-1]))
    return turns[::2]


def note_script(policy, outcomes, answers):
    """Notes what the script of all edits does: it stops at the first edit that is refused alone too."""
    refused = [at for at, outcome in enumerate(outcomes) if outcome != DONE]
    if not refused:
        policy.wants("the script of all edits", DONE, answers[0])
        return
    cause = outcomes[refused[0]].removeprefix("Err(").removesuffix(")")
    policy.wants("the script of all edits", f"Err(({refused[0]}, {cause}))", answers[0])
    policy.refusal = printed_refusal(answers[0])


def edit_all(sweep, policies):
    """Draws edits for each policy, and makes them."""
    for policy in policies:
        editing = Editing(policy.draw, policy.files, sweep.seeds)
        policy.edits, policy.rename = editing.edits(), editing.rename()
    frames = []
    for policy in policies:
        calls = calls_of(policy)
        frames.append((frame_of(policy.files, calls, EDITOR), len(calls)))
        frames.append((frame_of(policy.files, [call(b"+", script_of(policy.edits))], EDITOR), 1))
    answers = sweep.ask(frames)
    for policy, alone, together in zip(policies, answers[::2], answers[1::2]):
        note_script(policy, note_edits(sweep, policy, alone), together)


def edit_back(sweep, policies):
    """Has the undo scripts lead back, and their own undo scripts be the edits that were made."""
    frames = []
    for policy in policies:
        calls = [call(b"+", policy.inverse), NAMED, INVERSE]
        frames.append((frame_of(policy.edited, calls, EDITOR), len(calls)))
    for policy, (outcome, named, inverse) in zip(policies, sweep.ask(frames)):
        policy.wants("the undo script", DONE, outcome)
        policy.wants("files after the undo script", said_of(policy.files), named)
        if not prunes(policy):
            policy.wants("the undo script of the undo script", str(list(script_of(policy.accepted))), inverse)


def prunes(policy):
    """Whether an edit of a policy that was made is `prune`."""
    return any(edit.text == b"prune\n" for edit in policy.accepted)


def keep_answers(sweep, policies):
    """Makes the rename of each policy, and a prune: what an accepted one leaves has to answer as the policy does."""
    frames = []
    for policy in policies:
        for script in (policy.rename.alone(), b"prune\n"):
            frames.append((frame_of(policy.files, [call(b"1", script), NAMED], EDITOR), 2))
    answers = sweep.ask(frames)
    for policy, renamed, pruned in zip(policies, answers[::2], answers[1::2]):
        for what, (outcome, named) in (("rename", renamed), ("prune", pruned)):
            changed = named != said_of(policy.files)
            if outcome == DONE:
                policy.versions[what] = tuple(drawn_named(named))
            sweep.counts[f"{what} accepted" if outcome == DONE and changed else f"{what} of nothing or refused"] += 1
