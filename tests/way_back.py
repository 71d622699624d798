"""The way back: what an accepted edit writes is an input of `edit`, and leads back to the policy that it began with."""

import re
from dataclasses import replace

from program import Wanted, run

# The mark, or the place before the header of the first file.
BEGIN = re.compile(rb"^(?:%%\n|(?=%% ))", re.M)
EDITS = ((), (b"edit",))
COUNTS = (b"--undo", b"--redo")


def is_accepted(words, wanted):
    """Whether a case of these words is an edit that is accepted. It may have counts of edits to undo and redo."""
    is_edit = tuple(words) in EDITS or tuple(words[:1]) == EDITS[1] and words[1] in COUNTS
    return is_edit and wanted.status == 0


def policy_of(text):
    """What comes after the first line of an input or output of `edit` that is the mark; or its files, from the first header on."""
    return BEGIN.split(text, maxsplit=1)[-1]


def problems(program, words, stdin, stdout, whole):
    """The lines that say where `stdout`, given as input again, does not lead back to `stdin`.

    It has to give all of it back if it is asked whole, and its policy in any case. No edit of it is undone.
    """
    answer = run(program, words[:1], stdout)
    if not whole:
        stdin, answer = policy_of(stdin), replace(answer, stdout=policy_of(answer.stdout))
    lines = Wanted(stdin).problems(answer)
    return ["the way back:", *lines] if lines else []
