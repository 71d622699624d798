"""What a row of a table says of `list`: whose policy, words and files there are, and what is answered.

The policy is standard input, and the program runs in a folder with the files `passwd` and `group`. The words of a row
come after those of the setting `words`, and have FILE in them: `-U bob - /bin/ls -l`.
"""

import re

from cases import Case, NoRow, error_of
from program import Wanted

FILES = ("--passwd", "passwd", "--group-file", "group")

# A reason has a line for the command that decides and, if that is an alias, a line for its member. Each has a place.
PLACE = rb"[^\n]+:[1-9][0-9]*:[1-9][0-9]*: "
REASON = re.compile(PLACE + rb"(allowed|denied) by: [^\n]+\n(?:" + PLACE + rb"in Cmnd_Alias [A-Z][A-Z0-9_]*: [^\n]+\n)?")
NO_RULE = b"no rule matches\n"

# What a row hands in, by itself or by a setting; and what it may have itself.
NAMES = ("words", "asked", "policy", "passwd", "group")
GIVEN = (
    ("asked", "policy"),
    ("asked",),
    ("policy",),
    ("passwd",),
    ("group",),
    ("passwd", "group"),
    ("asked", "passwd"),
    ("asked", "group"),
    ("asked", "policy", "passwd"),
    ("asked", "passwd", "group"),
    ("asked", "policy", "passwd", "group"),
)


def asked(given, wanted):
    """`list` with the words, the policy and the files of a row."""
    words = ("list", *FILES, *given["words"], *given["asked"])
    files = tuple((name, given[name]) for name in ("passwd", "group"))
    return Case("", words, given["policy"], wanted, files=files)


def listed(given, answer):
    """A listing, or what is written of a command that is allowed; nothing is written of one that is not."""
    text = answer[0]
    if text and not text.endswith(b"\n"):
        raise NoRow("an answer ends in `\\n`")
    return asked(given, Wanted(text, status=0 if text else 1))


def reasoned(given, answer):
    """What `--why` writes."""
    text = answer[0]
    reason = REASON.fullmatch(text)
    if reason is None and text != NO_RULE:
        raise NoRow("a reason has the place of a rule, and perhaps that of a member, or it names none; it ends in `\\n`")
    return asked(given, Wanted(text, status=0 if reason and reason[1] == b"allowed" else 1))


def not_listed(given, answer):
    """The error."""
    return asked(given, error_of(answer[0]))


OUTCOMES = {"listed": listed, "why": reasoned, "not listed": not_listed}
