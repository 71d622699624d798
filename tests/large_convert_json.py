"""`convert -f json` at the limits. The printed text has none of its own."""

import json

from large import LINE_LIMIT, POLICY_LIMIT, case, full_policy
from program import Wanted, fault

WORDS = ("convert", "-f", "json", "-")


def command(text, runas=None):
    """A command without options and tags."""
    return {"command": text, "options": [], "runas": runas, "tags": []}


def specification(commands, users=("bob",)):
    """A specification of one host group for the host `h`."""
    return {"groups": [{"commands": commands, "hosts": ["h"]}], "users": list(users)}


def text_of(specifications):
    """The text of a policy of these specifications alone."""
    value = {"aliases": [], "defaults": [], "specs": specifications}
    return json.dumps(value, separators=(",", ":"), sort_keys=True).encode() + b"\n"


@case
def json_of_a_policy_at_the_limit():
    return full_policy(), Wanted(text_of([])), *WORDS


@case
def json_of_a_policy_one_byte_past_the_limit():
    return full_policy() + b"\n", fault("-: TooLarge"), *WORDS


@case
def json_of_six_thousand_and_one_commands():
    """The printed line would pass its limit, but JSON has none."""
    root = {"groups": None, "users": ["root"]}
    return b"bob h=(root)/b" + b",/b" * 6_000 + b"\n", Wanted(text_of([specification(6_001 * [command("/b", root)])])), *WORDS


@case
def json_of_a_line_that_would_be_printed_past_the_limit():
    argument = "x" * (LINE_LIMIT - len("bob h=/b \n"))
    return f"bob h=/b {argument}\n".encode(), Wanted(text_of([specification([command("/b " + argument)])])), *WORDS


@case
def json_of_many_short_lines():
    """The output is more than ten times as long as a policy may be."""
    count = POLICY_LIMIT // len(b"a h=/c\n")
    return b"a h=/c\n" * count, Wanted(text_of(count * [specification([command("/c")], "a")])), *WORDS
