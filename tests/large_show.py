"""`show` at the limits."""

from large import (
    ALIAS_LIMIT,
    INPUT_LIMIT,
    KINDS,
    LINE_LIMIT,
    POLICY_LIMIT,
    SMALL,
    case,
    comment,
    definitions,
    definitions_in_one_line,
    full_policy,
)
from program import Wanted, fault


def shown(policy, text):
    """What `show` writes of a policy."""
    return policy, Wanted(text), "show", "-"


def not_shown(policy, text):
    """A policy with an error: `show` prints this text."""
    return policy, fault(text), "show", "-"


@case
def show_of_a_policy_at_the_limit():
    lines = range(1, POLICY_LIMIT // LINE_LIMIT + 1)
    return shown(full_policy(), b"".join(b"%d comment %d\n" % (number, number) for number in lines))


@case
def show_of_a_policy_one_byte_past_the_limit():
    return not_shown(full_policy() + b"\n", "-: TooLarge")


@case
def show_of_a_policy_far_past_the_limit():
    return not_shown(b"bob ALL=ALL\n" * (INPUT_LIMIT // 4), "-: TooLarge")


@case
def policy_past_the_limit_comes_before_other_errors_of_show():
    return not_shown(b"bob\n\0" + full_policy(), "-: TooLarge")


@case
def show_of_a_line_past_the_limit():
    return not_shown(b"bob\n" + comment(LINE_LIMIT + 1), "-:2:1: line too long")


@case
def show_of_a_line_at_the_limit():
    line = b"bob ALL=ALL"
    policy = line + b"\\\n" * ((LINE_LIMIT - len(line)) // 2) + b"\n" + SMALL
    return shown(policy, b"1 spec 1\n2 comment %d\n" % (policy.count(b"\n")))


@case
def show_of_very_many_lines():
    count = POLICY_LIMIT // 12
    lines = b"".join(b"%d spec %d\n" % (number, number) for number in range(1, count + 1))
    return shown(b"bob ALL=ALL\n" * count, lines)


@case
def show_of_very_many_definitions():
    policy = b"".join(definitions(kind, ALIAS_LIMIT) for kind in KINDS)
    names = [b"%s A%d" % (kind, number) for kind in KINDS for number in range(1, ALIAS_LIMIT + 1)]
    lines = b"".join(b"%d alias %d\n%d.1 %s 1\n" % (n, n, n, name) for n, name in enumerate(names, 1))
    return shown(policy, lines)


@case
def show_of_very_many_definitions_in_one_line():
    lines = (b"1.%d User_Alias A%d 1\n" % (number, number) for number in range(1, ALIAS_LIMIT + 1))
    return shown(definitions_in_one_line(b"User_Alias", ALIAS_LIMIT), b"1 alias 1\n" + b"".join(lines))


@case
def show_of_one_definition_too_many():
    return not_shown(definitions(b"User_Alias", ALIAS_LIMIT + 1), "-: too many User_Alias")


@case
def show_of_very_many_members():
    line = b"Cmnd_Alias A = /a" + b",/a" * 20_000 + b"\n"
    return shown(line, b"1 alias 1\n1.1 Cmnd_Alias A 20001\n")
