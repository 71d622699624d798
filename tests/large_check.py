"""`check` at the limits."""

from large import (
    ALIAS_LIMIT,
    INPUT_LIMIT,
    KINDS,
    LINE_LIMIT,
    POLICY_LIMIT,
    case,
    chain,
    comment,
    cycle,
    definitions,
    full_policy,
    used_chain,
)
from program import Wanted


def checked(policy, notes):
    """What `check` writes of a policy that is fine: these notes, without the name of the file, and one line."""
    return policy, Wanted(b"".join(b"-:" + note + b"\n" for note in notes) + b"-: parsed OK\n"), "check", "-"


def checked_strictly(policy, notes):
    """What `check -s` writes of a policy that has errors."""
    text = b"".join(b"-:" + note + b"\n" for note in notes) + b"-: faults found\n"
    return policy, Wanted(text, status=1), "check", "-s", "-"


def not_checked(policy, text):
    """A policy with an error: `check` prints this text on standard output."""
    return policy, Wanted(text.encode() + b"\n", status=1), "check", "-"


def noted(word, kind, count, before=0):
    """A note of each of so many aliases of a kind: each is defined in a line of its own, after so many lines."""
    column = len(kind) + 2
    return [b"%d:%d: %s %s A%d" % (before + n, column, word, kind, n) for n in range(1, count + 1)]


@case
def check_of_a_policy_at_the_limit():
    return checked(full_policy(), [])


@case
def check_of_a_policy_one_byte_past_the_limit():
    return not_checked(full_policy() + b"\n", "-: TooLarge")


@case
def check_of_a_policy_far_past_the_limit():
    return not_checked(b"bob ALL=ALL\n" * (INPUT_LIMIT // 4), "-: TooLarge")


@case
def quiet_check_of_a_policy_at_the_limit():
    return full_policy(), Wanted(), "check", "-q", "-"


@case
def quiet_check_of_a_policy_one_byte_past_the_limit():
    return full_policy() + b"\n", Wanted(status=1), "check", "-q", "-"


@case
def policy_past_the_limit_comes_before_other_errors_of_check():
    return not_checked(b"bob\n\0" + full_policy(), "-: TooLarge")


@case
def check_of_a_line_past_the_limit():
    return not_checked(b"bob\n" + comment(LINE_LIMIT + 1), "-:2:1: line too long")


@case
def check_of_one_definition_too_many():
    return not_checked(definitions(b"User_Alias", ALIAS_LIMIT + 1), "-: too many User_Alias")


@case
def check_of_very_many_lines():
    return checked(b"bob ALL=ALL\n" * (POLICY_LIMIT // 12), [])


@case
def check_of_a_chain_of_as_many_aliases_as_allowed():
    return checked(used_chain(), [])


@case
def check_of_a_chain_of_as_many_aliases_as_allowed_that_is_not_used():
    return checked(chain(b"Cmnd_Alias", ALIAS_LIMIT), noted(b"unused", b"Cmnd_Alias", ALIAS_LIMIT))


@case
def check_of_a_cycle_of_as_many_aliases_as_allowed():
    policy = b"A1 ALL=ALL\n" + cycle(b"User_Alias", ALIAS_LIMIT)
    return checked(policy, noted(b"cyclic", b"User_Alias", ALIAS_LIMIT, 1))


@case
def strict_check_of_a_cycle_of_as_many_aliases_as_allowed_that_is_not_used():
    notes = noted(b"cyclic", b"Host_Alias", ALIAS_LIMIT) + noted(b"unused", b"Host_Alias", ALIAS_LIMIT)
    return checked_strictly(cycle(b"Host_Alias", ALIAS_LIMIT), notes)


@case
def check_of_cycles_of_each_kind():
    policy = b"".join(cycle(kind, ALIAS_LIMIT) for kind in KINDS) + b"A1 A1=(A1) A1\n"
    notes = [noted(b"cyclic", kind, ALIAS_LIMIT, place * ALIAS_LIMIT) for place, kind in enumerate(KINDS)]
    return checked(policy, sum(notes, []))


@case
def check_of_very_many_undefined_names():
    policy, notes = b"", []
    for line in range(1, 9):
        users = b""
        for name in (b"A%d_%d" % (line, number) for number in range(7_500)):
            notes.append(b"%d:%d: undefined User_Alias %s" % (line, len(users) + 1, name))
            users += name + b","
        policy += users + b"bob h=ALL\n"
    return checked(policy, notes)


@case
def check_of_one_undefined_name_that_is_mentioned_very_often():
    line = b"bob h=/a" + b",A" * 30_000 + b"\n"
    return checked(line * 2, [b"1:10: undefined Cmnd_Alias A"])
