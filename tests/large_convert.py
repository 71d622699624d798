"""`convert -f sudoers` at the limits of the policy that is read and of the one that is printed."""

from large import ALIAS_LIMIT, KINDS, LINE_LIMIT, POLICY_LIMIT, case, definitions, full_policy
from program import Wanted, fault

# each command inherits the Runas_Spec, so its three bytes become eleven
SHORT, LONG = b",/b", b", (root) /b"


def printed(policy, text):
    """What `convert` prints of a policy."""
    return policy, Wanted(text), "convert", "-f", "sudoers", "-"


def not_printed(policy, text):
    """A policy that is not printed, and the error."""
    return policy, fault(text), "convert", "-f", "sudoers", "-"


def commands(count):
    """A specification of so many commands, short and printed."""
    return b"bob h=(root)/b" + SHORT * (count - 1) + b"\n", b"bob h = (root) /b" + LONG * (count - 1) + b"\n"


def printed_line(size):
    """A line of `size` bytes that is printed as it is."""
    begin = b"bob h = /b "
    return begin + b"x" * (size - len(begin) - 1) + b"\n"


@case
def sudoers_of_a_policy_at_the_limit():
    return printed(full_policy(), b"")


@case
def sudoers_of_a_policy_one_byte_past_the_limit():
    return not_printed(full_policy() + b"\n", "-: TooLarge")


@case
def sudoers_of_a_line_past_the_limit():
    return not_printed(b"# a\n" + printed_line(LINE_LIMIT + 1), "-:2:1: line too long")


@case
def sudoers_of_a_line_that_is_printed_at_the_limit():
    line = printed_line(LINE_LIMIT)
    return printed(line, line)


@case
def sudoers_of_a_line_that_grows_to_the_limit():
    line = printed_line(LINE_LIMIT)
    return printed(line.replace(b" = ", b"=", 1), line)


@case
def sudoers_of_a_line_that_grows_past_the_limit():
    return not_printed(printed_line(LINE_LIMIT + 1).replace(b" = ", b"=", 1), "TooLarge")


@case
def sudoers_of_commands_whose_line_is_within_the_limit():
    """The printed line has 65,534 bytes, and one command more has eleven."""
    short, line = commands(5_957)
    return printed(short, line)


@case
def sudoers_of_commands_whose_line_passes_the_limit():
    short, _ = commands(5_958)
    return not_printed(short, "TooLarge")


@case
def sudoers_of_six_thousand_and_one_commands():
    short, _ = commands(6_001)
    return not_printed(short, "TooLarge")


@case
def sudoers_of_definitions_whose_lines_are_within_the_limit():
    """The text of one line becomes several lines, each within the limit."""
    long = b"/b " + b"x" * 30_000
    policy = b"Cmnd_Alias A = %s : B = %s\n" % (long, long)
    return printed(policy, b"Cmnd_Alias A = %s\nCmnd_Alias B = %s\n" % (long, long))


@case
def sudoers_of_a_text_that_is_printed_at_the_limit():
    text = printed_line(LINE_LIMIT) * (POLICY_LIMIT // LINE_LIMIT)
    return printed(text, text)


@case
def sudoers_of_a_text_that_grows_to_the_limit():
    text = printed_line(LINE_LIMIT) * (POLICY_LIMIT // LINE_LIMIT)
    return printed(text.replace(b" = ", b"="), text)


@case
def sudoers_of_a_text_that_grows_one_byte_past_the_limit():
    """The policy has one byte less than the limit."""
    line = printed_line(LINE_LIMIT)
    rest = printed_line(LINE_LIMIT - 20) + printed_line(21)
    text = line * (POLICY_LIMIT // LINE_LIMIT - 1) + rest
    return not_printed(text.replace(b" = ", b"=", 1), "TooLarge")


@case
def sudoers_of_lines_that_grow_past_the_limit_of_a_text():
    short, line = commands(5_900)
    count = POLICY_LIMIT // len(line) + 1
    return not_printed(short * count, "TooLarge")


@case
def sudoers_of_a_last_line_that_gets_its_line_end():
    line = printed_line(LINE_LIMIT)
    return printed(line[:-1], line)


@case
def sudoers_of_as_many_definitions_as_there_may_be():
    text = b"".join(definitions(kind, ALIAS_LIMIT) for kind in KINDS)
    return printed(text, text)


@case
def sudoers_of_a_definition_too_many():
    return not_printed(definitions(KINDS[2], ALIAS_LIMIT + 1), "-: too many Host_Alias")


@case
def sudoers_of_many_short_lines():
    return printed(b"a b=/c\n" * 100_000, b"a b = /c\n" * 100_000)
