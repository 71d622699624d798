"""`list` with a command whose arguments are long, and patterns whose parts between two `*` are long."""

from large import case
from large_list import answered
from program import Wanted

TURNS = "abcdefghijklmnopqrstuvwxyz" * 1_000


def asked(pattern, arguments, matches):
    """The question whether these arguments match this pattern."""
    policy = b"bob ALL=/a " + pattern.encode() + b"\n"
    return answered(Wanted(b"/a " + arguments.encode() + b"\n") if matches else Wanted(status=1), ("-", "/a", arguments), policy)


@case
def part_that_stands_at_the_end_alone():
    return asked("*" + "a" * 30_000 + "b*", "a" * 60_000 + "b", True)


@case
def part_that_differs_in_its_last_byte():
    return asked("*" + "a" * 30_000 + "b*", "a" * 60_000, False)


@case
def part_that_differs_in_its_middle():
    return asked("*" + "a" * 15_000 + "b" + "a" * 15_000 + "*", "a" * 60_000, False)


@case
def escaped_part_that_stands_behind_many_places():
    return asked("*" + r"\a" * 300 + r"\b*", "a" * 20_000 + "b" + "a" * 20_000, True)


@case
def escaped_part_that_differs_in_its_last_byte():
    return asked("*" + r"\a" * 20_000 + r"\b*", "a" * 60_000, False)


@case
def part_of_wildcards_for_one_byte():
    return asked("*" + "?" * 30_000 + "b*", "a" * 60_000 + "b", True)


@case
def part_of_wildcards_that_is_longer_than_the_text():
    return asked("*" + "?" * 30_001 + "*", "a" * 30_000, False)


@case
def part_of_wildcards_that_is_as_long_as_the_text():
    return asked("*" + "?" * 30_000 + "*", "a" * 30_000, True)


@case
def sets_in_turn_behind_many_places():
    return asked("*" + "[a-c][!a-c]" * 129 + "*", "a" * 20_000 + "az" * 129, True)


@case
def sets_in_turn_of_which_the_last_differs():
    return asked("*" + "[a-c][!a-c]" * 128 + "[a-c]z*", "az" * 128 + "a" * 20_000, False)


@case
def two_long_sets_in_turn():
    return asked("*[" + "a" * 30_000 + "][" + "b" * 30_000 + "]*", "a" * 60_000, False)


@case
def part_that_goes_round_in_turns():
    return asked("*[a]" + TURNS[1:20_000] + "*", TURNS * 2, True)


@case
def part_that_goes_round_in_turns_but_once():
    return asked("*[a]" + TURNS[1:20_000] + "A*", TURNS * 2, False)


@case
def part_that_fits_at_the_last_place_alone():
    return asked("*" + "?" * 10 + r"\b" + "[c]" * 300 + "*", "a" * 20_000 + "b" + "c" * 300, True)


@case
def part_that_lacks_a_byte_at_the_last_place():
    return asked("*" + "?" * 10 + r"\b" + "[c]" * 300 + "*", "a" * 20_000 + "b" + "c" * 299, False)


@case
def second_part_behind_many_places():
    return asked("*[x]y*" + "[a]" * 257 + "b*c", "a" * 5_000 + "xy" + "a" * 5_000 + "bc", True)


@case
def second_part_that_stands_before_the_first_alone():
    return asked("*[x]y*" + "[a]" * 257 + "b*c", "a" * 5_000 + "b" + "a" * 5_000 + "xyc", False)


@case
def brackets_of_which_none_begins_a_set():
    return asked("*" + "[-" * 32_000 + r"\]", "[-" * 31_000 + "[-" * 1_000 + "]", True)


@case
def brackets_that_the_text_lacks():
    return asked("*" + "[-" * 32_000 + r"\]*", "[-" * 31_000, False)


@case
def stars_before_brackets_of_which_none_begins_a_set():
    return asked(r"*[\]" * 8_000, "[]" * 16_000, True)


@case
def set_that_the_first_of_many_brackets_begins():
    return asked(r"*[\]" * 100 + "[a-c]*", "[]" * 100 + "b", True)
