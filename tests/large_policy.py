"""Inputs of `edit`, policies, lines and definitions at their limits."""

from large import (
    ALIAS_LIMIT,
    INPUT_LIMIT,
    KINDS,
    LINE_LIMIT,
    MARK,
    POLICY_LIMIT,
    SMALL,
    accepted,
    case,
    comment,
    definitions,
    definitions_in_one_line,
    full_policy,
    refused,
    unchanged,
)
from program import Wanted, fault

# ---- the input ---------------------------------------------------------------


def input_of_size(size):
    """An input of `size` bytes that is its own answer.

    Each inserted line is deleted at once, so the text stays and the inverse is
    the script itself.
    """
    pair = b"insert 1\n|" + comment(LINE_LIMIT) + b"delete 1\n"
    script = pair * ((size - POLICY_LIMIT + LINE_LIMIT) // len(pair) + 1)
    rest = size - len(script) - len(MARK)
    policy = comment(LINE_LIMIT) * (rest // LINE_LIMIT) + comment(rest % LINE_LIMIT)
    return script + MARK + policy


@case
def input_at_the_limit_is_read():
    text = input_of_size(INPUT_LIMIT)
    return text, Wanted(text)


@case
def input_past_the_limit():
    return input_of_size(INPUT_LIMIT + 1), fault("InputTooLarge")


@case
def input_at_the_limit_without_a_mark():
    return b"#" * INPUT_LIMIT, fault("NoMark")


@case
def input_past_the_limit_comes_before_no_mark():
    return b"#" * (INPUT_LIMIT + 1), fault("InputTooLarge")


@case
def input_past_the_limit_comes_before_script_errors():
    return b"erase\n" + MARK + b"#" * INPUT_LIMIT, fault("InputTooLarge")


@case
def input_past_the_limit_comes_before_policy_errors():
    return MARK + b"\0" * INPUT_LIMIT, fault("InputTooLarge")


# ---- the policy --------------------------------------------------------------


@case
def policy_at_the_limit_is_read():
    return unchanged(full_policy())


@case
def policy_one_byte_past_the_limit():
    return refused(b"", full_policy() + b"\n", "policy: TooLarge")


@case
def policy_past_the_limit_comes_before_nul():
    return refused(b"", b"\0" + full_policy(), "policy: TooLarge")


@case
def policy_past_the_limit_comes_before_a_long_line():
    return refused(b"", b"#" * (POLICY_LIMIT + 1), "policy: TooLarge")


@case
def policy_past_the_limit_comes_before_an_open_continuation():
    return refused(b"", full_policy() + b"\\", "policy: TooLarge")


@case
def script_error_comes_before_a_policy_past_the_limit():
    return refused(b"erase\n", full_policy() + b"\n", "script:1: BadWord")


@case
def policy_of_empty_lines_alone_is_read():
    return unchanged(b"\n" * POLICY_LIMIT)


@case
def last_of_very_many_lines_is_deleted():
    script = b"delete %d\n" % POLICY_LIMIT
    inverse = b"insert %d\n|\n" % POLICY_LIMIT
    return accepted(script, b"\n" * POLICY_LIMIT, inverse, b"\n" * (POLICY_LIMIT - 1))


# ---- the line ----------------------------------------------------------------


@case
def line_at_the_limit_is_read():
    return unchanged(SMALL + comment(LINE_LIMIT) + SMALL)


@case
def open_line_at_the_limit_is_read():
    return unchanged(SMALL + b"#" * LINE_LIMIT)


@case
def line_past_the_limit():
    return refused(b"", comment(LINE_LIMIT + 1), "policy:1:1: line too long")


@case
def open_line_past_the_limit():
    return refused(b"", SMALL + b"#" * (LINE_LIMIT + 1), "policy:2:1: line too long")


@case
def line_of_many_pieces_at_the_limit_is_read():
    line = b"bob ALL=ALL"
    return unchanged(line + b"\\\n" * ((LINE_LIMIT - len(line)) // 2) + b"\n" + SMALL)


@case
def line_of_many_pieces_past_the_limit():
    long = b"x\\\n" * (LINE_LIMIT // 3) + b"x\n"
    return refused(b"", SMALL + long + SMALL, "policy:2:1: line too long")


@case
def long_line_has_the_place_of_its_first_piece():
    policy = b"bob \\\n\\\nALL=ALL\n" + b"x \\\n" + b"y" * LINE_LIMIT + b"\n"
    return refused(b"", policy, "policy:4:1: line too long")


@case
def error_names_the_first_of_two_long_lines():
    policy = SMALL + comment(LINE_LIMIT + 1) + comment(LINE_LIMIT + 1)
    return refused(b"", policy, "policy:2:1: line too long")


@case
def nul_inside_the_line_limit_comes_before_a_long_line():
    policy = b"#" * (LINE_LIMIT - 1) + b"\0#\n"
    return refused(b"", policy, f"policy: NUL at byte {LINE_LIMIT - 1}")


@case
def long_line_comes_before_nul_just_past_the_line_limit():
    policy = b"#" * LINE_LIMIT + b"\0\n"
    return refused(b"", policy, "policy:1:1: line too long")


@case
def long_line_comes_before_nul_after_it():
    policy = comment(LINE_LIMIT + 1) + b"\0\n"
    return refused(b"", policy, "policy:1:1: line too long")


@case
def nul_on_a_line_before_a_long_line_comes_before_it():
    policy = b"\0\n" + comment(LINE_LIMIT + 1)
    return refused(b"", policy, "policy: NUL at byte 0")


@case
def continuation_at_the_line_limit_ends_the_policy():
    policy = b"x" * (LINE_LIMIT - 2) + b"\\\n"
    return refused(b"", policy, "policy: OpenContinuation")


@case
def long_line_comes_before_an_open_continuation():
    policy = b"x" * (LINE_LIMIT - 1) + b"\\\n"
    return refused(b"", policy, "policy:1:1: line too long")


# ---- the definitions ---------------------------------------------------------

@case
def policy_of_as_many_definitions_as_allowed_is_read():
    return unchanged(b"".join(definitions(kind, ALIAS_LIMIT) for kind in KINDS))


@case
def policy_of_as_many_definitions_of_a_kind_as_allowed_is_read():
    return unchanged(definitions(b"Host_Alias", ALIAS_LIMIT, b"h"))


@case
def policy_with_one_definition_too_many():
    return refused(b"", definitions(b"Host_Alias", ALIAS_LIMIT + 1, b"h"), "policy: too many Host_Alias")


@case
def definitions_of_both_words_of_commands_count_together():
    policy = definitions(b"Cmd_Alias", ALIAS_LIMIT) + b"Cmnd_Alias B = ALL\n"
    return refused(b"", policy, "policy: too many Cmnd_Alias")


@case
def line_with_one_definition_too_many():
    return refused(b"", definitions_in_one_line(b"User_Alias", ALIAS_LIMIT + 1), "policy: too many User_Alias")


@case
def insert_of_the_last_definition_allowed_is_accepted():
    policy, line = definitions(b"Runas_Alias", ALIAS_LIMIT - 1), b"Runas_Alias B = ALL\n"
    return accepted(b"insert 1\n|" + line, policy, b"delete 1\n", line + policy)


@case
def insert_of_one_definition_too_many():
    policy = definitions(b"Runas_Alias", ALIAS_LIMIT)
    script = b"insert 1\n|Runas_Alias B = ALL\n"
    return refused(script, policy, "edit 1: NotPolicy: policy: too many Runas_Alias")


@case
def insert_of_a_definition_after_a_delete_in_a_full_kind_is_accepted():
    policy = definitions(b"User_Alias", ALIAS_LIMIT)
    line = b"User_Alias A1 = ALL\n"
    return accepted(
        b"delete 1\ninsert %d\n|" % ALIAS_LIMIT + line,
        policy,
        b"delete %d\ninsert 1\n|" % ALIAS_LIMIT + line,
        policy.removeprefix(line) + line,
    )


@case
def insert_of_a_definition_of_another_kind_is_accepted():
    policy, line = definitions(b"User_Alias", ALIAS_LIMIT), b"Host_Alias A1 = ALL\n"
    return accepted(b"insert 1\n|" + line, policy, b"delete 1\n", line + policy)


@case
def reserved_word_comes_before_one_definition_too_many():
    policy = definitions(b"Cmnd_Alias", ALIAS_LIMIT) + b"Cmnd_Alias ALL = ALL : B = ALL\n"
    return refused(b"", policy, "policy: Cmnd_Alias ALL reserved")


@case
def one_definition_too_many_comes_before_a_reserved_word_after_it():
    policy = definitions(b"Cmnd_Alias", ALIAS_LIMIT) + b"Cmnd_Alias B = ALL : ALL = ALL\n"
    return refused(b"", policy, "policy: too many Cmnd_Alias")
