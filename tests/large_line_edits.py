"""Edits of lines at the limits."""

from large import LINE_LIMIT, POLICY_LIMIT, SMALL, accepted, case, comment, full_policy, refused

# ---- the edits ---------------------------------------------------------------


@case
def inserted_line_at_the_line_limit_is_accepted():
    line = comment(LINE_LIMIT)
    return accepted(b"insert 1\n|" + line, SMALL, b"delete 1\n", line + SMALL)


@case
def inserted_line_past_the_line_limit_is_not_one_line():
    return refused(b"insert 1\n|" + comment(LINE_LIMIT + 1), SMALL, "edit 1: NotOneLine")


@case
def inserted_text_past_the_policy_limit_is_not_one_line():
    script = b"insert 1\n|" + comment(POLICY_LIMIT + 1)
    return refused(script, b"", "edit 1: NotOneLine")


@case
def insert_up_to_the_policy_limit_is_accepted():
    policy = full_policy()[LINE_LIMIT:] + comment(LINE_LIMIT - 1)
    return accepted(b"insert 1\n|\n", policy, b"delete 1\n", b"\n" + policy)


@case
def insert_past_the_policy_limit():
    return refused(b"insert 1\n|\n", full_policy(), "edit 1: TooLarge")


@case
def insert_past_the_policy_limit_after_very_many_lines():
    policy = b"bob ALL=ALL\n" * (POLICY_LIMIT // 12) + SMALL
    return refused(b"insert %d\n|\n" % (policy.count(b"\n") + 1), policy, "edit 1: TooLarge")


@case
def insert_of_an_open_line_past_the_policy_limit():
    return refused(b"insert 17\n>#\n", full_policy(), "edit 1: TooLarge")


@case
def insert_after_a_delete_in_a_full_policy_is_accepted():
    line = comment(LINE_LIMIT)
    return accepted(
        b"delete 16\ninsert 1\n|" + line,
        full_policy(),
        b"delete 1\ninsert 16\n|" + line,
        full_policy(),
    )


@case
def second_insert_past_the_policy_limit():
    script = b"delete 1\ninsert 1\n|" + comment(LINE_LIMIT) + b"insert 1\n|\n"
    return refused(script, full_policy(), "edit 3: TooLarge")


@case
def missing_line_comes_before_the_policy_limit():
    return refused(b"insert 18\n|\n", full_policy(), "edit 1: NoLine")


@case
def two_lines_come_before_the_policy_limit():
    return refused(b"insert 1\n|\n|\n", full_policy(), "edit 1: NotOneLine")


@case
def open_line_comes_before_the_policy_limit():
    return refused(b"insert 1\n>#\n", full_policy(), "edit 1: OpenLine")


@case
def policy_limit_comes_before_a_syntax_error():
    return refused(b"insert 1\n|bob\n", full_policy(), "edit 1: TooLarge")


@case
def syntax_error_in_a_policy_at_the_limit():
    policy = full_policy()[LINE_LIMIT:] + comment(LINE_LIMIT - 4)
    return refused(b"insert 1\n|bob\n", policy, "edit 1: NotPolicy: policy:1:4: syntax error: EndOfLine")


@case
def open_last_line_comes_before_the_policy_limit():
    policy = full_policy()[:-1] + b"#"
    return refused(b"insert 17\n|\n", policy, "edit 1: OpenLine")


# ---- moves and the end of the last line --------------------------------------


@case
def move_of_a_line_at_the_line_limit_is_accepted():
    line = comment(LINE_LIMIT)
    return accepted(b"move 1 2\n", line + SMALL, b"move 2 1\n", SMALL + line)


@case
def move_in_a_full_policy_is_accepted():
    first, rest = SMALL, full_policy()[LINE_LIMIT:] + comment(LINE_LIMIT - len(SMALL))
    return accepted(b"move 1 17\n", first + rest, b"move 17 1\n", rest + first)


@case
def move_over_very_many_lines_is_accepted():
    count = POLICY_LIMIT // 4
    script, inverse = b"move %d 1\n" % count, b"move 1 %d\n" % count
    return accepted(script, SMALL * (count - 1) + b"# b\n", inverse, b"# b\n" + SMALL * (count - 1))


@case
def move_after_the_last_of_very_many_lines():
    count = POLICY_LIMIT // 4
    return refused(b"move 1 %d\n" % (count + 1), SMALL * count, "edit 1: NoLine")


@case
def endline_up_to_the_line_limit_is_accepted():
    line = comment(LINE_LIMIT)
    return accepted(b"endline\n", SMALL + line[:-1], b"openend\n", SMALL + line)


@case
def endline_past_the_line_limit():
    return refused(b"endline\n", b"#" * LINE_LIMIT, "edit 1: TooLarge")


@case
def endline_past_the_line_limit_after_other_lines():
    return refused(b"endline\n", SMALL + b"#" * LINE_LIMIT, "edit 1: TooLarge")


@case
def endline_up_to_the_policy_limit_is_accepted():
    return accepted(b"endline\n", full_policy()[:-1], b"openend\n", full_policy())


@case
def endline_past_the_policy_limit():
    policy = full_policy()[LINE_LIMIT:] + comment(LINE_LIMIT - 1) + b"#"
    return refused(b"endline\n", policy, "edit 1: TooLarge")


@case
def line_end_that_is_there_comes_before_the_policy_limit():
    return refused(b"endline\n", full_policy(), "edit 1: EndAsIs")


@case
def line_end_that_is_there_comes_before_the_line_limit():
    return refused(b"endline\n", SMALL + comment(LINE_LIMIT), "edit 1: EndAsIs")


@case
def openend_in_a_full_policy_is_accepted():
    return accepted(b"openend\n", full_policy(), b"endline\n", full_policy()[:-1])
