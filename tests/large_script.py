"""Scripts at the limit of edits."""

from large import EDIT_LIMIT, SMALL, accepted, case, many_edits, refused


@case
def script_of_as_many_edits_as_allowed_is_accepted():
    return accepted(many_edits(), SMALL, many_edits(), SMALL)


@case
def script_with_one_delete_too_many():
    return refused(many_edits() + b"delete 1\n", SMALL, "TooMany")


@case
def script_with_one_insert_too_many():
    return refused(many_edits() + b"insert 1\n|\n", SMALL, "TooMany")


@case
def too_many_edits_come_before_a_bad_number_there():
    return refused(many_edits() + b"delete 0\n", SMALL, "TooMany")


@case
def too_many_edits_come_before_a_missing_number_there():
    return refused(many_edits() + b"delete\n", SMALL, "TooMany")


@case
def too_many_edits_come_before_a_missing_payload_there():
    return refused(many_edits() + b"insert 1\n", SMALL, "TooMany")


@case
def script_with_one_move_too_many():
    return refused(many_edits() + b"move 1 1\n", SMALL, "TooMany")


@case
def script_with_one_endline_too_many():
    return refused(many_edits() + b"endline\n", SMALL, "TooMany")


@case
def script_with_one_openend_too_many():
    return refused(many_edits() + b"openend\n", SMALL, "TooMany")


@case
def script_of_as_many_moves_as_allowed_is_accepted():
    moves = b"move 1 2\nmove 2 1\n" * (EDIT_LIMIT // 2)
    return accepted(moves, SMALL + b"# b\n", b"move 1 2\nmove 2 1\n" * (EDIT_LIMIT // 2), SMALL + b"# b\n")


@case
def script_of_as_many_ends_as_allowed_is_accepted():
    ends = b"openend\nendline\n" * (EDIT_LIMIT // 2)
    return accepted(ends, SMALL, ends, SMALL)


@case
def too_many_edits_come_before_words_after_an_endline_there():
    return refused(many_edits() + b"endline 1\n", SMALL, "TooMany")


@case
def too_many_edits_come_before_a_missing_number_of_a_move_there():
    return refused(many_edits() + b"move 1\n", SMALL, "TooMany")


@case
def too_many_edits_come_before_errors_after_them():
    return refused(many_edits() + b"delete 1\nerase\n", SMALL, "TooMany")


@case
def unknown_word_after_as_many_edits_as_allowed():
    line = many_edits().count(b"\n") + 1
    return refused(many_edits() + b"erase\n", SMALL, f"script:{line}: BadWord")


@case
def payload_line_after_as_many_edits_as_allowed():
    line = many_edits().count(b"\n") + 1
    return refused(many_edits() + b"|\n", SMALL, f"script:{line}: BadWord")


@case
def script_error_comes_before_too_many_edits_after_it():
    return refused(b"delete 0\n" + many_edits() + b"delete 1\n", SMALL, "script:1: BadNumber")


@case
def too_many_edits_come_before_policy_errors():
    return refused(many_edits() + b"delete 1\n", b"\0", "TooMany")
