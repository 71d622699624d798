"""Edits of members, definitions and names at the limits, and prune."""

from large import (
    ALIAS_LIMIT,
    EDIT_LIMIT,
    KINDS,
    LINE_LIMIT,
    POLICY_LIMIT,
    SMALL,
    accepted,
    case,
    case_of_long_way_back,
    case_of_prune,
    chain,
    comment,
    definitions,
    definitions_in_one_line,
    many_edits,
    refused,
)

PRUNED = 256
PRUNED_LINES = 1_024

# ---- members, definitions and names ------------------------------------------

ONE = b"User_Alias A = x\n"


def filled(policy):
    """The policy with comments after it, up to just as many bytes as a policy may have."""
    rest = POLICY_LIMIT - len(policy)
    return policy + comment(LINE_LIMIT) * (rest // LINE_LIMIT) + comment(rest % LINE_LIMIT)


def renames(name, fresh):
    """A script of one renaming of a user alias."""
    return b"rename user %s %s\n" % (name, fresh)


@case
def rename_past_the_policy_limit():
    return refused(renames(b"A", b"AB"), filled(ONE), "edit 1: TooLarge")


@case
def rename_up_to_the_policy_limit_is_accepted():
    policy = filled(ONE.replace(b"A =", b"AB ="))
    short = policy.replace(b"AB =", b"A =")
    return accepted(renames(b"A", b"AB"), short, renames(b"AB", b"A"), policy)


@case
def rename_in_a_full_policy_is_accepted():
    policy = filled(ONE)
    return accepted(renames(b"A", b"B"), policy, renames(b"B", b"A"), policy.replace(b"A =", b"B ="))


@case
def rename_past_the_line_limit():
    line = b"A" + b",A" * ((LINE_LIMIT - 9) // 2) + b" h=ALL\n"
    return refused(renames(b"A", b"AB"), ONE + line, "edit 1: TooLarge")


@case
def rename_up_to_the_line_limit_is_accepted():
    line = b"A" + b",A" * 20_000 + b" h=ALL"
    line += b" " * (LINE_LIMIT - 20_001 - len(line) - 1) + b"\n"
    policy, edited = ONE + line, ONE.replace(b"A =", b"AB =") + line.replace(b"A,", b"AB,").replace(b"A h", b"AB h")
    return accepted(renames(b"A", b"AB"), policy, renames(b"AB", b"A"), edited)


@case
def rename_that_takes_bytes_away_at_the_limits_is_accepted():
    policy = filled(b"User_Alias ABC = x\n")
    return accepted(renames(b"ABC", b"A"), policy, renames(b"A", b"ABC"), policy.replace(b"ABC", b"A"))


@case
def missing_alias_comes_before_the_policy_limit():
    return refused(renames(b"B", b"ABC"), filled(ONE + b"B h=ALL\n"), "edit 1: NoAlias")


@case
def bad_name_comes_before_the_policy_limit():
    return refused(renames(b"A", b"EXEC"), filled(ONE), "edit 1: BadName")


@case
def taken_name_comes_before_the_policy_limit():
    return refused(renames(b"A", b"BB"), filled(ONE + b"BB h=ALL\n"), "edit 1: NameTaken")


@case
def rename_of_one_of_as_many_aliases_as_allowed_is_accepted():
    policy = chain(b"User_Alias", ALIAS_LIMIT)
    edited = policy.replace(b" A1 ", b" B ")
    return accepted(renames(b"A1", b"B"), policy, renames(b"B", b"A1"), edited)


@case
def add_of_a_member_past_the_policy_limit():
    return refused(b"add user A 2\n>,y\n", filled(ONE), "edit 1: TooLarge")


@case
def add_of_a_member_up_to_the_policy_limit_is_accepted():
    policy = filled(b"User_Alias A = x,y\n")
    short = policy.replace(b",y", b"")
    return accepted(b"add user A 2\n>,y\n", short, b"drop user A 2\n", policy)


@case
def add_of_a_member_past_the_line_limit():
    line = b"User_Alias A = x #"
    line += b"#" * (LINE_LIMIT - 2 - len(line)) + b"\n"
    return refused(b"add user A 2\n>,y\n", SMALL + line, "edit 1: TooLarge")


@case
def add_of_a_member_up_to_the_line_limit_is_accepted():
    line = b"User_Alias A = x #"
    line += b"#" * (LINE_LIMIT - 3 - len(line)) + b"\n"
    edited = line.replace(b"x", b"x,y")
    return accepted(b"add user A 2\n>,y\n", SMALL + line, b"drop user A 2\n", SMALL + edited)


@case
def missing_place_comes_before_the_policy_limit():
    return refused(b"add user A 3\n>,y\n", filled(ONE), "edit 1: NoPlace")


@case
def missing_alias_of_a_member_comes_before_the_policy_limit():
    return refused(b"add user B 1\n>y,\n", filled(ONE + b"B h=ALL\n"), "edit 1: NoAlias")


@case
def missing_line_of_a_definition_comes_before_the_policy_limit():
    policy = filled(ONE)
    return refused(b"adddef %d 1\n>B=y:\n" % (policy.count(b"\n") + 1), policy, "edit 1: NoLine")


@case
def line_that_defines_nothing_comes_before_the_policy_limit():
    return refused(b"adddef 2 1\n>B=y:\n", filled(ONE), "edit 1: NoAlias")


@case
def missing_place_of_a_definition_comes_before_the_policy_limit():
    return refused(b"adddef 1 3\n>:B=y\n", filled(ONE), "edit 1: NoPlace")


@case
def bad_splice_comes_before_the_policy_limit():
    return refused(b"add user A 2\n>,y \n", filled(ONE), "edit 1: BadSplice")


@case
def bad_splice_comes_before_the_line_limit():
    return refused(b"adddef 1 2\n>" + b" " * LINE_LIMIT + b"\n", ONE, "edit 1: BadSplice")


@case
def policy_limit_comes_before_a_name_defined_twice():
    return refused(b"adddef 1 2\n>:A=y\n", filled(ONE), "edit 1: TooLarge")


@case
def line_limit_comes_before_a_reserved_word():
    splice = b":ALL=y" + b",y" * (LINE_LIMIT // 2)
    return refused(b"adddef 1 2\n>" + splice + b"\n", ONE, "edit 1: TooLarge")


@case
def adddef_of_one_definition_too_many():
    policy = definitions(b"Host_Alias", ALIAS_LIMIT)
    script = b"adddef %d 2\n>:B=h\n" % ALIAS_LIMIT
    return refused(script, policy, "edit 1: NotPolicy: policy: too many Host_Alias")


@case
def adddef_of_the_last_definition_allowed_is_accepted():
    policy = definitions_in_one_line(b"Cmnd_Alias", ALIAS_LIMIT - 1)
    edited = definitions_in_one_line(b"Cmnd_Alias", ALIAS_LIMIT)
    added = b":A%d=ALL" % ALIAS_LIMIT
    return accepted(b"adddef 1 %d\n>%s\n" % (ALIAS_LIMIT, added), policy, b"dropdef 1 %d\n" % ALIAS_LIMIT, edited)


@case
def drop_of_the_last_of_very_many_members_is_accepted():
    line, last = b"Cmnd_Alias A = /a" + b",/a" * 20_000, b" , /b c"
    return accepted(b"drop cmnd A 20002\n", line + last + b"\n", b"add cmnd A 20002\n>" + last + b"\n", line + b"\n")


@case
def drop_of_the_first_of_very_many_members_is_accepted():
    line = b"/b" + b",/a" * 20_000 + b"\n"
    word = b"Cmnd_Alias A = "
    return accepted(b"drop cmnd A 1\n", word + line, b"add cmnd A 1\n>/b,\n", word + line.removeprefix(b"/b,"))


@case
def drop_after_the_last_of_very_many_members():
    return refused(b"drop cmnd A 20002\n", b"Cmnd_Alias A = /a" + b",/a" * 20_000 + b"\n", "edit 1: NoPlace")


# ---- what prune takes out ----------------------------------------------------

def put_in_again(policy):
    """A script that inserts each line of a policy."""
    return b"".join(b"insert %d\n|%s" % (n, line) for n, line in enumerate(policy.splitlines(keepends=True), 1))


@case_of_prune
def prune_of_very_many_lines_of_definitions():
    policy = definitions(b"User_Alias", PRUNED_LINES)
    return accepted(b"prune\n", policy, put_in_again(policy), b"")


@case_of_prune
def prune_of_a_policy_that_uses_as_many_definitions_as_allowed():
    policy = chain(b"User_Alias", ALIAS_LIMIT) + b"A1 h=ALL\n"
    return accepted(b"prune\n", policy, b"", policy)


@case_of_prune
def prune_of_a_long_chain_that_is_not_used():
    policy = chain(b"Cmnd_Alias", PRUNED_LINES)
    return accepted(b"prune\n", policy, put_in_again(policy), b"")


@case_of_prune
def prune_of_a_line_of_as_many_definitions_as_allowed():
    policy = definitions_in_one_line(b"Host_Alias", ALIAS_LIMIT)
    return accepted(b"prune\n", policy, b"insert 1\n|" + policy, b"")


@case_of_prune
def prune_of_very_many_definitions_of_a_line():
    policy, user = definitions_in_one_line(b"Host_Alias", PRUNED), b"bob A1=ALL\n"
    inverse = b"".join(b"adddef 1 %d\n>:A%d=ALL\n" % (n, n) for n in range(2, PRUNED + 1))
    return accepted(b"prune\n", policy + user, inverse, b"Host_Alias A1=ALL\n" + user)


@case
def definitions_of_a_line_that_were_pruned_are_put_in_again():
    policy, user = definitions_in_one_line(b"Host_Alias", PRUNED), b"bob A1=ALL\n"
    script = b"".join(b"adddef 1 %d\n>:A%d=ALL\n" % (n, n) for n in range(2, PRUNED + 1))
    inverse = b"".join(b"dropdef 1 %d\n" % n for n in range(PRUNED, 1, -1))
    return accepted(script, b"Host_Alias A1=ALL\n" + user, inverse, policy + user)


# ---- too many edits that take the script back --------------------------------

# Prune alone is taken back by more edits than one: here by one for each of these lines.
UNUSED = (b"User_Alias A = x\n", b"Host_Alias B = h\n", b"Cmnd_Alias C = /c\n")


@case
def prune_that_more_edits_than_allowed_take_back():
    script = many_edits(EDIT_LIMIT - 2) + b"move 1 1\nprune\n"
    return refused(script, b"".join(UNUSED[:2]), "TooMany")


@case_of_long_way_back
def undo_that_is_too_large_is_written():
    policy = b"".join(definitions(kind, ALIAS_LIMIT) for kind in KINDS[:3])
    before = (b"insert 1\n|" + comment(LINE_LIMIT) + b"delete 1\n") * 56
    return accepted(before + b"prune\n", policy, put_in_again(policy) + before, b"")


@case_of_prune
def prune_that_as_many_edits_as_allowed_take_back_is_accepted():
    before, policy = many_edits(EDIT_LIMIT - 2), b"".join(UNUSED[:2])
    return accepted(before + b"prune\n", policy, put_in_again(policy) + before, b"")


@case
def last_edit_that_is_refused_comes_before_too_many_that_take_back():
    script = many_edits(EDIT_LIMIT - 2) + b"prune\ndelete 1\n"
    return refused(script, b"".join(UNUSED), f"edit {EDIT_LIMIT}: NoLine")


@case
def refused_prune_as_the_last_edit_allowed():
    policy = b"Host_Alias A = % : B = y #1\nbob A=ALL\n"
    script = many_edits(EDIT_LIMIT - 2) + b"move 1 1\nprune\n"
    return refused(script, policy, f"edit {EDIT_LIMIT}: BadSplice")


# ---- the script --------------------------------------------------------------


@case
def script_with_one_add_too_many():
    return refused(many_edits() + b"add user A 1\n>x,\n", SMALL, "TooMany")


@case
def script_with_one_drop_too_many():
    return refused(many_edits() + b"drop user A 1\n", SMALL, "TooMany")


@case
def script_with_one_adddef_too_many():
    return refused(many_edits() + b"adddef 1 1\n>B = x : \n", SMALL, "TooMany")


@case
def script_with_one_dropdef_too_many():
    return refused(many_edits() + b"dropdef 1 1\n", SMALL, "TooMany")


@case
def script_with_one_rename_too_many():
    return refused(many_edits() + b"rename user A B\n", SMALL, "TooMany")


@case
def script_with_one_prune_too_many():
    return refused(many_edits() + b"prune\n", SMALL, "TooMany")


@case
def too_many_edits_come_before_an_unknown_kind_there():
    return refused(many_edits() + b"add group A 1\n", SMALL, "TooMany")


@case
def too_many_edits_come_before_an_empty_name_there():
    return refused(many_edits() + b"rename user A \n", SMALL, "TooMany")


@case
def too_many_edits_come_before_a_number_after_a_prune_there():
    return refused(many_edits() + b"prune 1\n", SMALL, "TooMany")


@case
def script_of_as_many_adds_and_drops_as_allowed_is_accepted():
    adds = b"add user A 2\n>,y\ndrop user A 2\n" * (EDIT_LIMIT // 2)
    return accepted(adds, b"User_Alias A = x\n", adds, b"User_Alias A = x\n")


@case
def script_of_as_many_definitions_more_and_less_as_allowed_is_accepted():
    adds = b"adddef 1 1\n>B=y:\ndropdef 1 1\n" * (EDIT_LIMIT // 2)
    return accepted(adds, b"User_Alias A = x\n", adds, b"User_Alias A = x\n")


@case
def script_of_as_many_renames_as_allowed_is_accepted():
    names = b"rename user A B\nrename user B A\n" * (EDIT_LIMIT // 2)
    return accepted(names, b"User_Alias A = x\n", names, b"User_Alias A = x\n")
