"""The cases that run with refused growths and failing devices: chosen from the folders and tables, or made here."""

import os
from dataclasses import dataclass, replace

import cases
import rows
from program import Wanted, fault


@dataclass(frozen=True)
class Input:
    """How many bytes the program reads of an input with these words, and what it answers to more.

    `files` are the other files, and `device` is the number of the input, as in `cases.Case`.
    """

    words: tuple
    limit: int
    too_large: Wanted
    files: tuple = ()
    device: int = 0


def command_of(case):
    """Returns the command of a case. Without words it is `edit`."""
    return os.fsdecode(case.words[0]) if case.words else "edit"


def read_fault(case):
    """What a run has to answer whose input fails.

    The policy of a command that follows include lines is a file of a device, and its error is `Failed`. The input of
    `edit`, and passwd and group of `list`, have `Read`.
    """
    command = command_of(case)
    return fault("Read" if command == "edit" or command == "list" and case.device else "Failed")


EDIT = Input((), 4_000_000, fault("InputTooLarge"))
SHOW = Input(("show", "-"), 1_048_576, fault("-: TooLarge"))
CHECK = Input(("check", "-"), 1_048_576, Wanted(b"-: TooLarge\n", status=1))
QUIET = Input(("check", "-q", "-"), 1_048_576, Wanted(status=1))
CONVERT = Input(("convert", "-f", "sudoers", "-"), 1_048_576, fault("-: TooLarge"))
EXPAND = Input(("convert", "-f", "sudoers", "-e", "-"), 1_048_576, fault("-: TooLarge"))
FILTER = Input(("convert", "-f", "sudoers", "-m", "user=bob", "-p", "-"), 1_048_576, fault("-: TooLarge"))

# The policy of `list` is standard input. Then the program opens `passwd` and `group`, which have these numbers.
PASSWD, GROUP = 3, 4
# A policy that has a name is the first file that is opened, and so is each included file after it, since one is closed then.
POLICY_FILE = 3
PEOPLE = (
    ("passwd", b"root:x:0:0:::\nbob:x:1000:1000:::\n"),
    ("group", b"adm:x:4:bob\n"),
)
LIST_WORDS = ("list", "--passwd", "passwd", "--group-file", "group", "--host", "h1", "--moment", "2026010100Z", "-U", "bob")
LIST = Input((*LIST_WORDS, "-"), 1_048_576, fault("-: TooLarge"), PEOPLE)
WHY = Input((*LIST_WORDS, "--why", "-", "/bin/ls"), 1_048_576, fault("-: TooLarge"), PEOPLE)
LIST_PASSWD = Input((*LIST_WORDS, "-"), 1_048_576, fault("TooLarge"), PEOPLE, PASSWD)
LIST_GROUP = Input((*LIST_WORDS, "-", "/bin/ls"), 1_048_576, fault("TooLarge"), PEOPLE, GROUP)

# Folders and rows that run under every refusal and failure.
EDITS = (
    "delete_first_line_and_back",
    "several_edits_and_back",
    "replace_the_open_last_line",
    "empty_script_and_empty_policy",
    "word_edit_does_the_same_as_no_word",
    "refused_edit_after_accepted_ones",
    "insert_of_two_lines",
    "payload_lines_count_as_script_lines",
    "insert_without_payload",
    "nul_on_the_open_last_line",
    "policy_ending_in_a_continuation",
    "mark_with_a_carriage_return",
    "empty_input_has_no_mark",
    "definition_may_be_replaced_by_delete_and_insert",
    "add_a_member_in_the_middle_of_a_list_of_three_pieces",
    "drop_the_first_member",
    "add_of_a_member_with_a_blank_too_many",
    "adddef_in_front",
    "dropdef_of_the_last",
    "dropdef_that_would_make_a_comment_an_id",
    "rename_of_a_defined_and_mentioned_alias",
    "rename_to_a_name_that_is_mentioned",
    "prune_of_definitions_of_a_line",
    "prune_is_refused_if_one_of_several_drops_is",
    "insert_of_a_second_definition",
    "insert_of_a_reserved_word_as_a_name",
    "syntax_error_of_an_edit_has_its_place_in_the_result",
    "syntax_error_of_the_policy_comes_before_edits",
    "policy_is_read_if_the_script_is_empty",
    "two_moves_give_moves_last_edit_first",
    "moves_and_ends_and_back",
    "endline_and_insert_after_it",
    "move_of_an_open_last_line_before_another",
    "openend_of_a_line_that_ends_in_a_continuation_and_a_line_end",
    "endline_of_an_empty_policy",
    "redo_of_a_prune_makes_it_again_whole",
    "redo_makes_the_edit_first_that_was_undone_last",
    "an_edit_that_would_be_undone_is_refused",
    "rename_in_a_bundle_of_two_files",
    "an_include_is_turned_to_another_file_of_the_same_definition",
    "each_file_has_its_own_end",
    "prune_over_several_files",
    "redo_of_a_prune_of_two_files",
    "second_include_of_a_file",
    "a_file_comes_back_with_a_definition_that_stands_elsewhere",
    "edit_of_a_file_that_is_not_there",
    "bundle_whose_last_file_is_too_short",
    "two_files_of_one_name",
)
SHOWS = (
    "show_of_standard_input",
    "show_of_an_empty_standard_input",
    "show_takes_no_script",
)
CHECKS = (
    "check_of_standard_input",
    "quiet_strict_check_of_standard_input",
    "strict_check_of_standard_input",
    "check_of_an_empty_standard_input",
    "check_of_a_standard_input_with_an_error",
    "quiet_check_of_a_standard_input_with_an_error",
)
CONVERTS = (
    "convert_of_standard_input",
    "convert_of_an_empty_standard_input",
    "convert_of_a_standard_input_with_an_error",
    "each_form_of_runas_spec",
    "defaults_values_that_become_words",
    "options_are_inherited_one_by_one",
    "convert_of_standard_input_to_json",
    "json_of_a_path_that_is_no_utf_8",
    "expand_of_standard_input",
    "filter_prune_and_expand_of_standard_input",
    "expand_of_aliases_in_aliases",
    "expand_keeps_what_command_scopes_lead_to_as_it_is",
    "expand_gives_each_member_what_its_alias_has",
    "expand_brings_each_first_user_like_another_line",
    "expand_of_a_cycle_of_two",
    "filter_keeps_what_is_reachable",
    "prune_looks_into_aliases_in_aliases",
    "prune_for_a_host_in_aliases_with_negations",
    "filter_prune_and_expand",
    "filter_with_blanks",
    "filter_by_command",
    "filter_of_a_cycle",
)
LISTS = (
    "list_of_standard_input",
    "command_for_a_group_is_allowed",
    "why_of_a_denied_command_on_standard_input",
    "why_of_an_alias_on_standard_input",
    "list_of_a_standard_input_with_an_error",
    "listing_of_a_user_without_rules",
    "listing_of_each_form_of_runas_spec",
    "listing_of_inherited_options",
    "listing_by_networks_of_two_interfaces",
    "listing_of_a_cycle",
    "command_that_no_rule_names_is_not_allowed",
    "denied_by_a_negated_alias_that_allows",
    "runas_default_that_is_taken_back_for_the_user_without_a_target",
    "runas_user_and_group_with_both",
    "reason_of_a_command_that_no_rule_names",
    "reason_of_a_negated_alias_that_denies",
    "reason_of_an_alias_four_deep",
    "reason_of_all_in_an_alias_in_an_alias",
    "reason_with_everything",
    "reason_in_the_third_line_of_a_rule",
    "rows_of_group_that_say_nothing",
    "row_of_passwd_with_three_fields",
    "row_of_group_with_three_fields",
    "user_who_has_no_row",
    "target_who_has_no_row",
    "group_that_has_no_row",
    "runas_default_who_has_no_row",
    "interface_of_too_many_bits",
    "moment_without_hours",
    "cycle_comes_before_runas_default",
)

# Folders that run under every refusal of memory alone: they read no standard input.
WORDS = (
    "unknown_subcommand_is_a_bad_word",
    "edit_takes_no_word",
    "unknown_long_flag_is_a_bad_word",
    "help_names_the_program_and_its_subcommands",
    "help_of_edit",
    "help_of_show",
    "show_without_a_file",
    "show_of_a_file_that_is_not_there",
    "show_of_a_folder",
    "show_of_each_kind_of_line",
    "show_of_a_second_definition",
    "show_of_a_reserved_word",
    "show_of_a_syntax_error",
    "show_of_an_open_end",
    "show_of_a_nul",
    "help_of_check",
    "check_without_a_file",
    "check_of_a_file_that_is_not_there",
    "quiet_check_of_a_folder",
    "check_of_a_site_with_some_of_everything",
    "check_of_each_note_with_each_kind",
    "quiet_strict_check_of_undefined_cyclic_and_unused_aliases",
    "check_of_a_second_definition",
    "check_of_a_reserved_word",
    "check_of_a_syntax_error",
    "check_of_an_open_end",
    "check_of_a_nul",
    "quiet_check_of_a_second_definition",
    "help_of_convert",
    "convert_without_a_form",
    "convert_of_a_file_that_is_not_there",
    "convert_of_a_site_with_some_of_everything",
    "convert_of_a_syntax_error",
    "expand_of_a_site_with_some_of_everything",
    "filter_of_a_site_for_a_user_and_a_host",
    "filter_and_expand_of_a_file_to_json",
    "cycle_of_a_file_that_is_expanded",
    "convert_with_two_filters",
    "help_of_list",
    "list_without_words",
    "list_with_a_why_without_a_command",
    "list_of_a_file",
    "list_of_a_file_that_is_not_there",
    "list_with_a_passwd_that_is_not_there",
    "list_with_a_group_that_is_a_folder",
    "missing_group_comes_before_an_error_of_the_policy",
    "list_of_a_syntax_error",
    "list_of_a_cycle",
    "list_with_long_names",
    "list_of_a_site_for_a_user_of_a_group",
    "why_of_a_site_that_allows",
    "why_of_a_site_that_denies",
    "why_of_an_alias_in_a_file",
)


def ordinary_line(number):
    """A comment, or at every fifth number a user specification."""
    if number % 5 > 0:
        return b"# line %d\n" % number
    return b"user%d ALL=(ALL) \\\n    /usr/bin/tool%d\n" % (number, number)


def many_lines_case():
    """Twelve edits on a policy of twenty lines, so that every list grows often."""
    numbers = range(1, 13)
    script = b"".join(b"insert %d\n|# line %d is new\n" % (2 * n, n) for n in numbers)
    inverse = b"".join(b"delete %d\n" % (2 * n) for n in reversed(numbers))
    old = [ordinary_line(number) for number in range(1, 21)]
    new = list(old)
    for n in numbers:
        new.insert(2 * n - 1, b"# line %d is new\n" % n)
    wanted = Wanted(inverse + b"%%\n" + b"".join(new))
    return cases.Case("twelve_edits_on_twenty_lines", (), script + b"%%\n" + b"".join(old), wanted)


def many_definitions_case():
    """`show` of twenty lines of definitions, so that every list and the index of names grow often."""
    numbers = range(1, 21)
    policy = b"".join(b"User_Alias A%d = bob, ann : B%d = A%d\n" % (n, n, n) for n in numbers)
    lines = b"".join(b"%d alias %d\n%d.1 User_Alias A%d 2\n%d.2 User_Alias B%d 1\n" % (6 * (n,)) for n in numbers)
    return cases.Case("show_of_forty_definitions", ("show", "-"), policy, Wanted(lines))


def many_moves_case():
    """Moves and ends on a policy of twenty lines, so that every list grows often."""
    numbers = range(1, 7)
    script = b"".join(b"move %d 20\nopenend\nendline\n" % n for n in numbers)
    inverse = b"".join(b"openend\nendline\nmove 20 %d\n" % n for n in reversed(numbers))
    old = [ordinary_line(number) for number in range(1, 21)]
    new = list(old)
    for n in numbers:
        new.append(new.pop(n - 1))
    wanted = Wanted(inverse + b"%%\n" + b"".join(new))
    return cases.Case("eighteen_moves_and_ends_on_twenty_lines", (), script + b"%%\n" + b"".join(old), wanted)


def many_notes_case():
    """`check` of twenty lines with notes of each sort, so that every list and every set of names grow often."""
    numbers = range(10, 30)
    policy = b"".join(b"User_Alias A%d = A%d, B%d : C%d = x\n" % (4 * (n,)) for n in numbers)
    notes = [b"%d:23: undefined User_Alias B%d" % (n - 9, n) for n in numbers]
    notes += [b"%d:12: cyclic User_Alias A%d" % (n - 9, n) for n in numbers]
    for n in numbers:
        notes += [b"%d:12: unused User_Alias A%d" % (n - 9, n), b"%d:29: unused User_Alias C%d" % (n - 9, n)]
    wanted = Wanted(b"".join(b"-:" + note + b"\n" for note in notes) + b"-: parsed OK\n")
    return cases.Case("check_of_eighty_notes", ("check", "-"), policy, wanted)


def many_printed_lines_case():
    """`convert` of twenty lines of each kind, so that every list grows often."""
    numbers = range(1, 21)
    policy = b"".join(
        b"U%d, u h=(r, s : g)CWD=/x NOPASSWD:/a x  y,/b:i=list\nDefaults@h,i a=1,b\nUser_Alias U%d=x,!y:V%d=z\n" % (n, n, n)
        for n in numbers
    )
    specification = b"U%d, u h = (r, s : g) CWD=/x NOPASSWD: /a x y, (r, s : g) CWD=/x NOPASSWD: /b : i = list\n"
    text = b"Defaults@h, i a=1, b\n" * len(numbers)
    text += b"".join(b"User_Alias U%d = x, !y\nUser_Alias V%d = z\n" % (n, n) for n in numbers)
    text += b"".join(specification % n for n in numbers)
    return cases.Case("convert_of_sixty_lines", CONVERT.words, policy, Wanted(text))


def many_rewritten_lines_case():
    """`convert` of twenty lines that are filtered, pruned and expanded, so that every list grows often."""
    numbers = range(1, 21)
    policy = b"".join(
        b"User_Alias U%d = x, !V%d : V%d = y, z\nDefaults:U%d a\nU%d, bob h, i=(r, s : g) /a, C, /b : i=/c\n" % (5 * (n,))
        for n in numbers
    )
    text = b"Defaults:x, !y, !z a\n" * len(numbers)
    text += b"x, !y, !z h = (r, s : g) /a, (r, s : g) !/d, (r, s : g) list, (r, s : g) /b\n" * len(numbers)
    words = ("convert", "-f", "sudoers", "-e", "-p", "-m", "user=x,user=y,group=g,host=h", "-")
    return cases.Case("convert_of_sixty_rewritten_lines", words, b"Cmnd_Alias C = !/d, list\n" + policy, Wanted(text))


def many_listed_lines_case():
    """`list` of twenty rules of two commands, so that every list grows often."""
    numbers = range(1, 21)
    policy = b"".join(
        b"User_Alias U%d = bob, !x : V%d = y\nU%d h2, h1 = (r, s : g)CWD=/x NOPASSWD:/a x  y,!C:h2=/b\n" % (3 * (n,))
        for n in numbers
    )
    listed = b"    (r, s : g) CWD=/x NOPASSWD: /a x y\n    (r, s : g) CWD=/x NOPASSWD: !C\n"
    wanted = Wanted(b"bob on h1:\n" + listed * len(numbers))
    return cases.Case("list_of_forty_commands", LIST.words, policy, wanted, files=PEOPLE)


def many_people_case():
    """`list --why` with forty users and forty groups, so that every list of them grows often."""
    numbers = range(1, 41)
    passwd = b"bob:x:1000:1000:::\n" + b"".join(b"u%d:x:%d:%d:::\n" % (3 * (n,)) for n in numbers)
    group = b"".join(b"g%d:x:%d:u%d,bob\n" % (3 * (n,)) for n in numbers)
    words = (*LIST_WORDS, "-u", "u40", "-g", "g40", "--why", "--interfaces", ",".join(["10.0.0.1/8"] * 20), "-", "/a", "x")
    policy = b"%g40, %g39 ALL = (u40 : g40) /a\n"
    wanted = Wanted(b"-:1:%d: allowed by: (u40 : g40) /a\n" % (policy.index(b"/a") + 1))
    files = (("passwd", passwd), ("group", group))
    return cases.Case("why_with_eighty_rows_of_people", words, policy, wanted, files=files)


def many_files_case(*words):
    """`check` or `show` of 21 files, ten of a folder and ten in each other, with ten that are skipped, so that every list grows often."""
    numbers = range(10, 20)
    files = [("main", b"@includedir d\n@include a10\n")]
    files += [(f"d/{n}", b"User_Alias D%d = x\n" % n) for n in numbers]
    files += [(f"a{n}", b"@include a%d\nUser_Alias A%d = B%d\n" % (n + 1, n, n)) for n in numbers[:-1]]
    files += [("a19", b"User_Alias A19 = B19\n")]
    files += [(f"d/{n}.x", b"no policy\n") for n in numbers]
    rows = [(n, 1 if n == 19 else 2) for n in reversed(numbers)]
    notes = [b"a%d:%d:18: undefined User_Alias B%d\n" % (n, row, n) for n, row in rows]
    notes += [b"d/%d:1:12: unused User_Alias D%d\n" % (n, n) for n in numbers]
    notes += [b"a%d:%d:12: unused User_Alias A%d\n" % (n, row, n) for n, row in rows]
    shown = [b"file 1 main\n1 include 1\n2 include 2\n"]
    shown += [b"file %d d/%d\n1 alias 1\n1.1 User_Alias D%d 1\n" % (n - 8, n, n) for n in numbers]
    shown += [b"file %d a%d\n1 include 1\n2 alias 2\n2.1 User_Alias A%d 1\n" % (n + 2, n, n) for n in numbers[:-1]]
    shown += [b"file 21 a19\n1 alias 1\n1.1 User_Alias A19 1\n"]
    skipped = [b"d/%d.x: not read: its name contains '.'\n" % n for n in numbers] if "--skipped" in words else []
    wanted = {"check": b"".join((*notes, b"main: parsed OK\n", *skipped)), "show": b"".join(shown)}
    name = "_".join((*(word.strip("-") for word in words[:-1]), "of_21_files"))
    return cases.Case(name, words, b"", Wanted(wanted[words[0]]), files=tuple(files), device=POLICY_FILE)


def many_files_cases():
    """All commands on these files that ask for each list of them."""
    return tuple(many_files_case(*words, "main") for words in (("check",), ("check", "--skipped"), ("show",)))


def people_at_the_limit(name, device):
    """`list` with a file of as many bytes as it may have."""
    rows = {"passwd": b"u:x:1:1:::\n", "group": b"g:x:1:bob\n"}[name]
    text = dict(PEOPLE)[name]
    text += rows * ((LIST.limit - len(text)) // len(rows) - 1)
    text += b"#" * (LIST.limit - len(text) - 1) + b"\n"
    wanted = Wanted(b"bob on h1:\n    (root) /bin/ls\n")
    files = tuple({**dict(PEOPLE), name: text}.items())
    return cases.Case(f"{name}_at_the_limit", LIST.words, b"bob ALL=/bin/ls\n", wanted, files=files, device=device)


def inputs_at_the_limit():
    """The greatest inputs that are read to their end."""
    script = b"#" * EDIT.limit
    yield cases.Case("input_of_edit_at_the_limit", EDIT.words, script, fault("NoMark"))
    line = b"#" * 65_535 + b"\n"
    shown = b"".join(b"%d comment %d\n" % (number, number) for number in range(1, 17))
    yield cases.Case("input_of_show_at_the_limit", SHOW.words, line * 16, Wanted(shown))
    yield cases.Case("input_of_check_at_the_limit", CHECK.words, line * 16, Wanted(b"-: parsed OK\n"))
    yield cases.Case("input_of_quiet_check_at_the_limit", QUIET.words, line * 16, Wanted())
    yield cases.Case("input_of_convert_at_the_limit", CONVERT.words, line * 16, Wanted())
    yield cases.Case("input_of_expand_at_the_limit", EXPAND.words, line * 16, Wanted())
    yield cases.Case("input_of_filter_at_the_limit", FILTER.words, line * 16, Wanted())
    nothing = Wanted(b"bob may run nothing on h1.\n")
    yield cases.Case("input_of_list_at_the_limit", LIST.words, line * 16, nothing, files=PEOPLE)
    yield people_at_the_limit("passwd", PASSWD)
    yield people_at_the_limit("group", GROUP)


@dataclass(frozen=True)
class Chosen:
    """The cases, by what is done to them."""

    every: tuple
    read: tuple
    people: tuple
    words: tuple
    some: tuple
    given: tuple

    @staticmethod
    def load():
        """The cases of all folders and tables, chosen by their names."""
        by_name = rows.load_every()
        groups = (EDITS, SHOWS, CHECKS, CONVERTS, LISTS, WORDS)
        edits, shows, checks, converts, lists, words = ([by_name[name] for name in names] for names in groups)
        people = [replace(case, device=device) for case in lists for device in (PASSWD, GROUP)]
        return Chosen(
            every=tuple(by_name.values()),
            read=(*edits, *shows, *checks, *converts, *lists),
            people=tuple(people),
            words=tuple(words),
            some=(edits[1], edits[5], shows[0], shows[2], *checks[:2], *checks[4:], *converts[:3], *lists[:3], *people[:2]),
            given=(
                *((edits[1], EDIT), (shows[0], SHOW), (checks[0], CHECK), (checks[1], QUIET), (converts[0], CONVERT)),
                (by_name["expand_of_standard_input"], EXPAND),
                (by_name["filter_prune_and_expand_of_standard_input"], FILTER),
                *((lists[0], LIST), (lists[2], WHY), (people[0], LIST_PASSWD), (people[3], LIST_GROUP)),
            ),
        )
