"""The public calls that take memory: what asks each on the program `cases`, and how often a frame makes it grow memory.

The growths of a call are those of a frame that asks it alone, without those of a frame that asks something else of the
same.
"""

import itertools
from dataclasses import dataclass

from growth_frames import WRITTEN, sampled_frames
from growths import CHANGING, on_programs
from public_calls import public_calls
from refusals import Asking
from tables import NoRow, call, frame, joined, part
from tally import difference

# The sorts of a policy, of an editor and of a text, as frames of the subject `e` have them.
EITHER, TEXT = b"pfeg", b"t"
SORTS = b"pfeg"

# What is asked beside a policy that is a part of the body: the same of a policy without a byte.
OF_NO_POLICY = b""
# What is gathered of files with this root, and without one.
ROOT, NO_ROOT = (call(b"g", bytes(8) + name) for name in (b"main", b"?"))


@dataclass(frozen=True)
class Question:
    """What asks a call: a subject and a byte. For policies, editors and texts the byte is that of a call of these sorts.

    `inner` is the byte of the call in the body of that call. What is asked beside it is the byte `beside`, or such a call.
    """

    subject: bytes
    byte: bytes
    sorts: bytes = b""
    inner: bytes = b""
    beside: bytes = b"?"


QUESTIONS = {
    "text::cut": Question(b"l", b"l"),
    "text::tokens": Question(b"l", b"w"),
    "text::tokens of commands": Question(b"l", b"c"),
    "text::tokens of parameters": Question(b"l", b"p"),
    "text::value": Question(b"l", b"v"),
    "line_reader::parse": Question(b"l", b"P"),
    "line_rows::find_alias_members": Question(b"l", b"O", beside=b"P"),
    "tree::read_line": Question(b"e", b"l", TEXT),
    "tree::leads": Question(b"e", b"i", TEXT, beside=call(b"l")),
    "tree::Policy::read": Question(b"e", b"r", b"p", beside=b""),
    "tree::Policy::load": Question(b"e", b"r", b"f", beside=b""),
    "tree::Policy::text": Question(b"e", b"t", EITHER),
    "tree::Policy::copy_named_files": Question(b"e", b"N", EITHER),
    "tree::Policy::mentions": Question(b"e", b"m", EITHER),
    "tree::append_texts_of_rows": Question(b"e", b"A", EITHER),
    "tree::Policy::load of a text": Question(b"e", b"f", TEXT),
    "files::gather": Question(b"e", b"g", TEXT, beside=NO_ROOT),
    "check::check": Question(b"e", b"k", EITHER),
    "check::unused": Question(b"e", b"u", EITHER),
    "check::report_text": Question(b"e", b"p", EITHER, beside=call(b"k")),
    "check::report_text of a text": Question(b"e", b"p", TEXT, beside=call(b"f")),
    "match_list::has_reachable_cycle_in_policy": Question(b"e", b"C", EITHER),
    "match_list::decide of users": Question(b"m", b"U", beside=OF_NO_POLICY),
    "match_list::decide of runas users": Question(b"m", b"R", beside=OF_NO_POLICY),
    "match_list::decide of groups": Question(b"m", b"G", beside=OF_NO_POLICY),
    "match_list::decide of hosts": Question(b"m", b"H", beside=OF_NO_POLICY),
    "match_list::decide of commands": Question(b"m", b"C", beside=OF_NO_POLICY),
    "match::host_groups": Question(b"m", b"K", beside=OF_NO_POLICY),
    "match::runas_default": Question(b"m", b"D", beside=OF_NO_POLICY),
    "match::answer": Question(b"m", b"A", beside=OF_NO_POLICY),
    "match::answer after edits": Question(b"m", b"E", beside=OF_NO_POLICY),
    "list::explain": Question(b"m", b"Y", beside=b"A"),
    "cvt_rules::print_command": Question(b"m", b"P", beside=b"A"),
    "list_people::People::read": Question(b"p", b"P"),
    "list_people::who_for": Question(b"p", b"W", beside=b"P"),
    "list_people::request_for": Question(b"p", b"R", beside=b"W"),
    "list::list": Question(b"p", b"L", beside=OF_NO_POLICY),
    "match::runas_default of people": Question(b"p", b"D", beside=OF_NO_POLICY),
    "match::answer of people": Question(b"p", b"A", beside=OF_NO_POLICY),
    "cvt_rules::print": Question(b"e", b"P", EITHER),
    "cvt_json::json": Question(b"e", b"J", EITHER),
    "cvt::expand_policy": Question(b"e", b"E", EITHER, beside=call(b"P")),
    "cvt::filter_policy": Question(b"e", b"M", EITHER),
    "cvt_rewrite::read_filter": Question(b"e", b"v", TEXT),
    "bundle::read_bundle": Question(b"e", b"b", TEXT),
    "edit_script::read_script": Question(b"e", b"r", TEXT),
    "edit_script::write_script": Question(b"e", b"w", TEXT, beside=call(b"r")),
    "run::fault_text": Question(b"e", b"t", TEXT, beside=call(b"f")),
    "run::run_check": Question(b"e", b"c", TEXT, b"c", ROOT),
    "run::run_convert": Question(b"e", b"c", TEXT, b"v", ROOT),
    "run::run_list": Question(b"e", b"c", TEXT, b"l", ROOT),
    "run::run_edit": Question(b"e", b"c", TEXT, b"e"),
    "run::run_show": Question(b"e", b"c", TEXT, b"s", ROOT),
}

# The public calls that a question asks with another, by which their growths are met.
INNER = {
    "text::append_decimal_number": "check::report_text",
    "grammar::Items::extend_from_slice": "line_reader::parse",
    "grammar::Items::from_slice": "list_people::People::read",
    "grammar::Items::list_of_one_item": "edit::Editor::apply",
    "grammar::Items::push": "edit_script::read_script",
    "grammar::append_argument_to_args": "line_reader::parse",
    "grammar::TokenText::join_with_blank": "line_reader::parse",
    "grammar::TokenText::to_owned_text": "line_reader::parse",
    "grammar::find_syntax_fault_cause": "line_reader::parse",
    "grammar::parse_command_without_args": "line_reader::parse",
    "grammar::parse_include_path": "tree::leads",
    "grammar::parse_option_value": "line_reader::parse",
    "grammar::parse_single_token_atom": "line_reader::parse",
    "grammar::read_first_argument": "line_reader::parse",
    "names::NameSet::add": "list_people::People::read",
    "line_reader::read_line": "line_reader::parse",
    "line_rows::append_table_rows": "line_reader::parse",
    "line_rows::convert_offset_to_u32": "line_reader::parse",
    "line_rows::find_aliases_in_list": "line_rows::find_alias_members",
    "line_rows::store_atom": "line_reader::parse",
    "line_rows::store_atom_of_member_token": "line_reader::parse",
    "line_rows::store_command_args": "line_reader::parse",
    "line_rows::store_text": "line_reader::parse",
    "line_rows::store_token_text": "line_reader::parse",
    "tree::Walk::find_mentions_of": "tree::Policy::mentions",
    "tree::lead_of_include_node": "tree::leads",
    "files::find_missing_folders_and_skipped_files": "run::run_check",
    "run::run_check_and_keep_policy": "run::run_check",
    "files::read_to_end_or_byte_past_limit": "run::run_edit",
    "check::DefinitionNumbers::new": "check::check",
    "check::list_unused_definitions_of_walk": "check::unused",
    "check::mark_used_definitions": "cvt::expand_policy",
    "match_member::Groups::from_vec": "list_people::who_for",
    "match_member::Interfaces::from_vec": "list_people::who_for",
    "match_member::NumberSet::add": "list_people::who_for",
    "match_list::AcyclicWalk::make_verdict_cache": "match::answer",
    "match_list::AcyclicWalk::new": "match::answer",
    "match_list::AliasVerdictCache::find_last_hit": "match::answer",
    "match_list::AliasVerdictCache::new": "match_list::decide of users",
    "match_list::ExpansionSource::new": "cvt::expand_policy",
    "match_list::flatten_member_list": "cvt::expand_policy",
    "match::find_answer": "match::answer",
    "match::make_sole_spelling": "match::answer",
    "match::find_answer_without_args_limit": "list::explain",
    "match::find_places_of_matching_host_groups": "match::host_groups",
    "match::find_runas_default_for": "match::runas_default",
    "match::join_words": "match::answer",
    "match::make_command_with_joined_arguments": "match::answer",
    "list::explain_found_answer": "run::run_list",
    "list::list_rules_as_text": "list::list",
    "cvt_spell::append_defaults": "cvt_rules::print",
    "cvt_spell::append_keyword_of_tag_or_negated": "cvt_rules::print_command",
    "cvt_spell::append_member": "cvt_rules::print_command",
    "cvt_spell::append_option": "cvt_rules::print_command",
    "cvt_spell::append_param": "cvt_rules::print",
    "cvt_spell::append_printed_member_list": "cvt_rules::print",
    "cvt_spell::append_runas": "cvt_rules::print_command",
    "cvt_rules::Rules::from_policy_lines": "cvt_rules::print",
    "cvt_rules::Rules::keep_marked_definitions": "cvt::expand_policy",
    "cvt_rewrite::RewrittenPolicy::collect_used_rules": "cvt::expand_policy",
    "cvt_rewrite::rewrite_lines_of_acyclic_policy": "cvt::expand_policy",
    "cvt_rewrite::rewrite_policy_lines": "cvt::expand_policy",
    "bundle::append_bundle": "bundle::read_bundle",
    "edit_script::Edit::copy_edit": "edit_script::write_script",
    "run::make_edit_output_of_files": "run::run_edit",
    "run::read_all_within_limit": "run::run_edit",
}


def parts_in(body):
    """Returns the parts that a body is, and the calls after them if there are some."""
    parts, left = [], body
    while len(left) >= 8 and (size := int.from_bytes(left[:8], "big")) <= len(left) - 8:
        parts.append(left[8 : 8 + size])
        left = left[8 + size :]
    return parts, left


def calls_in(left):
    """Returns the calls that bytes are: the byte and the body of each."""
    calls = []
    while len(left) >= 9:
        stop = 9 + int.from_bytes(left[1:9], "big")
        calls.append((left[:1], left[9:stop]))
        left = left[stop:]
    return calls


def split_frame(asked):
    """Returns the subject of a frame, its byte, and its body."""
    return asked[:1], asked[1:2], asked[10:]


def split_policy_frame(asked):
    """Returns the sort of a frame of policies, editors and texts, its text, and its calls."""
    _, sort, body = split_frame(asked)
    stop = 8 + int.from_bytes(body[:8], "big")
    return sort, body[8:stop], calls_in(body[stop:])


def calls_of_question(question, asked):
    """Returns the bodies of those calls of a frame that ask a question."""
    sort, _, calls = split_policy_frame(asked)
    if sort not in question.sorts and not (question.sorts == TEXT and sort not in SORTS):
        return []
    own = [body for byte, body in calls if byte == question.byte]
    return [body for body in own if not question.inner or body[8:9] == question.inner]


def asks(question, asked):
    """Returns whether a frame asks a question."""
    subject, byte, _ = split_frame(asked)
    if subject != question.subject:
        return False
    return bool(calls_of_question(question, asked)) if subject == b"e" else byte == question.byte


def read_alone(text):
    """Returns the frame that reads a policy of one file, and asks nothing that is known."""
    return frame(b"e", b"p", part(text) + call(b"?"))


def own_growths(question, asked, growths):
    """Returns how often the call of a question grows memory for a frame. `growths` counts the growths of a frame."""
    subject, byte, body = split_frame(asked)
    if subject == b"e":
        sort, text, _ = split_policy_frame(asked)
        alone = frame(b"e", sort, part(text) + call(question.byte, calls_of_question(question, asked)[0]))
        if not question.beside:
            return growths(alone) - growths(frame(b"e", TEXT, part(text) + call(b"?")))
        beside = question.beside if len(question.beside) > 1 else call(question.beside)
        return growths(alone) - growths(frame(b"e", sort, part(text) + beside))
    if question.beside:
        return growths(asked) - growths(frame(subject, question.beside, body))
    parts, rest = parts_in(body)
    place = 0 if subject == b"m" else 5
    text, without = parts[place], [*parts[:place], b"", *parts[place + 1 :]]
    of_none = growths(frame(subject, byte, joined(*without) + rest))
    return growths(asked) - of_none - growths(read_alone(text)) + growths(read_alone(b""))


# ---- all


def read_before(asked):
    """Returns the frame that reads the policy of a frame and asks nothing; no byte if there is none, or if that is asked."""
    subject, sort, _ = split_frame(asked)
    if subject != b"e" or sort not in SORTS:
        return b""
    _, text, calls = split_policy_frame(asked)
    return b"" if any(byte == b"r" for byte, _ in calls) else frame(subject, sort, part(text))


def note_question(stand, name, asked):
    """Notes whether a frame of those that ask a question shows growths of its call."""
    own = [own_growths(QUESTIONS[name], one, stand.growths) for one in asked]
    met = own != [], max(own, default=0) > 0
    stand.tally.note(f"growths of {name}", difference("frames, and some growths", (True, True), met))


# The calls that the program asks, behind the part of the tests that refuses growths of its runs.
BY_PROGRAM = {
    "explaining": (
        "explain::Mistake::find_hint",
        "explain::PlaceInFile::append_excerpt",
        "explain::append_help",
        "explain::explain_load_fault",
        "explain::explain_load_faults",
        "explain::list_load_faults",
        "explain::list_pieces_that_may_stand",
        "explain::make_expected_words",
        "explain::make_pointer_row",
        "explain::make_shown_row",
    ),
    "explaining_edits": (
        "explain_edits::explain_bad_bundle",
        "explain_edits::explain_missing_mark",
        "explain_edits::explain_refused_edit",
        "explain_edits::explain_script_fault",
    ),
    "json": (
        "ask::find_user_facts",
        "ask::list_user_facts",
        "ask::make_undecided_facts",
        "list::find_answer_reason",
        "report::JsonDocument::add_list",
        "report::JsonDocument::add_member",
        "report::JsonDocument::make_text",
        "report::JsonList::add",
        "report::LoadErrors::add",
        "report::LoadErrors::new",
        "report::PlaceInPolicy::to_value",
        "report::load_or_list_faults",
        "report::make_check_document",
        "report::make_error_value",
        "report::make_not_read_list",
        "report::make_optional_place_value",
        "report::make_optional_text_value",
        "report::make_show_document",
        "report::make_show_error_document",
        "report::make_text_value",
        "review_users::list_user_changes",
    ),
    "placing": (
        "place::place",
        "run::read_output_files",
    ),
    "planning": (
        "explain_edits::ShownLine::append_bytes_between",
        "explain_edits::ShownLine::append_place",
        "explain_edits::append_refusal_text",
        "explain_edits::make_user_notes",
        "names::NumbersByName::add_number",
        "plan::count_equal_lines",
        "plan::read_wish",
    ),
    "dialect": (
        "dialect::Dialect::adapt_front",
        "dialect::adapt_text",
        "dialect::make_adapted_output",
        "text::adapt_line",
    ),
    "spelled": ("cvt_sudo::spell_for_sudo", "forms::list_refused_forms"),
    "targets": (
        "defaults::append_refusal_words",
        "defaults::list_refused_parameters",
        "explain_edits::Nearest::choose_nearer",
        "forms::list_forms_for_sudo",
        "forms::list_forms_for_sudo_rs",
    ),
    "asking_machine": (
        "ask::explain_user_answer",
        "ask::list_rights",
        "ask::list_rights_with_places",
        "ask::list_users_who_may_run",
        "list::append_listed_command",
        "list::append_place_at_cursor",
        "list::append_place_on_walk_line",
        "list::append_runas_name",
        "list::explain_spelled_answer",
        "match::find_answer_in_specs",
        "match::find_specs_for_users",
        "match::list_near_misses",
        "match::list_specs_with_lines",
        "undecided::list_undecided_members",
        "undecided::list_undecided_members_of_rights",
    ),
    "comparing": (
        "compare::append_rows_of_command",
        "compare::choose_marks",
        "compare::find_overrulings",
        "compare::find_overrulings_of_specs",
        "compare::flatten_runas_defaults",
        "compare::flatten_scope",
        "compare::flatten_specs",
        "compare::list_flat_rows",
        "compare::mark_changed_rows",
        "compare::mark_changed_rows_of_specs",
        "review::FlatPolicy::list_rows",
        "review::FlatPolicy::new",
        "review::append_changed_row",
        "review::append_command_of_row",
        "review::append_line_end",
        "review::append_place_of_row",
        "review::append_row",
        "review::list_changed_other_defaults",
        "review::list_changes",
        "review::list_overruled_commands",
    ),
    "linting": (
        "lint::find_lint_findings",
        "lint::make_lint_text",
    ),
}


def note_public_calls(tally):
    """Notes the public calls that take memory and that nothing here asks, and what is asked here that is none."""
    asked = {name.partition(" ")[0] for name in QUESTIONS} | set(CHANGING.values())
    tally.note("calls by which others are met", difference("asked", set(), set(INNER.values()) - set(QUESTIONS) - asked))
    public, known = list(public_calls()), asked | {*INNER, *itertools.chain(*BY_PROGRAM.values())}
    tally.note("public calls that take memory", difference("not asked", [], sorted(set(public) - known)))
    tally.note("calls that are asked", difference("no public call", [], sorted(known - set(public))))
    tally.note("calls that are asked or met by others", difference("both", set(), asked & set(INNER)))


def check_calls(stand):
    """Refuses the growths of each frame, and notes what each question and each public call meets."""
    try:
        frames = [*WRITTEN, *sampled_frames()]
    except NoRow as error:
        stand.tally.note("the frames of tables", [str(error)])
        return
    for number, asked in enumerate(frames):
        names = [name for name, question in QUESTIONS.items() if asks(question, asked)]
        name = f"frame {number}: {', '.join(names)}"
        stand.tally.note(name, difference("asked", True, names != []))
        stand.refuse_each(Asking(name, asked, stand.ample(asked), read_before(asked), asked))
    for name, question in QUESTIONS.items():
        note_question(stand, name, [one for one in frames if asks(question, one)])
    note_public_calls(stand.tally)


def run_all(_program, tally):
    """Refuses the growths of each public call that changes no policy, on the program `cases`."""
    on_programs("growths_of_calls", tally, check_calls)
