"""Asks the program `cases` the tables of `tables/list`.

A row `passwd: TEXT` or `group: TEXT` is a file of people. It holds for the rows below it, until another of its kind or
the next group. The words of a group's head say what is asked:

    people          what the files say, in a row `=> ANSWER` below them: `users` and each `NAME:UID:GID`, `groups` and
                    each `NAME:GID:MEMBERS`; or `TooLarge`, or `BadRow passwd N` or `BadRow group N`
    who             who a user on a host is: `NAME:UID`, his groups `NAME:GID`, `@`, the short name of the host, its
                    long name, and its interfaces
    request         what is asked: `as`, the target with his groups, `group` and the group if one is asked for, `at` and
                    the moment, `runs` and each word in brackets
    listing         the listing of a user on a host
    runas default   as whom a command runs for him where nothing else is said: a name, or `empty`
    answer          whether a request is allowed: `allow` or `deny`, or `none` if no row fits

But for `people` a row is `? QUESTION => ANSWER`, and in the last three any other row is a policy, of which those below
it ask. A question is `USER @ HOST with INTERFACES as TARGET group GROUP at STAMP runs COMMAND`. `with` and what
follows may be missing. Then there are no interfaces, the target is root, no group is asked for, the moment is
20260101000000Z, and there are no words. A fault is an answer too, as `NoUser` or `Cycle`.
"""

import re

from tables import Case, drawn_text, frame, joined, part, run_tables, text_of, unrolled

SUBJECT = b"p"

ASKED = {
    ("people",): b"P",
    ("who",): b"W",
    ("request",): b"R",
    ("listing",): b"L",
    ("runas", "default"): b"D",
    ("answer",): b"A",
}
OF_POLICIES = b"LDA"
FILE = re.compile("(passwd|group): (.+)")
QUESTION = re.compile(
    "(?P<user>.+?) @ (?P<host>.+?)(?: with (?P<interfaces>.+?))?(?: as (?P<target>.+?))?(?: group (?P<group>.+?))?"
    "(?: at (?P<stamp>.+?))?(?: runs (?P<words>.+))?"
)
ESCAPE = re.compile(rb"\\([0-9a-f]{2})")


def wanted(row):
    """An answer with each byte as `drawn` has it."""
    return drawn_text(text_of(row), " ")


def drawn(line):
    """The answer in a line of the program."""
    return drawn_text(ESCAPE.sub(lambda found: bytes.fromhex(found[1].decode()), line.encode()), " ")


def parts_of_question(asked, policy):
    """The parts of a question, with its policy; `None` if it is none."""
    found = QUESTION.fullmatch(asked)
    if found is None:
        return None
    words = unrolled(found["words"]).split(" ") if found["words"] else []
    return [
        text_of(found["user"]),
        text_of(found["host"]),
        text_of(found["interfaces"] or "⟨⟩"),
        text_of(policy or "⟨⟩"),
        text_of(found["target"] or "root"),
        part(text_of(found["group"])) if found["group"] else b"",
        text_of(found["stamp"] or "20260101000000Z"),
        joined(*map(text_of, words)),
    ]


def cases_of_group(group):
    """The cases of a group."""
    if group.words not in ASKED:
        raise group.error(group.rows[0][0], f"{' '.join(group.words)}: this is not known")
    asked, files, policy = ASKED[group.words], {}, None
    for number, row in group.rows:
        of_file = FILE.fullmatch(row)
        if of_file:
            files[of_file[1]] = of_file[2]
            policy = None
            continue
        if asked in OF_POLICIES and row[:2] != "? ":
            policy = row
            continue
        question, arrow, answer = row.partition("=> ")
        if not arrow or len(files) < 2 or (asked in OF_POLICIES and policy is None):
            raise group.error(number, "a question without its files, a policy or an answer")
        parts = []
        if asked != b"P":
            parts = parts_of_question(question[2:].rstrip(" "), policy) if question[:2] == "? " else None
        elif question:
            parts = None
        if parts is None:
            raise group.error(number, "this is no question")
        texts = [text_of(files["passwd"]), text_of(files["group"])]
        name = f"{group.where}:{number}: {group.title}: {policy or ''}: {row}"
        yield Case(name, frame(SUBJECT, asked, joined(*texts, *parts)), wanted(answer), drawn)


def cases_of(groups):
    """The cases of a table."""
    for group in groups:
        yield from cases_of_group(group)


def run_all(_program, tally):
    """Asks all tables of people and listings."""
    run_tables("tables_list", {"list": cases_of}, tally)
