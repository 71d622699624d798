"""Asks the program `cases` the tables of `tables/hits` and `tables/match`.

The words of a group's head say what is asked:

    glob path, glob args    whether texts match a pattern, in paths or in arguments
    glob host               the same in arguments, with letters in lower case
    network                 whether an address or a network hits one of the interfaces

A row that begins with neither `+ ` nor `- ` is a pattern, or an address with its mask if it has one. The rows below it
are texts, or lists of interfaces: those with `+` match, those with `-` do not.

    decide user, decide runas   what the alias A says of a user: a name with its number, and his groups
    decide group                what the runas alias A says of a group: a name with its number
    decide host                 what the alias A says of a host: its short name, its long name, and its interfaces
    decide command              what the alias A says of a command with its arguments

A row without a sign is a policy. The rows below it are what is asked: A allows those with `+`, denies those with `-`,
and says nothing of those with `?`. Those with `!` have no answer, because of a cyclic alias.

    host groups     where a user has rules on a host
    runas default   as whom a command runs for a user on a host where nothing else is said: a name, or `empty`

A row that does not begin with `? ` is a policy. A row `? USER GROUPS @ HOST => ANSWER` below it asks of a user and a
host as above. The places are pairs of numbers from 0, that of the user specification and that of its host group.

    answer          what the policy answers to a request

The rows are as above, and a question is `? USER GROUPS @ HOST as TARGET GROUPS group GROUP at MOMENT runs COMMAND`.
Without `as` the target is root, without `group` none is asked for, and `at` stands only where the moment matters. The
answer is `allow` or `deny`, the place of the row (user specification, host group and command, from 0), and the tags
and options that hold of the command; or `none`, `Cycle` or `TooLong`.

    edited answer   what it answers after edits

A row that begins with `+ ` is a script, which the requests below it are asked after. The answer may be `refused`.
"""

import re
import struct

from tables import Case, NoRow, frame, joined, run_tables, text_of, unrolled

SUBJECT = b"m"

ASKED = {("glob", "path"): b"p", ("glob", "args"): b"a", ("glob", "host"): b"l", ("network",): b"n"}
SIGNS = {"+ ": "true", "- ": "false"}
LISTS = {"user": b"U", "runas": b"R", "group": b"G", "host": b"H", "command": b"C"}
POLICIES = {("host", "groups"): b"K", ("runas", "default"): b"D", ("answer",): b"A", ("edited", "answer"): b"E"}
REQUEST = re.compile("(?P<user>.+?) @ (?P<host>.+?)(?: as (?P<target>.+?))?(?: group (?P<group>.+?))?(?: at (?P<moment>[0-9]+))? runs (?P<command>.+)")
VERDICTS = {"+ ": "Allow", "- ": "Deny", "? ": "Unsaid", "! ": "Cycle"}


def address(text):
    """The four bytes of an address."""
    return bytes(int(number) for number in text.split("."))


def mask(text):
    """The five bytes of a mask: how many bits, or 255 and an address."""
    return b"\xff" + address(text) if "." in text else bytes([int(text), 0, 0, 0, 0])


def network(row):
    """The bytes of an address, and of its mask if it has one."""
    number, slash, bits = unrolled(row).partition("/")
    return address(number) + (mask(bits) if slash else b"")


def interfaces(row):
    """The bytes of a list of interfaces."""
    return b"" if row == "⟨⟩" else b"".join(network(one) for one in unrolled(row).split(","))


def numbered(text):
    """The parts of a name with its number."""
    name, _, number = text.rpartition(":")
    return text_of(name), struct.pack(">I", int(number))


def parts_asked(asked, row):
    """The parts of what is asked of a list."""
    if asked == b"C":
        path, _, args = row.partition(" ")
        return text_of(path), text_of(args) if args else b""
    words = row.split(" ")
    if asked == b"H":
        return text_of(words[0]), text_of(words[1]), interfaces(words[2]) if len(words) > 2 else b""
    groups = words[1].split(",") if len(words) > 1 else []
    return [part for one in [words[0], *groups] for part in numbered(one)]


def parts_of_request(asked):
    """The parts of a request: host, user, target, group, command, arguments and moment; `None` if it is none."""
    found = REQUEST.fullmatch(asked)
    if found is None:
        return None
    command, *args = unrolled(found["command"]).split(" ")
    return [
        joined(*parts_asked(b"H", found["host"])),
        joined(*parts_asked(b"U", found["user"])),
        joined(*parts_asked(b"U", found["target"] or "root:0 root:0")),
        joined(*numbered(found["group"])) if found["group"] else b"",
        text_of(command),
        joined(*map(text_of, args)),
        struct.pack(">Q", int(found["moment"] or "20260101000000")),
    ]


def parts_of_user(asked):
    """The parts of a user on a host: host and user; `None` if it is none."""
    user, at, host = asked.partition(" @ ")
    return [joined(*parts_asked(b"H", host)), joined(*parts_asked(b"U", user))] if at else None


def cases_of_policies(group):
    """The cases of a group of questions to a policy."""
    asked_of, policy, script = POLICIES[group.words], None, None
    for number, row in group.rows:
        if asked_of == b"E" and row[:2] == "+ ":
            script = row[2:]
            continue
        if row[:2] != "? ":
            policy, script = row, None
            continue
        asked, arrow, wanted = row[2:].partition(" => ")
        if policy is None or not arrow or (asked_of == b"E" and script is None):
            raise group.error(number, "a question without a policy, a script or an answer")
        parts = parts_of_request(asked) if asked_of in b"AE" else parts_of_user(asked)
        if parts is None:
            raise group.error(number, "this is no question")
        scripts = [] if script is None else [text_of(script)]
        name = f"{group.where}:{number}: {group.title}: {policy}: {script or ''}: {row}"
        yield Case(name, frame(SUBJECT, asked_of, joined(text_of(policy), *scripts, *parts)), wanted, str)


def cases_of_lists(group):
    """The cases of a group of lists."""
    asked, policy = LISTS[group.words[1]], None
    for number, row in group.rows:
        if row[:2] not in VERDICTS:
            policy = row
            continue
        if policy is None:
            raise group.error(number, "a question without a policy")
        name = f"{group.where}:{number}: {group.title}: {policy}: {row}"
        yield Case(name, frame(SUBJECT, asked, joined(text_of(policy), *parts_asked(asked, row[2:]))), VERDICTS[row[:2]], str)


def cases_of_group(group):
    """The cases of a group."""
    if group.words[0] == "decide" and group.words[1:] and group.words[1] in LISTS:
        yield from cases_of_lists(group)
        return
    if group.words in POLICIES:
        yield from cases_of_policies(group)
        return
    if group.words not in ASKED:
        raise NoRow(f"{' '.join(group.words)}: {group.title}: this is not known")
    asked, pattern = ASKED[group.words], None
    of_pattern, of_text = (network, interfaces) if asked == b"n" else (text_of, text_of)
    for number, row in group.rows:
        if row[:2] not in SIGNS:
            pattern = row
            continue
        if pattern is None:
            raise group.error(number, "a text without a pattern")
        name = f"{group.where}:{number}: {group.title}: {pattern}: {row}"
        yield Case(name, frame(SUBJECT, asked, joined(of_pattern(pattern), of_text(row[2:]))), SIGNS[row[:2]], str)


def cases_of(groups):
    """The cases of a table."""
    for group in groups:
        yield from cases_of_group(group)


def run_all(_program, tally):
    """Asks all tables of patterns, networks and lists."""
    run_tables("tables_match", {"hits": cases_of, "match": cases_of}, tally)
