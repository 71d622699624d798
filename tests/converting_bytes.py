"""Each byte in each place of a policy, as `convert` prints it.

The rules of printing are written down here once more, as functions of bytes. A place is a line with a hole: the byte
goes there raw, after a backslash, in quotes or by its number. Each place makes one policy, with a line for each byte
that may be there. Line by line its output has to be what the rules say.
"""

import json
import re
from dataclasses import dataclass

from program import Wanted, fault, run
from tally import difference

ALL = frozenset(range(256))
# bytes that end a line or are in no policy
NOWHERE = frozenset(b"\0\r\n")
# bytes with a backslash before them in a word, in the name of a host, and in a path or an argument
IN_A_WORD = frozenset(b'!=:,()\\"# \t')
IN_A_HOST = IN_A_WORD - frozenset(b"\\")
IN_A_COMMAND = frozenset(b',:=#"\t')
AS_IT_IS = re.compile(rb"[A-Za-z0-9_\-./:+]+")
NAME = re.compile(rb"[A-Z][A-Z0-9_]*")


# ---- the rules


def escaped(text, signs):
    """A text with a backslash before each of the signs."""
    return b"".join(b"\\%c" % byte if byte in signs else b"%c" % byte for byte in text)


def word(value):
    """A value as a word: a control byte is printed by its number, but for a tab."""
    pieces = (escaped(b"%c" % byte, IN_A_WORD) for byte in value)
    return b"".join(b"\\x%02x" % piece[0] if piece[0] < 32 or piece[0] == 127 else piece for piece in pieces)


def user(name):
    """The name of a user who is not the first of a line: a name that would read as something else has a backslash."""
    return (b"\\" if NAME.fullmatch(name) or name[:1] in (b"%", b"+") else b"") + word(name)


def parameter(value):
    """The value of a parameter: as it is, in double quotes, or as a word."""
    if AS_IT_IS.fullmatch(value):
        return value
    if any(byte in b'\\"\x7f' or byte < 32 for byte in value):
        return word(value)
    return b'"' + value + b'"'


def quoted_host(value):
    """The name of a host that was in quotes: its wildcards are none."""
    return escaped(escaped(value, b"*?[\\"), IN_A_HOST)


def path(pattern):
    """A path: each space has a backslash too."""
    return escaped(pattern, IN_A_COMMAND | frozenset(b" "))


# ---- the places


@dataclass(frozen=True)
class Place:
    """A place for a byte: the bytes that may be there, the line with the byte, and the printed line."""

    name: str
    bytes: frozenset
    line: object
    printed: object


def number(byte):
    """A byte by its number."""
    return b"\\x%02x" % byte


RAW_IN_A_WORD = ALL - NOWHERE - IN_A_WORD
RAW_IN_A_COMMAND = ALL - NOWHERE - IN_A_COMMAND - frozenset(b"\\ ")
IN_QUOTES = ALL - NOWHERE - frozenset(b'"\\')
AFTER_A_BACKSLASH = ALL - NOWHERE

PLACES = (
    Place(
        "user, raw",
        RAW_IN_A_WORD,
        lambda byte: b"a%cb h=ALL" % byte,
        lambda byte: b"%s h = ALL" % word(b"a%cb" % byte),
    ),
    Place(
        "user, after a backslash",
        AFTER_A_BACKSLASH,
        lambda byte: b"a\\%cg h=ALL" % byte,
        lambda byte: b"%s h = ALL" % word(b"a%cg" % byte),
    ),
    Place(
        "user, in quotes",
        IN_QUOTES,
        lambda byte: b'"a%cb" h=ALL' % byte,
        lambda byte: b"%s h = ALL" % word(b"a%cb" % byte),
    ),
    Place(
        "user, by number",
        ALL,
        lambda byte: b"a%sb h=ALL" % number(byte),
        lambda byte: b"%s h = ALL" % word(b"a%cb" % byte),
    ),
    Place(
        "user of one byte, by number",
        ALL,
        lambda byte: b"x, %s h=ALL" % number(byte),
        lambda byte: b"x, %s h = ALL" % user(b"%c" % byte),
    ),
    Place(
        "first byte of a user, by number",
        ALL,
        lambda byte: b"x, %sy h=ALL" % number(byte),
        lambda byte: b"x, %s h = ALL" % user(b"%cy" % byte),
    ),
    Place(
        "groups and netgroup, by number",
        ALL,
        lambda byte: b"%%a%sb, %%:a%sb, +a%sb h=ALL" % (3 * (number(byte),)),
        lambda byte: b"%%%s, %%:%s, +%s h = ALL" % (3 * (word(b"a%cb" % byte),)),
    ),
    Place(
        "first byte of a group and of a netgroup, by number",
        ALL,
        lambda byte: b"%%%sb, %%:%sb, +%sb h=ALL" % (3 * (number(byte),)),
        lambda byte: b"%%%s, %%:%s, +%s h = ALL" % (3 * (word(b"%cb" % byte),)),
    ),
    Place(
        "runas user, group and netgroup, by number",
        ALL,
        lambda byte: b"bob h=(a%sb : %%a%sb, +a%sb) /x" % (3 * (number(byte),)),
        lambda byte: b"bob h = (%s : %%%s, +%s) /x" % (3 * (word(b"a%cb" % byte),)),
    ),
    Place(
        "host, raw",
        RAW_IN_A_WORD,
        lambda byte: b"bob a%cb=ALL" % byte,
        lambda byte: b"bob a%cb = ALL" % byte,
    ),
    Place(
        "host, after a backslash",
        AFTER_A_BACKSLASH,
        lambda byte: b"bob a\\%cb=ALL" % byte,
        lambda byte: b"bob a\\%cb = ALL" % byte,
    ),
    Place(
        "host, in quotes",
        IN_QUOTES,
        lambda byte: b'bob "a%cb"=ALL' % byte,
        lambda byte: b"bob %s = ALL" % quoted_host(b"a%cb" % byte),
    ),
    Place(
        "netgroup among hosts, raw",
        RAW_IN_A_WORD,
        lambda byte: b"bob +%cb=ALL" % byte,
        lambda byte: b"bob +%cb = ALL" % byte,
    ),
    Place(
        "path, raw",
        RAW_IN_A_COMMAND,
        lambda byte: b"bob h=/a%cb" % byte,
        lambda byte: b"bob h = /a%cb" % byte,
    ),
    Place(
        "path, after a backslash",
        AFTER_A_BACKSLASH,
        lambda byte: b"bob h=/a\\%cb" % byte,
        lambda byte: b"bob h = /a\\%cb" % byte,
    ),
    Place(
        "path of an alias, after a backslash",
        AFTER_A_BACKSLASH,
        lambda byte: b"Cmnd_Alias A%d=/\\%c" % (byte, byte),
        lambda byte: b"Cmnd_Alias A%d = /\\%c" % (byte, byte),
    ),
    Place(
        "path of a scope, after a backslash",
        AFTER_A_BACKSLASH,
        lambda byte: b"Defaults!/a\\%cb x" % byte,
        lambda byte: b"Defaults!/a\\%cb x" % byte,
    ),
    Place(
        "argument, raw",
        RAW_IN_A_COMMAND,
        lambda byte: b"bob h=/x  a%cb" % byte,
        lambda byte: b"bob h = /x a%cb" % byte,
    ),
    Place(
        "argument, after a backslash",
        AFTER_A_BACKSLASH - frozenset(b" "),
        lambda byte: b"bob h=/x a\\%cb" % byte,
        lambda byte: b"bob h = /x a\\%cb" % byte,
    ),
    Place(
        "argument, in quotes",
        IN_QUOTES - frozenset(b",:="),
        lambda byte: b'bob h=/x "a%cb"' % byte,
        lambda byte: b'bob h = /x \\"a%sb\\"' % escaped(b"%c" % byte, IN_A_COMMAND),
    ),
    Place(
        "argument of sudoedit, raw",
        RAW_IN_A_COMMAND,
        lambda byte: b"bob h=sudoedit a%cb" % byte,
        lambda byte: b"bob h = sudoedit a%cb" % byte,
    ),
    Place(
        "value of an option, by number",
        ALL,
        lambda byte: b"bob h=CWD=a%sb /x" % number(byte),
        lambda byte: b"bob h = CWD=%s /x" % word(b"a%cb" % byte),
    ),
    Place(
        "value of an option, in quotes",
        IN_QUOTES,
        lambda byte: b'bob h=ROLE="%c" /x' % byte,
        lambda byte: b"bob h = ROLE=%s /x" % word(b"%c" % byte),
    ),
    Place(
        "value of a parameter, by number",
        ALL,
        lambda byte: b"Defaults x=a%sb" % number(byte),
        lambda byte: b"Defaults x=%s" % parameter(b"a%cb" % byte),
    ),
    Place(
        "value of a parameter, in quotes",
        IN_QUOTES,
        lambda byte: b'Defaults x="%c"' % byte,
        lambda byte: b"Defaults x=%s" % parameter(b"%c" % byte),
    ),
    Place(
        "user of a scope, by number",
        ALL,
        lambda byte: b"Defaults:a%sb x" % number(byte),
        lambda byte: b"Defaults:%s x" % word(b"a%cb" % byte),
    ),
    Place(
        "groups and netgroup, raw",
        RAW_IN_A_WORD,
        lambda byte: b"%%a%cb, %%:a%cb, +a%cb h=ALL" % (3 * (byte,)),
        lambda byte: b"%%%s, %%:%s, +%s h = ALL" % (3 * (word(b"a%cb" % byte),)),
    ),
    Place(
        "groups and netgroup, in quotes",
        IN_QUOTES,
        lambda byte: b'"%%a%cb", "%%:a%cb", "+a%cb" h=ALL' % (3 * (byte,)),
        lambda byte: b"%%%s, %%:%s, +%s h = ALL" % (3 * (word(b"a%cb" % byte),)),
    ),
    Place(
        "runas user, group and netgroup, raw",
        RAW_IN_A_WORD,
        lambda byte: b"bob h=(a%cb, +a%cb : a%cb) /x" % (3 * (byte,)),
        lambda byte: b"bob h = (%s, +%s : %s) /x" % (3 * (word(b"a%cb" % byte),)),
    ),
    Place(
        "host, by number",
        ALL,
        lambda byte: b"bob a%sb=ALL" % number(byte),
        lambda byte: b"bob a%sb = ALL" % number(byte),
    ),
    Place(
        "first byte of a host, after a backslash",
        AFTER_A_BACKSLASH,
        lambda byte: b"bob \\%cb=ALL" % byte,
        lambda byte: b"bob \\%cb = ALL" % byte,
    ),
    Place(
        "netgroup among hosts, after a backslash",
        AFTER_A_BACKSLASH,
        lambda byte: b"bob +a\\%cb=ALL" % byte,
        lambda byte: b"bob +a\\%cb = ALL" % byte,
    ),
    Place(
        "value of an option, raw",
        RAW_IN_A_WORD,
        lambda byte: b"bob h=CWD=a%cb /x" % byte,
        lambda byte: b"bob h = CWD=%s /x" % word(b"a%cb" % byte),
    ),
    Place(
        "value of an option, after a backslash",
        AFTER_A_BACKSLASH,
        lambda byte: b"bob h=CWD=a\\%cg /x" % byte,
        lambda byte: b"bob h = CWD=%s /x" % word(b"a%cg" % byte),
    ),
    Place(
        "values of several options, by number",
        ALL,
        lambda byte: b"bob h=ROLE=a%sb TYPE=a%sb PRIVS=a%sb LIMITPRIVS=a%sb CWD=a%sb /x" % (5 * (number(byte),)),
        lambda byte: b"bob h = ROLE=%s TYPE=%s PRIVS=%s LIMITPRIVS=%s CWD=%s /x" % (5 * (word(b"a%cb" % byte),)),
    ),
    Place(
        "value of a parameter, raw",
        RAW_IN_A_WORD,
        lambda byte: b"Defaults x=a%cb" % byte,
        lambda byte: b"Defaults x=%s" % parameter(b"a%cb" % byte),
    ),
    Place(
        "value of a parameter, after a backslash",
        AFTER_A_BACKSLASH,
        lambda byte: b"Defaults x=a\\%cg" % byte,
        lambda byte: b"Defaults x=%s" % parameter(b"a%cg" % byte),
    ),
    Place(
        "values added to a parameter and taken from it, by number",
        ALL,
        lambda byte: b"Defaults x+=a%sb, x-=a%sb" % (2 * (number(byte),)),
        lambda byte: b"Defaults x+=%s, x-=%s" % (2 * (parameter(b"a%cb" % byte),)),
    ),
    Place(
        "group and netgroup of a scope, by number",
        ALL,
        lambda byte: b"Defaults:%%a%sb, +a%sb x" % (2 * (number(byte),)),
        lambda byte: b"Defaults:%%%s, +%s x" % (2 * (word(b"a%cb" % byte),)),
    ),
    Place(
        "user of a scope, raw",
        RAW_IN_A_WORD,
        lambda byte: b"Defaults:a%cb x" % byte,
        lambda byte: b"Defaults:%s x" % word(b"a%cb" % byte),
    ),
    Place(
        "runas user, group and netgroup of a scope, by number",
        ALL,
        lambda byte: b"Defaults>a%sb, %%a%sb, +a%sb x" % (3 * (number(byte),)),
        lambda byte: b"Defaults>%s, %%%s, +%s x" % (3 * (word(b"a%cb" % byte),)),
    ),
    Place(
        "host and netgroup of a scope, raw",
        RAW_IN_A_WORD,
        lambda byte: b"Defaults@a%cb, +a%cb x" % (byte, byte),
        lambda byte: b"Defaults@a%cb, +a%cb x" % (byte, byte),
    ),
    Place(
        "host and netgroup of a scope, after a backslash",
        AFTER_A_BACKSLASH,
        lambda byte: b"Defaults@a\\%cb, +a\\%cb x" % (byte, byte),
        lambda byte: b"Defaults@a\\%cb, +a\\%cb x" % (byte, byte),
    ),
    Place(
        "host of a scope, in quotes",
        IN_QUOTES,
        lambda byte: b'Defaults@"a%cb" x' % byte,
        lambda byte: b"Defaults@%s x" % quoted_host(b"a%cb" % byte),
    ),
    Place(
        "path of a scope, raw",
        RAW_IN_A_COMMAND,
        lambda byte: b"Defaults!/a%cb x" % byte,
        lambda byte: b"Defaults!/a%cb x" % byte,
    ),
    Place(
        "user, group and netgroup of an alias, by number",
        ALL,
        lambda byte: b"User_Alias A%d=a%sb, %%a%sb, +a%sb" % (byte, *(3 * (number(byte),))),
        lambda byte: b"User_Alias A%d = %s, %%%s, +%s" % (byte, *(3 * (word(b"a%cb" % byte),))),
    ),
    Place(
        "runas user, group and netgroup of an alias, by number",
        ALL,
        lambda byte: b"Runas_Alias A%d=a%sb, %%a%sb, +a%sb" % (byte, *(3 * (number(byte),))),
        lambda byte: b"Runas_Alias A%d = %s, %%%s, +%s" % (byte, *(3 * (word(b"a%cb" % byte),))),
    ),
    Place(
        "host and netgroup of an alias, raw",
        RAW_IN_A_WORD,
        lambda byte: b"Host_Alias A%d=a%cb, +a%cb" % (byte, byte, byte),
        lambda byte: b"Host_Alias A%d = a%cb, +a%cb" % (byte, byte, byte),
    ),
    Place(
        "host and netgroup of an alias, after a backslash",
        AFTER_A_BACKSLASH,
        lambda byte: b"Host_Alias A%d=a\\%cb, +a\\%cb" % (byte, byte, byte),
        lambda byte: b"Host_Alias A%d = a\\%cb, +a\\%cb" % (byte, byte, byte),
    ),
    Place(
        "argument of an alias, after a backslash",
        AFTER_A_BACKSLASH - frozenset(b" "),
        lambda byte: b"Cmnd_Alias A%d=/x a\\%cb, sudoedit a\\%cb" % (byte, byte, byte),
        lambda byte: b"Cmnd_Alias A%d = /x a\\%cb, sudoedit a\\%cb" % (byte, byte, byte),
    ),
)


def policy_of(place, allowed):
    """The policy of a place with the allowed bytes, and its printed lines."""
    found = sorted(place.bytes & allowed)
    return b"".join(place.line(byte) + b"\n" for byte in found), [place.printed(byte) for byte in found]


def run_sudoers(program, tally):
    """Prints each byte in each place as a policy, and once more."""
    words = ("convert", "-f", "sudoers", "-")
    for place in PLACES:
        policy, lines = policy_of(place, ALL)
        answer = run(program, words, policy)
        came = answer.stdout.split(b"\n")
        problems = Wanted(None).problems(answer) + difference("end", b"", came.pop())
        for wanted, line in zip(lines, came):
            problems += difference("line", wanted, line)
        problems += difference("lines", len(lines), len(came))
        problems += Wanted(answer.stdout).problems(run(program, words, answer.stdout))
        tally.note(f"sudoers, {place.name}", problems)


def texts_of(value):
    """The texts of a JSON value, without its keys, in their order."""
    if isinstance(value, str):
        return [value]
    parts = value.values() if isinstance(value, dict) else value if isinstance(value, list) else []
    return [text for part in parts for text in texts_of(part)]


def json_problems(text, lines):
    """Where the texts of a JSON value are not those of the printed lines: one alias, Defaults line or specification a line."""
    value = json.loads(text)
    entries = value["defaults"] + value["aliases"] + value["specs"]
    problems = difference("entries", len(lines), len(entries))
    for entry, line in zip(entries, lines):
        problems += [f"{part!r} is not in {line!r}" for part in texts_of(entry) if part.encode() not in line]
    return problems


def run_json(program, tally):
    """Prints each byte in each place as JSON if its printed line is ASCII. No other byte is UTF-8 alone."""
    words = ("convert", "-f", "json", "-")
    for place in PLACES:
        in_ascii = frozenset(byte for byte in place.bytes if place.printed(byte).isascii())
        policy, lines = policy_of(place, in_ascii)
        answer = run(program, words, policy)
        problems = Wanted(None).problems(answer) or json_problems(answer.stdout, lines)
        tally.note(f"json, {place.name}", problems)
        for byte in sorted(place.bytes - in_ascii):
            answer = run(program, words, place.line(byte) + b"\n")
            tally.note(f"json, {place.name}, byte {byte}", fault("NotUtf8").problems(answer))
