"""Grows policies out of the worked policies: it joins lines of several and changes words, signs, blanks and lines.

The same seed and number give the same policy on every machine: all is drawn by `Draw`, in the order of worked_policies.py.
"""

import random
import re

import worked_policies
from changed_files import LOGICAL

MOST = 400
MAIN, ALONE = b"main", b"-"

PIECE = re.compile(rb'\\\r?\n|\\.|"(?:[^"\\\n]|\\.)*"|#[^\n]*|\r?\n|[ \t]+|[,:=!()]|[^\\"# \t\r\n,:=!()]+|.', re.S)
NAME = re.compile(rb"(?<![\w%+/\\])[A-Z][A-Z0-9_]*(?![\w/])")
DEFINED = re.compile(rb"(?<![\w%+/\\])([A-Z][A-Z0-9_]*)[ \t]*=")
ALIAS_LINE = re.compile(rb"[ \t]*(User|Runas|Host|Cmnd|Cmd)_Alias\b")
INCLUDE = re.compile(rb"[ \t]*[@#]include(dir)?[ \t]")
OTHER_LINE = re.compile(rb"[ \t]*(?:[@#]|Defaults|$)")

# The names that aliases get, and those of files.
NAMES = (b"A", b"B", b"C", b"OPS", b"WEB", b"X1", b"Y_2", b"LONG_NAME", b"Z")
RESERVED = (b"ALL", b"CWD", b"MAIL")
FILES = (b"a", b"b", b"d/x", b"d/y", b"d/z")
FOLDER_LINE = b"@includedir d\n"

# What comes before a command of a user specification; and behind one of the marks of any line.
BEFORE_COMMANDS = (
    *(b"NOPASSWD: ", b" PASSWD:", b"NOEXEC: ", b" SETENV : ", b"NOLOG_INPUT:MAIL: ", b"FOLLOW: "),
    *(b"(root)", b" (ann : adm) ", b"(:adm)", b"() ", b"(ALL, !root) ", b"(A : B) ", b"(#0, %adm)", b"!", b"! ! "),
    *(b"CWD=/x ", b'ROLE=r TYPE="t u" ', b"CHROOT=/c\\ d ", b"NOTAFTER=2030010112Z ", b"TIMEOUT=1h ", b'CWD="" '),
    *(b"ALL, ", b"!/bin/su, ", b"sudoedit /etc/*, ", b'/bin/ls "", ', b"list, ", b"A, ", b"!B, ", b"/opt/, ", b"NOSETENV: ALL, "),
)
BEHIND_MARKS = (
    (b"=,", (b"!", b" !", b"! !")),
    (b",:=!", (b" ", b"\t", b"  ")),
    (b",:=", (b"\\\n", b" \\\n\t", b"\\\r\n  ")),
)
OPTIONS = tuple(b"ROLE TYPE APPARMOR_PROFILE PRIVS LIMITPRIVS NOTBEFORE NOTAFTER TIMEOUT CWD CHROOT".split())
COMMENTS = (b"# a comment\n", b"  # \\\n", b"#\n", b"\n", b" \t\n", b"# \xff\n")
TAILS = (b" # why", b"# \xc3\xa9", b" ", b"\t", b" \\\n", b" #7", b"\r")
WORDS = (b"bob", b"ann", b"root", b"%adm", b"#1000", b"ALL", b"h1", b"10.1.0.0/16", b"web*", b"/bin/ls", b"/bin/*", b"A", b"+net")


class Draw:
    """Draws by `random.random` alone, which gives the same numbers in each version of Python."""

    def __init__(self, seed, number):
        self.chance = random.Random(seed * 1_000_000_007 + number)

    def below(self, count):
        """Returns a number from 0, below `count`."""
        return int(self.chance.random() * count)

    def pick(self, items):
        """Returns one of the items."""
        return items[self.below(len(items))]

    def happens(self, share):
        """Returns whether something happens that does so in this share of all draws."""
        return self.chance.random() < share


def command_places(pieces):
    """Returns where commands begin in the pieces of a user specification: behind its first `=`, and outside of parentheses."""
    places, depth, begun, before = [], 0, False, (b"", b"")
    for at, piece in enumerate(pieces):
        if piece[:1] in b" \t\\":
            continue
        is_command = piece[:1] == b"/" or piece in (b"ALL", b"list", b"sudoedit") or NAME.fullmatch(piece)
        if begun and depth == 0 and is_command and before[1] in b"=,:)" and before[0] not in OPTIONS:
            places.append(at)
        depth += (piece == b"(") - (piece == b")")
        begun = begun or piece == b"="
        before = before[1], piece
    return places


def with_rule_text(draw, line):
    """Returns the line with a tag, an option, a Runas_Spec or a command before a command, if it is a user specification."""
    pieces = PIECE.findall(line)
    places = [] if ALIAS_LINE.match(line) or OTHER_LINE.match(line) else command_places(pieces)
    if not places:
        return line
    at = draw.pick(places)
    return b"".join([*pieces[:at], draw.pick(BEFORE_COMMANDS), *pieces[at:]])


def with_any_text(draw, line):
    """Returns the line with a sign, a blank or a continuation behind a mark."""
    marks, texts = draw.pick(BEHIND_MARKS)
    pieces = PIECE.findall(line)
    places = [at + 1 for at, piece in enumerate(pieces) if len(piece) == 1 and piece in marks]
    if not places:
        return line
    at = draw.pick(places)
    return b"".join([*pieces[:at], draw.pick(texts), *pieces[at:]])


def with_swapped_members(draw, line):
    """Returns the line with two members that stand beside a comma in each other's place."""
    pieces = PIECE.findall(line)
    commas = [at for at, piece in enumerate(pieces) if piece == b","]
    if not commas:
        return line
    comma = draw.pick(commas)
    begin = max((at for at in range(comma) if pieces[at] in b",:=()" and len(pieces[at]) == 1), default=-1) + 1
    stops = (at for at in range(comma + 1, len(pieces)) if pieces[at][:1] in b",:=()#\r\n")
    end = next(stops, len(pieces))
    return b"".join([*pieces[:begin], *pieces[comma + 1 : end], b",", *pieces[begin:comma], *pieces[end:]])


def without_piece(draw, line):
    """Returns the line without a `!`, a blank, a continuation or a comment, if it has one."""
    pieces = PIECE.findall(line)
    places = [at for at, piece in enumerate(pieces) if piece[:1] in b"! \t#" or piece[:2] in (b"\\\n", b"\\\r")]
    if not places:
        return line
    at = draw.pick(places)
    return b"".join(pieces[:at] + pieces[at + 1 :])


def with_other_word(draw, line):
    """Returns the line with another word in the place of one, but for the first."""
    pieces = PIECE.findall(line)
    places = [at for at, piece in enumerate(pieces) if re.fullmatch(rb"[\w%/*.]+", piece)][1:]
    if not places:
        return line
    at = draw.pick(places)
    return b"".join([*pieces[:at], draw.pick(WORDS), *pieces[at + 1 :]])


def with_tail(draw, line):
    """Returns the line with a comment, a blank or a continuation at its end."""
    return line[:-1] + draw.pick(TAILS) + b"\n" if line.endswith(b"\n") else line


CHANGES = (
    *(with_rule_text, with_rule_text, with_rule_text, with_any_text, with_any_text, with_any_text),
    *(with_swapped_members, without_piece, with_other_word, with_tail),
)


def with_name(text, name, other):
    """Returns the text with another name in each place of a name."""
    return NAME.sub(lambda found: other if found[0] == name else found[0], text)


def names_in(text):
    """Returns the names of aliases in a text, in the order of their bytes."""
    return sorted({name for name in NAME.findall(text) if name not in RESERVED and not name.endswith(b"PASSWD")})


def apart(draw, lines, more):
    """Returns further lines for these: a name that both define has mostly another name there."""
    text, known = b"".join(more), set(DEFINED.findall(b"".join(lines)))
    for name in sorted(known & set(DEFINED.findall(text))):
        if name not in RESERVED and draw.happens(0.97):
            text = with_name(text, name, name + b"_%d" % draw.below(1000))
    return LOGICAL.findall(text)


def ended(lines):
    """Returns the lines, each with a line end."""
    return [line if line.endswith(b"\n") else line + b"\n" for line in lines]


def with_other_lines(draw, lines):
    """Returns the lines after a change of their number or order: one goes, comes twice, changes its place, or a comment comes."""
    at, lines = draw.below(len(lines) + 1), list(lines)
    way = draw.below(4)
    if way == 0 or at == len(lines):
        lines.insert(at, draw.pick(COMMENTS))
    elif way == 1 and len(lines) > 1:
        del lines[at]
    elif way == 2:
        lines.insert(draw.below(len(lines)), lines.pop(at))
    elif not ALIAS_LINE.match(lines[at]) and not INCLUDE.match(lines[at]):
        lines.insert(draw.below(len(lines)), lines[at])
    return lines


class Seeds:
    """The worked policies that policies grow out of: the texts of one file, and those of several files."""

    def __init__(self):
        lines, texts, self.several = [], [], []
        for files, where in worked_policies.policies().items():
            if sum(len(text) for _, text in files) > MOST or where.startswith(worked_policies.REFUSED):
                continue
            if len(files) > 1:
                names = [name for name, _ in files]
                self.several += [files] * (names[0] == MAIN and all(re.fullmatch(rb"[a-ce-z]|d/[a-z]", name) for name in names[1:]))
            else:
                (lines if "tests/tables/line" in where else texts).append(files[0][1])
        self.texts = (texts, lines)
        if not (lines and texts and self.several):
            raise ValueError("no worked policies to grow others out of")

    def draw_lines(self, draw):
        """Returns the lines of a policy of one file, mostly without its include lines."""
        lines = ended(LOGICAL.findall(draw.pick(self.texts[draw.happens(0.15)])))
        return [line for line in lines if not INCLUDE.match(line) or draw.happens(0.05)]


def grown_lines(draw, seeds):
    """Returns the lines of some worked policies, after some changes."""
    lines = seeds.draw_lines(draw)
    for _ in range(draw.below(6)):
        lines += apart(draw, lines, seeds.draw_lines(draw))
    return changed_lines(draw, lines or [b"\n"])


def changed_lines(draw, lines):
    """Returns the lines after some changes of them and of their names."""
    for _ in range(1 + draw.below(4)):
        lines = lines or [b"\n"]
        at, change = draw.below(len(lines)), draw.pick(CHANGES)
        if draw.happens(0.8):
            lines[at : at + 1] = LOGICAL.findall(change(draw, lines[at]))
        else:
            lines = with_other_lines(draw, lines)
    text = b"".join(lines)
    names = names_in(text)
    if names and draw.happens(0.5):
        text = with_name(text, draw.pick(names), draw.pick(NAMES if draw.happens(0.97) else RESERVED))
    if draw.happens(0.1):
        text = text[:-1]
    return LOGICAL.findall(text) or [b"\n"]


def shared_out(draw, lines):
    """Returns files with the lines: each included file gets some, and a line of the file before or of the first one includes it."""
    names = [name for name in FILES if draw.happens(0.4)] or [FILES[0]]
    files, per_file = {MAIN: []}, len(lines) // (len(names) + 1)
    for name in names:
        files[name], lines = ended(lines[:per_file]), lines[per_file:]
    files[MAIN] = lines
    for place, name in enumerate(names):
        if not name.startswith(b"d/"):
            before = names[place - 1] if place and draw.happens(0.5) else MAIN
            files[before].insert(draw.below(len(files[before]) + 1), b"@include %s\n" % name)
    if any(name.startswith(b"d/") for name in names):
        files[MAIN].insert(draw.below(len(files[MAIN]) + 1), FOLDER_LINE)
    return tuple((name, b"".join(ended(text) if name == MAIN else text)) for name, text in files.items())


def grown_policy(seeds, seed, number):
    """Returns the files of the policy of this seed and number: a name and a text each."""
    draw = Draw(seed, number)
    way = draw.below(8)
    if way == 0:
        return shared_out(draw, grown_lines(draw, seeds))
    if way == 1:
        files = draw.pick(seeds.several)
        return tuple((name, b"".join(changed_lines(draw, LOGICAL.findall(text) or [b"\n"]))) for name, text in files)
    return ((ALONE, b"".join(grown_lines(draw, seeds))),)
