"""Hostile scripts of edits: many edits of a long line, of many lines, of many mentions, or of many files."""

import policies
from hostile import LINE, POLICY

SIZE = 1_000_000
ENDS = 2_000
UNDONE = 500
DELETES = 100
MOVES = 200
MOVED_LINES = 200_000
MEMBERS = 2_000
SHORT_LINE = 40_000
RENAMES = 200
MENTIONS_A_LINE = 20_000
MENTION_LINES = 15
FILES = 256
FILE_SIZE = 3_600
FILE_EDITS = 300


def line_of_members(size):
    """One line of at most so many bytes: an alias of many members."""
    begin, member, end = b"User_Alias A = m", b", m", b"\n"
    return begin + member * ((size - len(begin) - len(end)) // len(member)) + end


def mentions():
    """A name, and lines that mention it."""
    return b"User_Alias AB = x\n" + (b"AB," * (MENTIONS_A_LINE - 1) + b"AB ALL=ALL\n") * MENTION_LINES


def bundle():
    """As many files as a policy may have, each of the same size: the first includes the folder of the others."""
    rest = b"@includedir d\n"
    texts = [b"#" * (FILE_SIZE - len(rest) - 1) + b"\n" + rest]
    texts += [policies.rules(FILE_SIZE)] * (FILES - 1)
    names = [b"sudoers"] + [b"d/%03d" % number for number in range(1, FILES)]
    return b"".join(b"%%%% %d %s\n%s" % (len(text), name, text) for name, text in zip(names, texts))


def file_edits():
    """Edits that each insert a line into another file than the one before."""
    return b"".join(b"file %d\ninsert 1\n|# edited\n" % (number % (FILES - 1) + 2) for number in range(FILE_EDITS))


def commands(ground):
    """The hostile commands."""
    lines = policies.policy(SIZE)
    text = b"".join(lines)
    yield ground.editing("2,000 times the end opened or closed", text, b"openend\nendline\n" * (ENDS // 2))
    script, options = policies.front_edits(UNDONE), ("edit", "--undo", str(UNDONE), "--redo", str(UNDONE))
    yield ground.editing("500 lines inserted, undone and inserted again", text, script, options)
    yield ground.editing("100 of 1,048,576 empty lines deleted", b"\n" * POLICY, b"delete 500000\n" * DELETES)
    moved = b"#---\n" * MOVED_LINES
    yield ground.editing("200 of 200,000 lines moved", moved, b"move 1 %d\n" % MOVED_LINES * MOVES)
    short, long = line_of_members(SHORT_LINE), line_of_members(LINE)
    yield ground.editing("2,000 members added to a line of 40,000 bytes", short, b"add user A 2\n>, m1234567\n" * MEMBERS)
    yield ground.editing("2,000 members dropped from a line of 65,536 bytes", long, b"drop user A 2\n" * MEMBERS)
    renames = b"rename user AB BA\nrename user BA AB\n" * (RENAMES // 2)
    yield ground.editing("200 renames of a name that is mentioned 300,000 times", mentions(), renames)
    yield ground.scripted("300 edits over 256 files of 3,600 bytes", file_edits() + bundle(), FILES * FILE_SIZE)
