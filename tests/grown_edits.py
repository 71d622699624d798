"""Draws edits of the policies that grown_policies.py grows: of all eleven kinds, of their lines, aliases and members.

Most edits fit what is there, and some do not. So some are accepted, and others are refused for each cause.
"""


from dataclasses import dataclass

from changed_files import LOGICAL
from grown_policies import ALIAS_LINE, DEFINED, NAMES, changed_lines
from rows import payload

KINDS = {b"User": b"user", b"Runas": b"runas", b"Host": b"host", b"Cmnd": b"cmnd", b"Cmd": b"cmnd"}
MEMBERS = {
    b"user": (b"ann", b"%adm", b"#501", b"!bob", b"A", b"! B", b'"a b"', b"+net"),
    b"runas": (b"root", b"%adm", b"#0", b"!ann", b"A", b"OPS"),
    b"host": (b"h1", b"10.1.0.0/16", b"!web*", b"A", b"WEB", b"h2.example"),
    b"cmnd": (b"/bin/ls", b"/bin/sh -c x", b"!/bin/su", b"sudoedit /etc/*", b"A", b'/bin/id ""', b"sha224:aa /bin/x", b"list"),
}
BLANKS = (b"", b" ", b" ", b"  ", b"\t", b" \\\n\t")
FRESH = (*NAMES, b"FRESH", b"NEW_1", b"OTHER", b"Q", b"CREW", b"a", b"ALL")
OF_LINES = ("insert", "insert", "insert", "delete", "delete", "move")
OF_ALIASES = ("add", "add", "add", "drop", "drop", "adddef", "adddef", "dropdef", "rename", "rename")
OF_FILES = ("endline", "openend", "prune")
NO_ALIAS = (b"user", b"NONE", 1, 1, 1)
MOST = 6


@dataclass(frozen=True)
class Edit:
    """An edit: its command with its text, and the number of its file, or 0 if it names none."""

    text: bytes
    file: int = 0

    def alone(self):
        """Returns the script of this edit alone."""
        return script_of([self])


def script_of(edits):
    """Returns the script of edits: a line `file K` comes before an edit of another file than the one that is set."""
    script, known = b"", 1
    for edit in edits:
        if edit.file not in (0, known):
            script, known = script + b"file %d\n" % edit.file, edit.file
        script += edit.text
    return script


def aliases_of(files):
    """Returns the aliases that lines of the files seem to define: kind, name, number of the file, line and how many definitions it has."""
    found = []
    for number, (_, text) in enumerate(files, 1):
        for at, line in enumerate(LOGICAL.findall(text), 1):
            kind = ALIAS_LINE.match(line)
            names = DEFINED.findall(line) if kind else []
            found += [(KINDS[kind[1]], name, number, at, len(names)) for name in names]
    return found


class Editing:
    """The files that edits are drawn for, with their lines and aliases."""

    def __init__(self, draw, files, seeds):
        self.draw, self.seeds = draw, seeds
        self.lines = [LOGICAL.findall(text) for _, text in files]
        self.aliases = aliases_of(files)

    def line_of(self, file, past=0):
        """Returns the number of a line of a file: mostly one that is there, or just past the last with `past`."""
        return 1 + self.draw.below(len(self.lines[file - 1]) + past + self.draw.happens(0.1))

    def new_line(self):
        """Returns a line to insert: one of a worked policy, or two that follow each other, which are no line."""
        lines = self.seeds.draw_lines(self.draw) or [b"# a\n"]
        line = self.draw.pick(lines)
        if self.draw.happens(0.3):
            line = b"".join(changed_lines(self.draw, [line])) or b"\n"
        return line

    def edit_of_a_line(self, kind):
        """Returns an edit of a line of a file."""
        file = 1 + self.draw.below(len(self.lines))
        if kind == "insert":
            return Edit(b"insert %d\n" % self.line_of(file, 1) + payload(self.new_line()), file)
        if kind == "delete":
            return Edit(b"delete %d\n" % self.line_of(file), file)
        return Edit(b"move %d %d\n" % (self.line_of(file), self.line_of(file)), file)

    def splice(self, kind, at, sign):
        """Returns the text of a member or a definition at this place: first, or behind others. Now and then its sign is missing."""
        blanks = [self.draw.pick(BLANKS) for _ in range(3)]
        text = self.draw.pick(MEMBERS[kind])
        if sign == b":":
            text = self.draw.pick(FRESH) + blanks[0] + b"=" + blanks[1] + text
        sign = sign * (not self.draw.happens(0.1))
        return payload(text + blanks[1] + sign + blanks[2] if at == 1 else blanks[1] + sign + blanks[2] + text) or b">\n"

    def edit_of_an_alias(self, kind):
        """Returns an edit of an alias or of a line with definitions."""
        sort, name, file, line, count = self.draw.pick(self.aliases or [NO_ALIAS])
        at = 1 + self.draw.below(3)
        if kind == "add":
            return Edit(b"add %s %s %d\n" % (sort, name, at) + self.splice(sort, at, b","))
        if kind == "drop":
            return Edit(b"drop %s %s %d\n" % (sort, name, at))
        if kind == "rename":
            return Edit(b"rename %s %s %s\n" % (sort, name, self.draw.pick(FRESH)))
        if kind == "adddef":
            place = 1 + self.draw.below(count + 1)
            return Edit(b"adddef %d %d\n" % (line, place) + self.splice(sort, place, b":"), file)
        return Edit(b"dropdef %d %d\n" % (line, 1 + self.draw.below(count)), file)

    def edit(self):
        """Returns an edit of any kind."""
        sort = self.draw.below(10)
        if sort < 4:
            return self.edit_of_a_line(self.draw.pick(OF_LINES))
        if sort < 9 and (self.aliases or self.draw.happens(0.1)):
            return self.edit_of_an_alias(self.draw.pick(OF_ALIASES))
        if sort < 9:
            return self.edit_of_a_line(self.draw.pick(OF_LINES))
        kind = self.draw.pick(OF_FILES)
        return Edit(kind.encode() + b"\n", 0 if kind == "prune" else 1 + self.draw.below(len(self.lines)))

    def edits(self):
        """Returns some edits."""
        return [self.edit() for _ in range(2 + self.draw.below(MOST - 1))]

    def rename(self):
        """Returns a rename of an alias to a name that is mostly free."""
        sort, name, *_ = self.draw.pick(self.aliases or [NO_ALIAS])
        return Edit(b"rename %s %s %s\n" % (sort, name, self.draw.pick((b"FRESH", b"RENAMED_1", b"QQ", b"A"))))
