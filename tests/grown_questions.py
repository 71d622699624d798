"""Draws questions about the policies that grown_policies.py grows: who asks, on which host, for which command, as whom.

The users, groups, hosts and commands are mostly words of the policy, so that its rules fit. The people are rows of passwd
and of group for the built program, and parts for the program `cases`: both say the same.
"""

import re
import struct
from dataclasses import dataclass

from changed_files import LOGICAL
from grown_policies import ALIAS_LINE, DEFINED, NAME, OTHER_LINE
from listing import PATH
from tables import frame, joined
from tables_match import interfaces

USER = re.compile(rb"(?<![\w%:+./\\-])[a-z][a-z0-9_-]*(?![\w/.\\])")
GROUP = re.compile(rb"%([a-z][a-z0-9_-]*)")
UID, GID = re.compile(rb"(?<!%)#(\d{1,9})"), re.compile(rb"%#(\d{1,9})")
DENIED = re.compile(rb"![ \t!]*(%s)" % PATH.pattern)
NO_USERS = (b"include", b"includedir", b"list", b"sudoedit")
INTERFACES = "10.1.2.9/24,192.168.0.7/16,127.0.0.1/8"
STAMPS = (20260101000000, 20260101000000, 20300101120000, 19990101000000, 20400101000000)
COMMANDS = (b"/bin/ls", b"/bin/su", b"/bin/a", b"list", b"sudoedit /etc/x", b"/usr/bin/id -u")
MOST = 8


def first(found, others):
    """Returns the first of these, each once, in the order of their bytes; and then the others."""
    return list(dict.fromkeys([*sorted(set(found))[:MOST], *others]))


class People:
    """The users and groups of a policy. Each user is in two of the groups, if there are as many."""

    def __init__(self, text):
        names = [name for name in USER.findall(text) if name not in NO_USERS]
        uids = [int(uid) for uid in sorted(set(UID.findall(text)))]
        gids = [int(gid) for gid in sorted(set(GID.findall(text)))]
        self.groups = first(GROUP.findall(text), (b"adm", b"wheel"))
        self.gids = self.numbers(self.groups, gids, 5000)
        self.users = first(names, (b"bob", b"ann"))
        self.uids = {**self.numbers([user for user in self.users if user != b"root"], uids, 1000), b"root": 0}
        self.users = first(self.users, (b"root",)) if b"root" not in self.users else self.users

    @staticmethod
    def numbers(names, numbers, begin):
        """Returns the number of each name: those that the policy has come first."""
        free = [number for number in dict.fromkeys(numbers) if number != 0]
        free += [number for number in range(begin, begin + len(names) + len(free)) if number not in free]
        return dict(zip(names, free))

    def groups_of(self, user):
        """Returns the groups of a user, the primary one first."""
        at = self.users.index(user)
        return list(dict.fromkeys((self.groups[at % len(self.groups)], self.groups[(at + 1) % len(self.groups)])))

    def passwd(self):
        """Returns the rows of passwd."""
        rows = (b"%s:x:%d:%d:::\n" % (user, self.uids[user], self.gids[self.groups_of(user)[0]]) for user in self.users)
        return b"".join(rows)

    def group(self):
        """Returns the rows of group."""
        members = {group: b",".join(user for user in self.users if group in self.groups_of(user)[1:]) for group in self.groups}
        return b"".join(b"%s:x:%d:%s\n" % (group, self.gids[group], members[group]) for group in self.groups)

    def parts(self, user):
        """Returns the parts of a user with the groups that he is in, in their order: that of the rows behind the primary one."""
        primary, *others = self.groups_of(user)
        groups = [primary, *(group for group in self.groups if group in others)]
        numbered = [(user, self.uids[user]), *((group, self.gids[group]) for group in groups)]
        return joined(*(piece for name, number in numbered for piece in (name, struct.pack(">I", number))))


@dataclass(frozen=True)
class Question:
    """A request: who asks on which host, as whom, for which group if for one, for which words, and when."""

    user: bytes
    host: bytes
    target: bytes
    group: bytes
    words: tuple
    stamp: int

    def frame(self, people, policy, script=None):
        """Returns the frame that asks for the row of the policy that decides, after the edits of a script if there is one."""
        short = self.host.partition(b".")[0]
        group = joined(self.group, struct.pack(">I", people.gids[self.group])) if self.group else b""
        parts = [
            *(joined(short, self.host, interfaces(INTERFACES)), people.parts(self.user), people.parts(self.target), group),
            *(self.words[0], joined(*self.words[1:]), struct.pack(">Q", self.stamp)),
        ]
        return frame(b"m", b"A" if script is None else b"E", joined(policy, *([] if script is None else [script]), *parts))

    def listing(self, people, policy):
        """Returns the frame that asks for the listing of the user."""
        return frame(b"p", b"L", joined(people.passwd(), people.group(), self.user, self.host, INTERFACES.encode(), policy))

    def options(self, folder):
        """Returns the words of `list` before FILE. The files of people are in this folder."""
        files = ("--passwd", f"{folder}/passwd", "--group-file", f"{folder}/group", "--interfaces", INTERFACES)
        return ("list", *files, "-U", self.user, "--host", self.host, "--moment", b"%014dZ" % self.stamp)

    def targets(self):
        """Returns the words of `list` that say as whom."""
        return ("-u", self.target, *(("-g", self.group) if self.group else ()))


def with_definitions(definitions, text):
    """Returns the text, and the lines that define the names in it and in these lines."""
    for _ in range(2):
        names = set(NAME.findall(text))
        text += b"".join(line for line in definitions if names & set(DEFINED.findall(line)) and line not in text)
    return text


def words_of_rule(draw, text):
    """Returns the users, hosts, commands and targets that a user specification of the text leads to, each perhaps none."""
    lines = LOGICAL.findall(text)
    definitions = [line for line in lines if ALIAS_LINE.match(line)]
    rules = [line for line in lines if b"=" in line and not ALIAS_LINE.match(line) and not OTHER_LINE.match(line)]
    if not rules:
        return [], [], [], []
    left, _, right = draw.pick(rules).partition(b"=")
    users, hosts = left.split(b" ", 1) if b" " in left.strip() else (left, left)
    parts = (users, hosts, right, b" ".join(re.findall(rb"\(([^()]*)\)", right)))
    users, hosts, commands, targets = (with_definitions(definitions, part) for part in parts)
    denied = DENIED.findall(commands) if draw.happens(0.5) else []
    return USER.findall(users), USER.findall(hosts), denied or PATH.findall(commands), USER.findall(targets)


def question_of(draw, people, text):
    """Returns a question about a policy: mostly one that a rule of it may fit."""
    found = [list(dict.fromkeys(words)) for words in words_of_rule(draw, text)]
    users = [user for user in found[0] if user in people.users]
    targets = [user for user in found[3] if user in people.users]
    hosts = first(USER.findall(text), (b"h1", b"h2.example", b"www1.example"))
    paths = first(PATH.findall(text), COMMANDS)
    user, host, path, target = (
        draw.pick(words) if words and draw.happens(0.8) else draw.pick(others)
        for words, others in ((users, people.users), (found[1], hosts), (found[2], paths), (targets or [b"root"], people.users))
    )
    words = (path if draw.happens(0.95) else draw.pick(COMMANDS)).split(b" ") + [b"x"] * draw.happens(0.05)
    group = draw.pick(people.groups) if draw.happens(0.1) else b""
    return Question(user, host, target, group, tuple(words), draw.pick(STAMPS))


def questions_of(draw, people, text, count):
    """Returns some questions about a policy."""
    return [question_of(draw, people, text) for _ in range(count)]
