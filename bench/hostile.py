"""Commands on hostile policies: each beside the same on an ordinary policy, and beside a program of sudo where one does the like.

A hostile policy is legal and within the limits, as people never write it. It costs much if the program goes over
something again and again.
"""

from dataclasses import dataclass, replace
from typing import Optional

import policies

LINE = 65_536
POLICY = 1_048_576
KIND_LIMIT = 4_096
SHOWN_NOTES = 32  # that `plan` writes
ASKED = ("--host", "h", "--moment", "2026013112Z", "-U", "u")
PASSWD = b"root:x:0:0::/:/bin/sh\nu:x:1000:1000::/:/bin/sh\nt:x:1001:1001::/:/bin/sh\n"


@dataclass(frozen=True)
class Asked:
    """The words of a command behind its program, the bytes of its policy, and what it has to answer."""

    words: tuple
    size: int
    status: int = 0
    stdin: str = "/dev/null"
    error: bytes = b""  # on standard error


@dataclass(frozen=True)
class Peer:
    """The words of a program of sudo, and what it has to answer."""

    program: str
    words: tuple
    status: int = 0
    error: bytes = b""


@dataclass(frozen=True)
class Hostile:
    """A command on a hostile policy, and what is measured beside it."""

    name: str
    asked: Asked
    ordinary: Asked
    peer: Optional[Peer] = None
    beside: str = "the same on an ordinary policy"
    printed: bool = False  # whether nanoseconds a byte of output are compared


def full(line, count):
    """The line so many times, or as often as a policy has room for it."""
    return line * min(count, POLICY // len(line))


def filled(begin, piece, end):
    """A line of at most LINE bytes: its middle is the piece, again and again."""
    return begin + piece * ((LINE - len(begin) - len(end)) // len(piece)) + end


def group_notes(path, size, user):
    """What `plan` writes to standard error of the ordinary policy of so many bytes: a line for each rule of a group."""
    notes, number = [], 1
    for line in policies.policy(size):
        if line.startswith(b"%"):
            place, group = f"{path}:{number}:1", line.split()[0].decode()
            notes.append(f"sudoers_tool: {place}: {group}: {user} may be in this group\n")
        number += line.count(b"\n")
    more = [f"sudoers_tool: .. and {len(notes) - SHOWN_NOTES} more\n"] if len(notes) > SHOWN_NOTES else []
    return "".join(notes[:SHOWN_NOTES] + more).encode()


class Ground:
    """The files of hostile and of ordinary policies."""

    def __init__(self, table):
        self.table = table
        self.plains = {}
        self.passwd = table.file(PASSWD)

    def file(self, content):
        """Puts bytes into a new file and returns its path."""
        return self.table.file(content)

    def plain(self, size):
        """The path of the ordinary policy of so many bytes, which is written once."""
        if size not in self.plains:
            self.plains[size] = self.file(b"".join(policies.policy(size)))
        return self.plains[size]

    def running(self, name, policy, *words):
        """These words with the policy behind them."""
        size = len(policy)
        return Hostile(name, Asked((*words, self.file(policy)), size), Asked((*words, self.plain(size)), size))

    def filtering(self, name, policy, value, plain_value):
        """A filter of a policy, beside a short one of an ordinary policy."""
        beside = "a short filter of an ordinary policy"
        return replace(self.converting(name, policy, ("-m", value), ("-m", plain_value)), beside=beside)

    def converting(self, name, policy, words, plain_words):
        """A conversion, with `cvtsudoers` beside it."""
        path, size = self.file(policy), len(policy)
        asked = Asked(("convert", "-f", "sudoers", *words, path), size)
        ordinary = Asked(("convert", "-f", "sudoers", *plain_words, self.plain(size)), size)
        return Hostile(name, asked, ordinary, Peer("cvtsudoers", ("-f", "sudoers", *words, path)))

    def people(self, group=b""):
        """The words of `list` that name files of users and groups."""
        return "--passwd", self.passwd, "--group-file", self.file(group)

    def listing(self, name, policy, asked=(), command=(), group=b"", status=0):
        """The question whether u may run a command, or the listing of u if there is none."""
        path, size = self.file(policy), len(policy)
        words = ("list", *self.people(group), *ASKED)
        ordinary = Asked((*words, self.plain(size), *(("--", "/b") if command else ())), size, 1 if command else 0)
        hostile = Asked((*words, *asked, path, *(("--", *command) if command else ())), size, status)
        return Hostile(name, hostile, ordinary)

    def planning(self, name, policy, user):
        """The plan that a user leaves. On an ordinary policy it also names the groups in which he may be."""
        size, wish = len(policy), f"no-user {user}"
        plain = self.plain(size)
        ordinary = Asked(("plan", plain, wish), size, error=group_notes(plain, size, user))
        return Hostile(name, Asked(("plan", self.file(policy), wish), size), ordinary)

    def comparing(self, name, old, new, *options):
        """The comparison of two policies that differ, and of an ordinary policy with itself."""
        size, plain = len(old), self.plain(len(old))
        asked = Asked(("diff", *options, self.file(old), self.file(new)), size, 1)
        return Hostile(name, asked, Asked(("diff", *options, plain, plain), size))

    def editing(self, name, policy, script, options=()):
        """A script of edits of a policy, beside no edit of an ordinary one."""
        return self.scripted(name, script + b"%%\n" + policy, len(policy), options)

    def scripted(self, name, content, size, options=()):
        """What `edit` reads, with a policy of so many bytes, beside no edit of an ordinary one."""
        ordinary = self.file(b"%%\n" + b"".join(policies.policy(size)))
        edited = Asked(options, size, stdin=self.file(content))
        return Hostile(name, edited, Asked((), size, stdin=ordinary), beside="no edit of an ordinary policy")
