"""Cases for the program `cases`: a policy that is only read, a request to it, a pattern against a text, and the works on a text."""

import struct

# what the program does with the policy of a case: its subject, and what is asked
READ, ANSWER, GROUPS = b"ep", b"mA", b"mK"

# the works on a text
CUT, TOKENS, PARSE = b"wc", b"wt", b"wp"


def part(data):
    """A part of a body."""
    return struct.pack(">Q", len(data)) + data


def parts(*all_parts):
    """Parts, one after another."""
    return b"".join(map(part, all_parts))


def number(value):
    """A number of a user or a group."""
    return struct.pack(">I", value)


def question(asked, policy):
    """A case in which bob, who is in the group adm, asks on the host web1 to run /bin/ls as root; or the policy is only read."""
    host = parts(b"web1", b"web1.example", b"")
    user = parts(b"bob", number(1000), b"adm", number(4))
    if asked == READ:
        return asked + part(part(policy) + b"r" + part(b""))
    if asked == GROUPS:
        return asked + part(parts(policy, host, user))
    root = parts(b"root", number(0), b"root", number(0))
    moment = struct.pack(">Q", 20260101000000)
    return asked + part(parts(policy, host, user, root, b"", b"/bin/ls", parts(b"-l", b"/tmp"), moment))


def chain(count, members):
    """A policy of so many aliases of commands, each of which names the next, and has further members before it."""
    others = b"".join(b"/bin/x%d, " % place for place in range(members - 1))
    lines = [b"Cmnd_Alias C%d = %sC%d\n" % (place, others, place + 1) for place in range(1, count)]
    return b"".join(lines) + b"Cmnd_Alias C%d = %s/bin/ls\nbob ALL = C1\n" % (count, others)


def pattern(stars, length, last=b"a"):
    """A case that matches so many `*a` against a text of so many `a`; with another last byte the text does not match."""
    return b"ma" + part(parts(b"*a" * stars, b"a" * (length - 1) + last))


def work(asked, times, text):
    """A case that does a work on a text so many times."""
    return asked + part(struct.pack(">Q", times) + text)
