"""Policies of which `who` asks for each of 1,000 users: an ordinary one, and hostile ones, in which nobody is soon decided."""

SIZE = 1_000_000
GROUP = b"other:x:99999:\n"
COMMAND = "/bin/ls"


def passwd():
    """root, and users in a thousand rows."""
    return b"root:x:0:0::/:/bin/sh\n" + b"".join(b"user%d:x:%d:%d::/:/bin/sh\n" % (n, n, n) for n in range(1, 1_000))


def full(row, first=b""):
    """As many rows as a policy of the size has; `row` returns the one with a number."""
    rows, length, number = [first], len(first), 0
    while length < SIZE:
        rows.append(row(number))
        length += len(rows[-1])
        number += 1
    return b"".join(rows)


def ordinary():
    """A rule for each user in turn, of which each fiftieth is for the command."""
    return full(lambda n: b"user%d ALL = (root) /bin/%s\n" % (n % 1_000, b"ls" if n % 50 == 0 else b"cat"))


def hostile():
    """Policies with rules for the command that are for nobody who is asked, or not as whom or when, by what they are."""
    return {
        "rules for others": full(lambda n: b"u%d ALL=/bin/ls\n" % (n % 10)),
        "rules for groups": full(lambda n: b"%%g%d ALL=/bin/ls\n" % (n % 10)),
        "rules for an alias of others": full(lambda n: b"A ALL=/bin/ls\n", b"User_Alias A=x\n"),
        "rules for all": full(lambda n: b"ALL ALL=/bin/ls\n"),
        "rules as another user": full(lambda n: b"ALL ALL=(bin)/bin/ls\n"),
        "rules that have ended": full(lambda n: b"ALL ALL=NOTAFTER=20200101000000Z /bin/ls\n"),
    }
