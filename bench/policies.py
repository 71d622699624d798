"""Policies and scripts of edits, the same in every run.

An ordinary policy is a list of logical lines, as people keep them: comments, empty
lines, Defaults, aliases with continuations, and user specifications that use them.
"""

import random

TAGS = ("", "NOPASSWD: ", "PASSWD: ", "NOEXEC: ", "SETENV: ", "NOPASSWD: NOEXEC: ")
TOOLS = ("systemctl", "journalctl", "apt-get", "mount", "tail", "useradd", "ip", "tcpdump")
OPTIONS = ("env_reset", "mail_badpass", "requiretty", "!visiblepw", "passwd_tries=3", "timestamp_timeout=15")
NAMES = ("ann", "bob", "cho", "dan", "eve", "fay", "gil", "hal")
KINDS = ("User_Alias", "Host_Alias")
MOST_OF_A_KIND = 4_000
RULE = b"user ALL = (root) NOPASSWD: /usr/bin/a, /bin/b -l\n"


def joined(members):
    """Members in one list, every third on a line of its own."""
    return ", ".join(("\\\n    " if n % 3 == 2 else "") + member for n, member in enumerate(members))


def command(chance):
    """A path with or without arguments."""
    path = f"/usr/bin/{chance.choice(TOOLS)}"
    return path + chance.choice(("", ' ""', " -l", f" unit{chance.randrange(1000)}", " *"))


def block(chance, number):
    """One team's part of the policy: its aliases and what they allow."""
    users = [f"{chance.choice(NAMES)}{chance.randrange(10_000)}" for _ in range(chance.randrange(2, 9))]
    hosts = [f"web{chance.randrange(10_000)}" for _ in range(chance.randrange(1, 6))]
    tools = [command(chance) for _ in range(chance.randrange(2, 7))]
    yield f"# Team {number}: asked for by {chance.choice(NAMES)}, request {chance.randrange(100_000)}\n"
    yield f"User_Alias TEAM{number} = {joined(users)}\n"
    yield f"Host_Alias HOSTS{number} = {joined(hosts)}, 10.{number % 256}.0.0/16\n"
    yield f"Cmnd_Alias TOOLS{number} = {joined(tools)}\n"
    yield f"Runas_Alias ROLES{number} = root, service{number}\n"
    yield f"Defaults:TEAM{number} {chance.choice(OPTIONS)}\n"
    yield f"TEAM{number} HOSTS{number} = (ROLES{number}) {chance.choice(TAGS)}TOOLS{number}\n"
    for _ in range(chance.randrange(4, 12)):
        user = f"{chance.choice(NAMES)}{chance.randrange(10_000)}"
        yield f"{user} ALL = (root) {chance.choice(TAGS)}{command(chance)}, {command(chance)}\n"
    yield f"%group{number} HOSTS{number} = (ALL : ALL) NOPASSWD: TOOLS{number} # on call\n"
    yield "\n"


def policy(size):
    """The logical lines of a policy of exactly `size` bytes."""
    chance = random.Random(size)
    lines = ["# The policy of this site.\n", "Defaults env_reset\n", "root ALL = (ALL : ALL) ALL\n", "\n"]
    rest = size - sum(map(len, lines))
    number = 0
    while True:
        number += 1
        team = list(block(chance, number))
        if sum(map(len, team)) > rest - 2:
            break
        lines += team
        rest -= sum(map(len, team))
    while rest > 0:
        filler = rest if rest <= 72 else min(60, rest - 2)
        lines.append("#" + "-" * (filler - 2) + "\n")
        rest -= filler
    return [line.encode() for line in lines]


def rules(size):
    """A policy of one rule again and again, of at most `size` bytes."""
    return RULE * (size // len(RULE))


def member_of_a_team(lines):
    """The first member of the first team of an ordinary policy."""
    team = next(line for line in lines if line.startswith(b"User_Alias TEAM1 "))
    return team.split(b" = ")[1].split(b",")[0].strip().decode()


def many_aliases(count):
    """A policy of `count` aliases with two members each, all lines of one size; a kind may have 4,096 aliases."""
    numbers = range(count)
    return "".join(f"{KINDS[n // MOST_OF_A_KIND]} A{n:05} = a{n:05}, b{n:05}\n" for n in numbers).encode()


def chain(count):
    """A policy of `count` command aliases, each of which mentions the next, and a specification that mentions the first."""
    links = "".join(f"Cmnd_Alias A{n} = A{n + 1}\n" for n in range(count - 1))
    return f"{links}Cmnd_Alias A{count - 1} = /bin/a\nbob ALL=A0\n".encode()


def cycle(count):
    """The same, but that the last alias mentions the first."""
    links = "".join(f"Cmnd_Alias A{n} = A{(n + 1) % count}\n" for n in range(count))
    return f"{links}bob ALL=A0\n".encode()


def many_members(count):
    """A policy of one alias with `count` members, in one line; a line may have 65,536 bytes."""
    return b"User_Alias A = " + b",".join([b"x"] * count) + b"\n"


def one_edit(lines):
    """A comment inserted in the middle."""
    return b"insert %d\n|# one more line\n" % (len(lines) // 2)


def edits_by_kind(lines):
    """A script for each kind of edit, with its name: of each one edit, but that what DropDef, EndLine and Prune need is made first."""
    half = len(lines) // 2
    team = next(n for n, line in enumerate(lines, 1) if line.startswith(b"User_Alias TEAM1 "))
    return (
        ("a line inserted", one_edit(lines)),
        ("a line deleted", b"delete %d\n" % half),
        ("a line moved", b"move %d %d\n" % (half, half // 2)),
        ("a member added", b"add user TEAM1 2\n>, zed\n"),
        ("a member dropped", b"drop user TEAM1 2\n"),
        ("a definition added", b"adddef %d 2\n> : ZED = zed\n" % team),
        ("a definition added and dropped", b"adddef %d 2\n> : ZED = zed\ndropdef %d 2\n" % (team, team)),
        ("a rename", b"rename user TEAM1 CREW1\n"),
        ("the end opened", b"openend\n"),
        ("the end opened and closed", b"openend\nendline\n"),
        ("a prune of nothing", b"prune\n"),
        ("an alias inserted and pruned", b"insert 1\n|User_Alias ZED = zed\nprune\n"),
    )


def spread_edits(lines, count):
    """`count` edits all over the text: a line deleted and a comment in its place, by turns."""
    script = []
    for n in range(count // 2):
        at = n * 7919 % len(lines) + 1
        script.append(b"delete %d\ninsert %d\n|# edited as number %d\n" % (at, at, n))
    return b"".join(script)


def front_edits(count):
    """`count` edits that each insert a line in front."""
    return b"insert 1\n|#\n" * count


def renames(count):
    """Renames of the teams of an ordinary policy, from the first to the last of so many."""
    return b"".join(b"rename user TEAM%d CREW%d\n" % (n, n) for n in range(1, count + 1))


def spare_aliases(count):
    """Lines that each define an alias which nothing mentions."""
    return b"".join(b"User_Alias SPARE%d = spare\n" % n for n in range(count))


def unused_aliases(lines, each):
    """A policy of unused aliases: so many lines, with so many definitions each."""
    defined = [b"A%d = h" % n for n in range(lines * each)]
    return b"".join(b"Host_Alias " + b" : ".join(defined[n * each : (n + 1) * each]) + b"\n" for n in range(lines))
