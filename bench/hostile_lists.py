"""Hostile questions and filters: long lists of members, groups, addresses and values."""

from itertools import islice, product

import policies
from hostile import ASKED, KIND_LIMIT, LINE, Asked, Hostile, Peer, filled, full

KINDS = ("User_Alias", "Host_Alias", "Runas_Alias", "Cmnd_Alias")
GROUPS = 60_000
INTERFACES = 11_000
FEW_VALUES = 64
MANY_VALUES = 8_000
RUNAS_USERS = 16_000
COMMANDS = 11_000
ORDINARY = 1_000_000  # bytes of a policy that prints much


def long_chain():
    """A chain of aliases, and three lines that mention its first so often that the result is just small enough."""
    links = b"".join(b"User_Alias A%d = A%d\n" % (n, n + 1) for n in range(1, KIND_LIMIT))
    return links + b"User_Alias A%d = x\n" % KIND_LIMIT + (b"A1," * 21_799 + b"A1 h=/b\n") * 3


def many_definitions():
    """As many aliases as there may be, of each kind, and a rule."""
    lines = (f"{kind} A{n} = x{n}\n" if kind != "Cmnd_Alias" else f"{kind} A{n} = /x{n}\n" for kind in KINDS for n in range(1, KIND_LIMIT + 1))
    return "".join(lines).encode() + b"A1 A1 = (A1) A1\n"


def long_runas():
    """Lines with one Runas_Spec of many members and many commands that inherit it."""
    runas = b"a," * 16_350 + b"a"
    return full(filled(b"u ALL=(" + runas + b") /b", b",/b", b"\n"), 16)


def inherited_runas(users, commands):
    """One line with a Runas_Spec of so many users and one, which so many commands and one have or inherit."""
    return b"u ALL=(" + b"a," * users + b"a) /b" + b",/b" * commands + b"\n"


def many_commands():
    """Lines of many commands."""
    return full(filled(b"u ALL=/b", b",/b", b"\n"), 16)


def many_members(member, end):
    """Lines of as many members as there is room for; the last of each is alone before the end of the line."""
    return full(filled(b"", member + b",", member + end), 16)


def many_groups(user):
    """A file of groups, to each of which the user belongs; the first group has no other."""
    rows = (b"g%05d:x:%05d:%s\n" % (n, n, user) for n in range(10_000, 10_000 + GROUPS))
    return b"other:x:99999:\n" + b"".join(rows)


def many_addresses():
    """Lines of as many addresses of hosts as there is room for, none of them in a network of `interfaces`."""
    numbers = [b"9.%d.%d.%d" % digits for digits in product(range(10), repeat=3)]
    a_line = LINE // len(b"9.0.0.0,") - 1
    lines = (b"u " + b",".join((numbers * 9)[n : n + a_line]) + b"=/b\n" for n in range(16))
    return b"".join(lines)


def interfaces():
    """The addresses of a host, with the bits of their networks."""
    numbers = product(range(1, 6), range(1, 10), range(1, 10), range(10, 99))
    return ",".join("%d.%d.%d.%d/8" % digits for digits in islice(numbers, INTERFACES))


def values(count):
    """So many values of a filter, none of which a policy has."""
    return ",".join(f"user=x{n}" for n in range(1, count + 1))


def printing(ground):
    """The commands that print much of little: each command of the policy inherits all."""
    words = ("list", *ground.people(), *ASKED)
    rules = ground.file(policies.rules(ORDINARY).replace(b"user ", b"u "))
    for users, commands_of_all in ((4_000, 4_000), (RUNAS_USERS, COMMANDS)):
        policy = inherited_runas(users, commands_of_all)
        path, size = ground.file(policy), len(policy)
        what = f"{users + 1:,} runas users at {commands_of_all + 1:,} commands"
        asked, ordinary = Asked((*words, path), size), Asked((*words, rules), ORDINARY)
        yield Hostile(f"`list`, {what}", asked, ordinary, beside="that of rules alone", printed=True)
    words = ("convert", "-f", "json")
    asked, ordinary = Asked((*words, path), size), Asked((*words, ground.plain(ORDINARY)), ORDINARY)
    beside = "that of an ordinary policy"
    yield Hostile(f"`convert -f json`, {what}", asked, ordinary, Peer("cvtsudoers", ("-f", "json", path)), beside, True)


def filters(ground):
    """Filters of many values."""
    many, members = many_definitions(), many_members(b"ab", b" ALL=ALL\n")
    for count in (FEW_VALUES, MANY_VALUES):
        yield ground.filtering(f"`convert -m`, {count:,} values and 16,384 aliases", many, values(count), values(1))
        yield ground.filtering(f"`convert -m`, {count:,} values and 349,000 members", members, values(count), values(1))


def commands(ground):
    """The hostile commands."""
    command = ("/b",)
    yield ground.converting("`convert -e`, a chain of 4,096 and 65,400 mentions", long_chain(), ("-e",), ("-e",))
    yield from filters(ground)
    yield from printing(ground)
    yield ground.listing("`list COMMAND`, lists of 16,351 runas users", long_runas(), ("-u", "t"), ("/c",), status=1)
    groups, what = many_groups(b"t"), "`list COMMAND`, 60,000 groups and 349,000 commands"
    yield ground.listing(what, many_commands(), ("-u", "t", "-g", "other"), ("/c",), groups, 1)
    groups = many_groups(b"u")
    for member, what in ((b"%zzzzzz", "131,000 members `%name`"), (b"%#1", "262,000 members `%#gid`")):
        policy = many_members(member, b" ALL=/b\n")
        yield ground.listing(f"`list COMMAND`, 60,000 groups and {what}", policy, (), command, groups, 1)
    what = "`list COMMAND`, 11,000 interfaces and 131,000 addresses"
    yield ground.listing(what, many_addresses(), ("--interfaces", interfaces()), command, b"", 1)
