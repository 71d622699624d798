"""Hostile policies for `check` with an option, `adapt`, `plan` and `diff`: many notes, and many rules that are compared."""

import random

from hostile import KIND_LIMIT, filled, full


def unknown_parameters():
    """Lines of as many unknown parameters of Defaults as there is room for."""
    return full(filled(b"Defaults a", b",a", b"\n"), 16)


def unknown_escapes():
    """Lines of as many paths and arguments with an escape that sudo does not know as there is room for."""
    return full(filled(b"u ALL=/b", b",/\\* \\-", b"\n"), 16)


def plain_equals():
    """Lines of as many `=` of arguments that only sudo reads as there is room for. Each gets a backslash, so lines are shorter."""
    return full(b"u ALL=/b " + b"x=" * 21_000 + b"\n", 15)


def quoted_arguments():
    """Lines of as many quoted arguments as there is room for. Each is printed with two backslashes first, so lines are shorter."""
    return full(b"u ALL = /b" + b' "x"' * 10_500 + b"\n", 15)


def chain_to_user():
    """A chain of aliases of which each is defined before the one that mentions it leads on, and the last has a user."""
    links = b"".join(b"User_Alias A%d = A%d, x\n" % (n, n + 1) for n in range(1, KIND_LIMIT))
    return links + b"User_Alias A%d = u, x\nA1 ALL = /b\n" % KIND_LIMIT


def one_command(order=1):
    """Rules of one command, each for another user, in this order or in the other one."""
    return b"".join([b"u%d ALL=/a\n" % n for n in range(65_536)][::order])


def shuffled_lists():
    """Rules of one command for the same 9,000 users, each time in another order."""
    draw, users = random.Random(1), [b"n%d" % n for n in range(9_000)]
    return b"".join(b", ".join(draw.sample(users, len(users))) + b" ALL=/a\n" for _ in range(16))


def many_denials():
    """Lines of 16,000 denials behind `ALL`, each on the 9,000 hosts of an alias."""
    hosts = b",".join(b"h%d" % n for n in range(9_000))
    return b"Host_Alias H=" + hosts + b"\n" + (b"ann H=ALL" + b",!/a" * 16_000 + b"\n") * 7


def long_users(order=1):
    """A rule of 80 commands for 500 users with long names, in this order or in the other one."""
    users = [b"x" * 900 + b"%03d" % n for n in range(500)][::order]
    aliases = b"".join(b"User_Alias U%d = " % n + b", ".join(users[50 * n : 50 * n + 50]) + b"\n" for n in range(10))
    return aliases + b", ".join(b"U%d" % n for n in range(10)) + b" ALL=" + b", ".join(b"/c%d" % n for n in range(80)) + b"\n"


def commands(ground):
    """The hostile commands."""
    equals, rules = plain_equals(), one_command()
    for_sudo = ("check", "--for", "sudo")
    yield ground.running("`check --for sudo`, 524,000 unknown parameters", unknown_parameters(), *for_sudo)
    yield ground.running("`check --for sudo`, 299,000 unknown escapes", unknown_escapes(), *for_sudo)
    yield ground.running("`adapt`, 315,000 `=` of arguments", equals, "adapt")
    yield ground.running("`check --dialect sudo`, 315,000 `=` of arguments", equals, "check", "--dialect", "sudo")
    what = "`convert --for sudo`, 157,000 quoted arguments"
    yield ground.running(what, quoted_arguments(), "convert", "-f", "sudoers", "--for", "sudo")
    yield ground.planning("`plan 'no-user u'`, a chain of 4,096 aliases", chain_to_user(), "u")
    yield ground.running("`check --overruled`, 65,536 rules of one command", rules, "check", "--overruled")
    what = "`check --overruled`, 16 rules of 9,000 users in another order"
    yield ground.running(what, shuffled_lists(), "check", "--overruled")
    what = "`check --lint`, 112,000 denials behind `ALL` on 9,000 hosts"
    yield ground.running(what, many_denials(), "check", "--lint")
    yield ground.comparing("`diff`, 65,536 rules in the other order", rules, one_command(-1))
    what = "`diff --granted`, 500 long users in another order and 80 commands"
    yield ground.comparing(what, long_users(), long_users(-1), "--granted")
