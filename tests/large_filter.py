"""`convert -m` with aliases in long chains and doubled many times, and with many values."""

from large import ALIAS_LIMIT, case, chain, doubled, full_policy
from program import Wanted, fault

MANY = 4_000


def filtered(policy, wanted, *words):
    """What `convert` prints of a policy for the user bob."""
    return policy, wanted, "convert", "-f", "sudoers", "-m", "user=bob", *words, "-"


@case
def filter_of_a_chain_of_as_many_aliases_as_there_may_be():
    aliases = chain(b"User_Alias", ALIAS_LIMIT).replace(b"= ALL", b"= bob")
    return filtered(aliases + b"A1 ALL=/a\n!A1 ALL=/b\n", Wanted(aliases + b"A1 ALL = /a\n"))


@case
def filter_of_aliases_doubled_forty_times():
    aliases = doubled(b"User_Alias", 40, b"bob")
    return filtered(aliases + b"A1 ALL=/a\n!A1 ALL=/b\n", Wanted(aliases + b"A1 ALL = /a\n"))


@case
def prune_of_aliases_doubled_forty_times():
    aliases = doubled(b"User_Alias", 40, b"bob")
    return filtered(aliases + b"A1, ann, !A40 ALL=/a\nA1, ann ALL=/b\n", Wanted(aliases + b"A1 ALL = /b\n"), "-p")


@case
def prune_drops_aliases_doubled_forty_times():
    return filtered(doubled(b"User_Alias", 40, b"ann") + b"A1, bob ALL=/a\n", Wanted(b"bob ALL = /a\n"), "-p")


@case
def filter_and_expand_of_aliases_doubled_forty_times():
    return filtered(doubled(b"Cmnd_Alias", 40, b"/bin/a") + b"bob ALL=A1\n", fault("TooLarge"), "-e")


@case
def error_of_the_filter_comes_before_too_many_members():
    policy = doubled(b"Cmnd_Alias", 40, b"/bin/a") + b"bob ALL=A1\n"
    return policy, fault("BadKey"), "convert", "-f", "sudoers", "-e", "-m", "cmnd=x", "-"


@case
def policy_past_the_limit_comes_before_the_error_of_the_filter():
    return full_policy() + b"\n", fault("-: TooLarge"), "convert", "-f", "sudoers", "-m", "cmnd=x", "-"


@case
def filter_drops_what_would_be_too_many_members():
    policy = doubled(b"Cmnd_Alias", 40, b"/bin/a") + b"ann ALL=A1\nbob ALL=A40\n"
    return filtered(policy, Wanted(b"bob ALL = /bin/a\n"), "-e")


def named(count):
    """So many names."""
    return [b"x%d" % n for n in range(1, count + 1)]


def denied(count):
    """A list that allows all but so many users."""
    return b", ".join([b"ALL", *(b"!" + name for name in named(count))])


def filtered_by_many(key, end, policy, wanted, *words):
    """What `convert` prints of a policy for many values."""
    values = b",".join(key + b"=" + name + end for name in named(MANY)).decode()
    return policy, Wanted(wanted), "convert", "-f", "sudoers", "-m", values, *words, "-"


@case
def filter_of_many_users_whom_a_list_denies():
    kept = denied(MANY - 1) + b" ALL = /a\n"
    dropped = denied(MANY) + b" ALL = /b\n" + denied(MANY) + b", X7, !x7 ALL = /c\n"
    return filtered_by_many(b"user", b"", dropped + kept, kept)


@case
def filter_of_many_users_whom_an_alias_denies():
    alias = b"User_Alias A = " + b", ".join(named(MANY)) + b"\n"
    kept = b"ALL, !A, x7 ALL = /a\nALL, !A, !!X7 ALL = /b\n!A, A ALL = /c\n"
    dropped = b"ALL, !A ALL = /d\nA, !A ALL = /e\nALL, x7, !A, y ALL = /f\nA, !ALL ALL = /g\n"
    return filtered_by_many(b"user", b"", alias + dropped + kept, alias + kept.replace(b"!!X7", b"X7"))


@case
def prune_by_many_groups():
    policy = b"%x7, %X8, %y, !%x9, x1 ALL = /a\n%y ALL = /b\n"
    return filtered_by_many(b"group", b"", policy, b"%x7, %X8, !%x9 ALL = /a\n", "-p")


@case
def filter_of_many_hosts():
    kept = b"u x7 = /a\nu X7.example.org = /b\nu x7.*g = /c\nu [x]7* = /c\nu y, x7, !x8 = /d\n"
    dropped = b"u y = /e\nu x7.example.com = /f\nu x7, !x7.example.org = /g\nu !x7 = /h\nu ALL, !x* = /i\n"
    return filtered_by_many(b"host", b".example.org", dropped + kept, kept)
