"""`convert -e` at its limits: the members of all lists of the result, each command counted as one."""

from large import case, doubled, used_chain
from large_convert_json import command, specification, text_of
from program import Wanted, fault

MEMBER_LIMIT = 65_536
GREAT = 16_000
SUDOERS = ("convert", "-f", "sudoers", "-e", "-")
JSON = ("convert", "-f", "json", "-e", "-")


def alias(kind, number, member, count):
    """An alias of so many equal members, as it is printed."""
    return b"%s A%d = %s\n" % (kind, number, b", ".join([member] * count))


def policy_of(kind, member, use, others, past=0):
    """Aliases whose uses bring just as many members as there may be, or some more.

    A use has `others` members beside those of its alias. The last alias has what is left. It returns the definitions,
    the uses, and the numbers of members.
    """
    counts = 4 * [GREAT]
    counts.append(MEMBER_LIMIT - sum(counts) - 5 * others + past)
    definitions = b"".join(alias(kind, number, member, count) for number, count in enumerate(counts))
    return definitions, b"".join(use % number for number in range(5)), counts


def expanded(kind, member, use, others, printed):
    """As many members as there may be, from uses that are printed so."""
    definitions, uses, counts = policy_of(kind, member, use, others)
    text = b"".join(printed % b", ".join([member] * count) for count in counts)
    return definitions + uses, Wanted(text), *SUDOERS


def too_many(kind, member, use, others):
    """One member too many."""
    definitions, uses, _ = policy_of(kind, member, use, others, past=1)
    return definitions + uses, fault("TooLarge"), *SUDOERS


# What stands in an alias, and what uses it: the name of the members, the kind of the alias, a member, a use, the other
# members of a use, and the use as it is printed.
USES = (
    ("commands", b"Cmnd_Alias", b"/b", b"u h=A%d\n", 2, b"u h = %s\n"),
    ("users", b"User_Alias", b"u", b"A%d h=/b\n", 2, b"%s h = /b\n"),
    ("hosts", b"Host_Alias", b"h", b"u A%d=/b\n", 2, b"u %s = /b\n"),
    ("runas_users", b"Runas_Alias", b"r", b"u h=(A%d) /b\n", 3, b"u h = (%s) /b\n"),
    ("runas_groups", b"Runas_Alias", b"r", b"u h=(:A%d) /b\n", 3, b"u h = (: %s) /b\n"),
    ("members_of_scopes", b"User_Alias", b"u", b"Defaults:A%d x\n", 0, b"Defaults:%s x\n"),
)


def enter(name, make, *words):
    """Enters a case of this name: what `make` returns for these words."""

    def made():
        return make(*words)

    made.__name__ = name
    case(made)


for members, alias_kind, one, used, beside, as_printed in USES:
    enter(f"expand_to_as_many_{members}_as_there_may_be", expanded, alias_kind, one, used, beside, as_printed)
    enter(f"expand_to_too_many_{members}", too_many, alias_kind, one, used, beside)


@case
def expand_that_keeps_as_many_members_of_definitions_as_there_may_be():
    definitions, uses, _ = policy_of(b"Cmnd_Alias", b"/b", b"Defaults!A%d x\n", 1)
    return definitions + uses, Wanted(uses + definitions), *SUDOERS


@case
def expand_that_keeps_a_member_of_a_definition_too_many():
    return too_many(b"Cmnd_Alias", b"/b", b"Defaults!A%d x\n", 1)


@case
def expand_does_not_count_what_it_drops():
    """Four unused aliases have 64,000 members, and the specification has more than are left to the limit."""
    unused = b"".join(alias(b"User_Alias", number, b"u", GREAT) for number in range(4))
    used = alias(b"User_Alias", 4, b"u", GREAT)
    return unused + used + b"A4 h=/b\n", Wanted(b"%s h = /b\n" % b", ".join([b"u"] * GREAT)), *SUDOERS


def runas_and_commands(count):
    """A specification of so many commands, each of which has 255 runas users."""
    runas = alias(b"Runas_Alias", 1, b"r", 255)
    return runas + alias(b"Cmnd_Alias", 1, b"/b", count) + b"u h=(A1) A1\n"


@case
def expand_counts_the_runas_users_of_each_command():
    """255 commands count 256 members each, so 65,280 with the user and the host aside."""
    users = {"groups": None, "users": 255 * ["r"]}
    wanted = text_of([specification(255 * [command("/b", users)], "u")])
    return runas_and_commands(255), Wanted(wanted), *JSON


@case
def expand_to_too_many_runas_users_of_commands():
    return runas_and_commands(256), fault("TooLarge"), *JSON


@case
def expand_to_a_line_past_the_limit():
    """The members are within their limit, and the printed line is not."""
    return runas_and_commands(255), fault("TooLarge"), *SUDOERS


@case
def expand_of_a_chain_of_as_many_aliases_as_there_may_be():
    return used_chain(b"/bin/a"), Wanted(b"bob ALL = /bin/a\n"), *SUDOERS


@case
def expand_of_aliases_doubled_forty_times():
    return doubled(b"Cmnd_Alias", 40, b"/bin/a") + b"bob ALL=A1\n", fault("TooLarge"), *SUDOERS


@case
def expand_of_user_aliases_doubled_forty_times():
    return doubled(b"User_Alias", 40, b"bob") + b"A1 ALL=ALL\n", fault("TooLarge"), *SUDOERS


@case
def expand_of_aliases_doubled_ten_times():
    policy = doubled(b"Cmnd_Alias", 11, b"/bin/a") + b"bob ALL=A1\n"
    return policy, Wanted(b"bob ALL = %s\n" % b", ".join([b"/bin/a"] * 1_024)), *SUDOERS


@case
def expand_of_unused_aliases_doubled_forty_times():
    return doubled(b"Cmnd_Alias", 40, b"/bin/a") + b"bob ALL=ALL\n", Wanted(b"bob ALL = ALL\n"), *SUDOERS


@case
def too_many_members_come_before_not_utf_8():
    policy = doubled(b"Cmnd_Alias", 40, b"/bin/\xff") + b"bob ALL=A1\n"
    return policy, fault("TooLarge"), *JSON


@case
def cycle_comes_before_too_many_members():
    policy = doubled(b"Cmnd_Alias", 40, b"/bin/a") + b"User_Alias A = A\nbob ALL=A1\nA ALL=ALL\n"
    return policy, fault("Cycle"), *SUDOERS
