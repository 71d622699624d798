"""`list` at the limits of its three files, of a command and of the aliases that it looks into."""

from cases import Case
from large import ALIAS_LIMIT, LINE_LIMIT, POLICY_LIMIT, case, definitions_in_one_line, doubled, full_policy, used_chain
from program import Wanted, fault

FILES = ("--passwd", "passwd", "--group-file", "group")
WORDS = ("list", *FILES, "--host", "h1", "--moment", "2026010100Z", "-U", "bob")
PASSWD = b"root:x:0:0:::\nbob:x:1000:1000:::\n"
GROUP = b"root:x:0:\nadm:x:4:bob\n"
RULE = b"bob ALL=/bin/ls\n"


def answered(wanted, words=("-",), policy=RULE, passwd=PASSWD, group=GROUP):
    """What `list` answers with these words after those of all cases."""
    return Case("", (*WORDS, *words), policy, wanted, files=(("passwd", passwd), ("group", group)))


def listed(*commands):
    """The listing of these commands."""
    return Wanted(b"bob on h1:\n" + b"".join(b"    (root) %s\n" % command for command in commands))


def filled(rows):
    """The rows, with comments up to the limit of a file."""
    return rows + b"#" * (POLICY_LIMIT - len(rows) - 1) + b"\n"


# ---- the files -----------------------------------------------------------------


@case
def list_of_a_policy_at_the_limit():
    return answered(Wanted(b"bob may run nothing on h1.\n"), policy=full_policy())


@case
def list_of_a_policy_one_byte_past_the_limit():
    return answered(fault("-: TooLarge"), policy=full_policy() + b"\n")


@case
def list_of_a_line_past_the_limit():
    return answered(fault("-:2:1: line too long"), policy=RULE + b"#" * LINE_LIMIT + b"\n")


@case
def list_with_a_passwd_at_the_limit():
    return answered(listed(b"/bin/ls"), passwd=filled(PASSWD))


@case
def list_with_a_passwd_one_byte_past_the_limit():
    return answered(fault("TooLarge"), passwd=filled(PASSWD) + b"\n")


@case
def list_with_a_passwd_far_past_the_limit():
    return answered(fault("TooLarge"), passwd=PASSWD * 100_000)


@case
def list_with_a_group_at_the_limit():
    return answered(listed(b"/bin/ls"), group=filled(GROUP))


@case
def list_with_a_group_one_byte_past_the_limit():
    return answered(fault("TooLarge"), group=filled(GROUP) + b"\n")


@case
def passwd_past_the_limit_comes_before_its_bad_row():
    return answered(fault("TooLarge"), passwd=b"bob\n" + filled(PASSWD))


@case
def group_past_the_limit_comes_before_its_bad_row():
    return answered(fault("TooLarge"), group=b"adm\n" + filled(GROUP))


@case
def bad_row_of_passwd_comes_before_a_group_past_the_limit():
    return answered(fault("passwd:1: BadRow"), passwd=b"bob\n", group=filled(GROUP) + b"\n")


@case
def passwd_past_the_limit_comes_before_a_bad_row_of_group():
    return answered(fault("TooLarge"), passwd=filled(PASSWD) + b"\n", group=b"adm\n")


@case
def policy_comes_before_a_passwd_past_the_limit():
    return answered(fault("-:1:8: syntax error: EndOfLine"), policy=b"bob ALL\n", passwd=filled(PASSWD) + b"\n")


@case
def policy_past_the_limit_comes_before_a_bad_row_of_passwd():
    return answered(fault("-: TooLarge"), policy=full_policy() + b"\n", passwd=b"bob\n")


@case
def passwd_past_the_limit_comes_before_a_user():
    return answered(fault("TooLarge"), ("--interfaces", "x", "-u", "eve", "-", "/bin/ls"), passwd=filled(PASSWD) + b"\n")


@case
def last_row_of_a_passwd_at_the_limit_is_bad():
    rows = filled(PASSWD)
    return answered(fault("passwd:4: BadRow"), passwd=rows[: -len(b"#bob\n")] + b"\nbob\n")


# ---- people --------------------------------------------------------------------


@case
def list_with_very_many_users():
    rows = b"".join(b"u%d:x:%d:%d:::\n" % (number, number, number) for number in range(1, 30_001))
    return answered(listed(b"/bin/ls"), passwd=rows + PASSWD)


@case
def list_with_very_many_groups_of_a_user():
    """A user may be in more groups than a system lets him."""
    rows = b"".join(b"g%d:x:%d:bob\n" % (number, number) for number in range(1, 5_001))
    policy = b"%g5000 ALL=/bin/ls\n%#4999 ALL=/bin/cat\n%g5001 ALL=/bin/su\n"
    return answered(listed(b"/bin/ls", b"/bin/cat"), policy=policy, group=rows)


@case
def list_with_a_group_of_very_many_users():
    users = b",".join(b"u%d" % number for number in range(1, 100_001))
    return answered(listed(b"/bin/ls"), policy=b"%all ALL=/bin/ls\n", group=b"all:x:7:" + users + b",bob\n")


@case
def list_with_very_many_interfaces():
    interfaces = ",".join(f"10.{number // 250}.{number % 250}.1/24" for number in range(5_000))
    policy = b"bob 10.19.249.0=/bin/ls : 10.20.0.0=/bin/su\n"
    return answered(listed(b"/bin/ls"), ("--interfaces", interfaces, "-"), policy)


# ---- rules and commands --------------------------------------------------------


@case
def list_of_very_many_commands():
    """A listing has no limit: inherited tags make it greater than its policy."""
    rule = b"bob ALL=NOPASSWD: NOEXEC: /a" + b",/a" * 10_000 + b"\n"
    return answered(listed(*([b"NOEXEC: NOPASSWD: /a"] * 10_001 * 20)), policy=rule * 20)


@case
def list_of_very_many_rules():
    return answered(listed(*([b"/a"] * 100_000)), policy=b"bob h1=/a\n" * 100_000)


@case
def command_of_forty_aliases_of_two_members():
    policy = doubled(b"Cmnd_Alias", 40, b"/bin/a") + b"bob ALL=A1\n"
    return answered(Wanted(b"/bin/a\n"), ("-", "/bin/a"), policy)


@case
def why_of_forty_aliases_of_two_members():
    policy = doubled(b"Cmnd_Alias", 40, b"/bin/a") + b"bob ALL=A1\n"
    wanted = Wanted(b"-:41:9: allowed by: (root) A1\n-:40:18: in Cmnd_Alias A40: /bin/a\n")
    return answered(wanted, ("--why", "-", "/bin/a"), policy)


@case
def why_of_forty_aliases_beside_forty_that_say_nothing():
    """The second member of each says nothing, and leads to a number of members that no run could look at one by one."""
    names = [(b"C%02d" % number, b"D%02d" % number) for number in range(1, 41)]
    policy = b""
    for (c, d), (next_c, next_d) in zip(names, names[1:]):
        policy += b"Cmnd_Alias %s = %s, %s : %s = %s, %s\n" % (c, next_c, next_d, d, next_d, next_d)
    policy += b"Cmnd_Alias C40 = /bin/a : D40 = /bin/b\nbob ALL=C01\n"
    wanted = Wanted(b"-:41:9: allowed by: (root) C01\n-:40:18: in Cmnd_Alias C40: /bin/a\n")
    return answered(wanted, ("--why", "-", "/bin/a"), policy)


@case
def list_of_forty_aliases_of_users_of_two_members():
    policy = doubled(b"User_Alias", 40, b"bob") + b"A1 ALL=/bin/a\n"
    return answered(listed(b"/bin/a"), policy=policy)


@case
def command_after_a_chain_of_aliases():
    return answered(Wanted(b"/bin/a\n"), ("-", "/bin/a"), used_chain())


@case
def listing_of_a_chain_of_aliases():
    return answered(listed(b"A1"), policy=used_chain())


@case
def why_after_a_chain_of_aliases():
    wanted = Wanted(b"-:4097:9: allowed by: (root) SETENV: A1\n-:4096:20: in Cmnd_Alias A4096: ALL\n")
    return answered(wanted, ("--why", "-", "/bin/a"), used_chain())


@case
def why_of_the_last_of_very_many_aliases_in_one_line():
    line = definitions_in_one_line(b"Cmnd_Alias", ALIAS_LIMIT)
    place = b"1:%d" % (len(line) - len(b"ALL\n") + 1)
    wanted = Wanted(b"-:2:9: allowed by: (root) SETENV: A4096\n-:%s: in Cmnd_Alias A4096: ALL\n" % place)
    return answered(wanted, ("--why", "-", "/bin/a"), line + b"bob ALL=A4096\n")


@case
def why_of_the_last_of_very_many_members():
    policy = b"Cmnd_Alias A=" + b"/b," * 20_000 + b"/a\nbob ALL=A\n"
    wanted = Wanted(b"-:2:9: allowed by: (root) A\n-:1:60014: in Cmnd_Alias A: /a\n")
    return answered(wanted, ("--why", "-", "/a"), policy)


@case
def why_of_the_first_of_very_many_members():
    policy = b"Cmnd_Alias A=/a" + b",/b" * 20_000 + b"\nbob ALL=A\n"
    wanted = Wanted(b"-:2:9: allowed by: (root) A\n-:1:14: in Cmnd_Alias A: /a\n")
    return answered(wanted, ("--why", "-", "/a"), policy)


@case
def why_of_the_last_of_very_many_commands():
    policy = b"bob ALL=" + b"/b," * 20_000 + b"!/a\n"
    return answered(Wanted(b"-:1:60009: denied by: (root) !/a\n", status=1), ("--why", "-", "/a"), policy)


@case
def why_of_the_last_of_very_many_lines_of_a_rule():
    policy = b"bob ALL=/a,\\\n" + b"/b,\\\n" * 13_000 + b" /a\n"
    return answered(Wanted(b"-:13002:2: allowed by: (root) /a\n"), ("--why", "-", "/a"), policy)


@case
def why_of_the_last_of_very_many_rules():
    policy = b"bob ALL=/a\n" * 90_000 + b"bob ALL=!/a\n"
    return answered(Wanted(b"-:90001:9: denied by: (root) !/a\n", status=1), ("--why", "-", "/a"), policy)


@case
def why_of_the_first_of_very_many_rules():
    policy = b"bob ALL=/a\n" + b"bob ALL=/b\n" * 90_000
    return answered(Wanted(b"-:1:9: allowed by: (root) /a\n"), ("--why", "-", "/a"), policy)


@case
def pattern_of_very_many_stars():
    policy = b"bob ALL=/a %sb\n" % (b"*a" * 1_000)
    return answered(Wanted(status=1), ("-", "/a", "a" * 60_000), policy)
