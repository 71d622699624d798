"""Policies that a user leaves by the wish `no-user`: what is planned, what is refused, and what is noted.

The user is bob, unless the row says so.
"""

from collections import namedtuple

# The files, the script that is wanted, the files after it, and the lines of the notes.
Left = namedtuple("Left", "files script after notes options user", defaults=((), (), "bob"))
# The files, the words before the wishes, the wishes, the number of the refused one, from 0, and the error.
Refused = namedtuple("Refused", "files options wishes number error")


def main(text):
    """A policy of one file."""
    return {"main": text}


def said(place, member, words):
    """The line of a note."""
    return f"sudoers_tool: {place}: {member}: {words}\n"


LEFT = {
    "a member of an alias, with a comment": Left(
        main("User_Alias OPS = bob, carol # two\nOPS ALL = ALL\n"), "drop user OPS 1\n", main("User_Alias OPS = carol # two\nOPS ALL = ALL\n")
    ),
    "a member of an alias, twice": Left(
        main("User_Alias OPS = bob, \\\n    carol, bob # two\n"), "drop user OPS 3\ndrop user OPS 1\n", main("User_Alias OPS = carol # two\n")
    ),
    "the first member of a rule": Left(
        main("# a\n  bob , \\\n    ann  web = (root) /bin/a # c\n"),
        "delete 2\ninsert 2\n|  ann  web = (root) /bin/a # c\n",
        main("# a\n  ann  web = (root) /bin/a # c\n"),
    ),
    "the middle member of a rule": Left(
        main("ann, \\\n    bob, carol web = ALL # c\nann ALL = ALL\n"),
        "delete 1\ninsert 1\n|ann, carol web = ALL # c\n",
        main("ann, carol web = ALL # c\nann ALL = ALL\n"),
    ),
    "the last member of a rule": Left(
        main("ann ,\\\n carol , bob \\\n  web = \\\n  ALL\n"),
        "delete 1\ninsert 1\n|ann ,\\\n| carol \\\n|  web = \\\n|  ALL\n",
        main("ann ,\\\n carol \\\n  web = \\\n  ALL\n"),
    ),
    "two members of a rule": Left(
        main("bob,ann,bob,carol web = ALL\n"), "delete 1\ninsert 1\n|ann,carol web = ALL\n", main("ann,carol web = ALL\n")
    ),
    "a rule with CR LF": Left(
        main("ann, bob web = ALL\r\nann ALL = ALL\r\n"), "delete 1\ninsert 1\n|ann web = ALL\r\n", main("ann web = ALL\r\nann ALL = ALL\r\n")
    ),
    "a rule of the user alone": Left(main("# a\nbob ALL = \\\n  ALL # c\n# b\n"), "delete 2\n", main("# a\n# b\n")),
    "a rule of the user alone, three times": Left(main("bob, bob, bob ALL = ALL\n"), "delete 1\n", main("")),
    "a last line without LF": Left(main("# a\nann, bob ALL = ALL"), "delete 2\ninsert 2\n>ann ALL = ALL\n", main("# a\nann ALL = ALL")),
    "a last line that goes": Left(main("# a\nbob ALL = ALL"), "delete 2\n", main("# a\n")),
    "an alias of the user alone": Left(
        main("User_Alias SOLO = bob\nUser_Alias OPS = SOLO, carol\nDefaults:SOLO, ann !lecture\nSOLO, carol ALL = ALL\nSOLO ALL = /bin/b\nOPS ALL = /bin/a\n"),
        "delete 5\ndelete 4\ninsert 4\n|carol ALL = ALL\ndelete 3\ninsert 3\n|Defaults:ann !lecture\ndrop user OPS 1\ndelete 1\n",
        main("User_Alias OPS = carol\nDefaults:ann !lecture\ncarol ALL = ALL\nOPS ALL = /bin/a\n"),
    ),
    "aliases of such aliases": Left(
        main("A, ann ALL = ALL\nUser_Alias A = B\nUser_Alias B = C, bob\nUser_Alias C = BOB\nA, C ALL = ALL\n"),
        "delete 5\ndelete 4\ndelete 3\ndelete 2\ndelete 1\ninsert 1\n|ann ALL = ALL\n",
        main("ann ALL = ALL\n"),
    ),
    "definitions of one line": Left(
        main("User_Alias A = bob : B = ann, bob : C = bob # c\n"), "dropdef 1 3\ndrop user B 2\ndropdef 1 1\n", main("User_Alias B = ann # c\n")
    ),
    "all definitions of a line": Left(main("User_Alias A = bob : B = A # c\n# d\n"), "delete 1\n", main("# d\n")),
    "aliases in a circle": Left(
        main("User_Alias A = B, bob\nUser_Alias B = A, bob\n"), "drop user B 2\ndrop user A 2\n", main("User_Alias A = B\nUser_Alias B = A\n")
    ),
    "several files": Left(
        {"main": "bob ALL = ALL\n@include a\nbob, ann ALL = ALL\n@include b\n", "a": "User_Alias X = bob\nann, bob ALL = /bin/a\n", "b": "X ALL = ALL\n"},
        "file 3\ndelete 1\nfile 1\ndelete 3\ninsert 3\n|ann ALL = ALL\nfile 2\ndelete 2\ninsert 2\n|ann ALL = /bin/a\ndelete 1\nfile 1\ndelete 1\n",
        {"main": "@include a\nann ALL = ALL\n@include b\n", "a": "ann ALL = /bin/a\n", "b": ""},
    ),
    "a name in other forms": Left(
        main('"bob", b\\x6fb, BOB, Bob, ann ALL = ALL\n'), "delete 1\ninsert 1\n|ann ALL = ALL\n", main("ann ALL = ALL\n")
    ),
    "a name of capitals is wished": Left(main("bob ALL = ALL\nBOB ALL = ALL\n"), "delete 2\ndelete 1\n", main(""), user="BOB"),
    "a defined alias is no name": Left(main("User_Alias BOB = ann\nBOB ALL = ALL\n"), "", main("User_Alias BOB = ann\nBOB ALL = ALL\n")),
    "a name with a blank": Left(main('"b o", ann ALL = ALL\n'), "delete 1\ninsert 1\n|ann ALL = ALL\n", main("ann ALL = ALL\n"), user="b o"),
    "other names": Left(main("bobby, bo, bob2 ALL = ALL\nHost_Alias H = bob\nann bob = /bin/bob\n"), "", main("bobby, bo, bob2 ALL = ALL\nHost_Alias H = bob\nann bob = /bin/bob\n")),
    "a denial in a rule": Left(
        main("ALL, !bob ALL = ALL\n"),
        "delete 1\ninsert 1\n|ALL ALL = ALL\n",
        main("ALL ALL = ALL\n"),
        said("main:1:1", "ALL", "bob is one of all users"),
        ("--even-denials",),
    ),
    "a denial of an alias that stays": Left(
        main("User_Alias OPS = bob, carol\nann, !OPS ALL = ALL\n"), "drop user OPS 1\n", main("User_Alias OPS = carol\nann, !OPS ALL = ALL\n"), options=("--even-denials",)
    ),
    "a denial of an alias that goes": Left(
        main("User_Alias OPS = bob\nann, !OPS ALL = ALL\n"), "delete 2\ninsert 2\n|ann ALL = ALL\ndelete 1\n", main("ann ALL = ALL\n"), options=("--even-denials",)
    ),
    "two signs are none": Left(main("ann, !!bob ALL = ALL\n"), "delete 1\ninsert 1\n|ann ALL = ALL\n", main("ann ALL = ALL\n")),
}

# Policies of one file that want nothing, and what is noted.
KEPT = (
    ("%adm ALL = ALL\n", said("main:1:1", "%adm", "bob may be in this group")),
    ("ann, \\\n  !%#7 ALL = ALL\n", said("main:2:3", "!%#7", "bob may be in this group")),
    ("User_Alias A = ann : B = %:x\n", said("main:1:26", "%:x", "bob may be in this group")),
    ("#7 ALL = ALL\n", said("main:1:1", "#7", "bob may have this ID")),
    ('ann, "%a\x07b" ALL = ALL\n', said("main:1:6", '"%a\\x07b"', "bob may be in this group")),
    ("# a\n+net ALL = ALL\n", said("main:2:1", "+net", "bob may be in this netgroup")),
    ("ALL ALL = ALL\n", said("main:1:1", "ALL", "bob is one of all users")),
    ("Defaults:bob, %adm, ann, BOB !lecture\n", said("main:1:10", "bob", "bob stays in the scope of a Defaults line") + said("main:1:15", "%adm", "bob may be in this group") + said("main:1:26", "BOB", "bob stays in the scope of a Defaults line")),
    ("Defaults>bob, %adm !lecture\n", said("main:1:10", "bob", "bob stays in the scope of a Defaults line")),
    ("Defaults:!bob !lecture\n", said("main:1:10", "!bob", "bob stays in the scope of a Defaults line")),
    ("Defaults@bob !lecture\n", ""),
    ("ann ALL = (bob, %adm : bob) /bin/a, (root, BOB) /bin/b : ALL = (\"bob\") /bin/c\n", said("main:1:12", "bob", "bob stays in a runas list") + said("main:1:44", "BOB", "bob stays in a runas list") + said("main:1:65", '"bob"', "bob stays in a runas list")),
    ("Runas_Alias DB = bob, %adm : BOB = root\nRunas_Alias OTHER = BOB\n", said("main:1:18", "bob", "bob stays in a Runas_Alias")),
    ("Cmnd_Alias A = ALL, !/bin/su\nann ALL = A, !/bin/sh\n", ""),
    ("%adm ALL = ALL, !/bin/su\n", said("main:1:1", "%adm", "bob may be in this group")),
)

DENIED = "the rule denied commands to bob"
# Policies of one file that the user leaves, and what is noted of the commands that rules denied.
NO_LONGER_DENIED = (
    ("bob ALL = ALL, !/bin/su, !/bin/sh\n", said("main:1:16", "!/bin/su", DENIED)),
    ("ann, bob ALL = ALL : web = /bin/a, \\\n  !/bin/sh -c\n", said("main:2:3", "!/bin/sh -c", DENIED)),
    ("Cmnd_Alias SAFE = MORE\nCmnd_Alias MORE = ALL, !/bin/su\nbob ALL = SAFE\n", said("main:3:11", "SAFE", DENIED)),
    ("User_Alias OPS = bob, carol\nOPS ALL = ALL, !/bin/su\n", said("main:2:16", "!/bin/su", DENIED)),
    ("User_Alias OPS = bob\nUser_Alias MORE = OPS, carol\nMORE ALL = ALL, !/bin/su\n%adm ALL = ALL\n", said("main:3:17", "!/bin/su", DENIED) + said("main:4:1", "%adm", "bob may be in this group")),
)

DENIAL = "this denies something to bob or to an alias with bob; --even-denials goes on"
SCOPE = "the Defaults line would be for all users; lacks-line takes it out"
MISREAD = "without the user the line would not read as now; has-line and lacks-line exchange it"
NO_BOB = ("no-user bob",)
REFUSED = (
    Refused(main("# a\nALL, !bob ALL = ALL\n"), (), NO_BOB, 0, f"Denial: main:2: {DENIAL}"),
    Refused(main('ann ALL = \\\n  ALL\nALL, !"B\\x6fb" ALL = ALL\n'), (), NO_BOB, 0, f"Denial: main:3: {DENIAL}"),
    Refused(main("User_Alias A = carol : OPS = ALL, !bob\n"), (), NO_BOB, 0, f"Denial: main:1: {DENIAL}"),
    Refused(main("User_Alias OPS = bob, carol\nALL, !OPS ALL = ALL\n"), (), NO_BOB, 0, f"Denial: main:2: {DENIAL}"),
    Refused(main("User_Alias OPS = MORE, carol\nUser_Alias MORE = bob, ann\nALL, !OPS ALL = ALL\n"), (), NO_BOB, 0, f"Denial: main:3: {DENIAL}"),
    Refused(main("User_Alias OPS = bob, carol\nDefaults:ALL, !OPS lecture\n"), (), NO_BOB, 0, f"Denial: main:2: {DENIAL}"),
    Refused({"main": "# a\n@include a\n", "a": "bob ALL = ALL\nALL, !bob ALL = ALL\n"}, (), NO_BOB, 0, f"Denial: a:2: {DENIAL}"),
    Refused({"main": "@include a\nALL, !bob ALL = ALL\n", "a": "ann, !bob ALL = ALL\n"}, (), NO_BOB, 0, f"Denial: a:1: {DENIAL}"),
    Refused(main("User_Alias OPS = bob\nDefaults:OPS !lecture\n"), (), NO_BOB, 0, f"EmptiedScope: main:2: {SCOPE}"),
    Refused(main("User_Alias OPS = bob : MORE = OPS\nDefaults:OPS, MORE !lecture\n"), (), NO_BOB, 0, f"EmptiedScope: main:2: {SCOPE}"),
    Refused(main("User_Alias OPS = bob\nDefaults:!OPS !lecture\n"), (), NO_BOB, 0, f"Denial: main:2: {DENIAL}"),
    Refused(main("User_Alias OPS = bob\nDefaults:!OPS !lecture\n"), ("--even-denials",), NO_BOB, 0, f"EmptiedScope: main:2: {SCOPE}"),
    Refused(main("User_Alias OPS = bob\nDefaults:OPS !lecture\nALL, !bob ALL = ALL\n"), (), NO_BOB, 0, f"EmptiedScope: main:2: {SCOPE}"),
    Refused(main("User_Alias OPS = bob, ann\nALL, !OPS ALL = ALL\n"), (), ("has user OPS eve", "has-line main # new", "no-user bob"), 2, f"Denial: main:2: {DENIAL}"),
    Refused(main("bob, Defaults ALL = ALL\n"), (), NO_BOB, 0, f"Misread: main:1: {MISREAD}"),
    Refused(main("ann ALL = ALL\nbob, User_Alias X = ALL\n"), (), NO_BOB, 0, f"Misread: main:2: {MISREAD}"),
    Refused(main("ann, \"bob\"ALL = ALL\n"), (), NO_BOB, 0, f"Misread: main:1: {MISREAD}"),
    Refused(main("bob, Cmnd_Alias X = /bin/a\n"), (), NO_BOB, 0, f"Misread: main:1: {MISREAD}"),
    Refused(main("User_Alias OPS = ann\n"), (), ("no-user bob", "has user OPS bob"), 0, "NotMet: another wish of the call undoes it"),
    Refused(main("User_Alias OPS = bob, ann\n"), (), ("has user OPS bob", "no-user bob"), 0, "NotMet: another wish of the call undoes it"),
)
