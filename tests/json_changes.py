"""Whole documents of `diff --json`, and of `check --json` with `--overruled` and `--lint`: rows for json_documents.py."""

from json_rows import BOB, NAME, advised, check, error, of_run, place
from linting import WORDS
from stand import Closed


def diff(rules=(), left=(), others=(), differ=True, errors=(), old="old", new="new"):
    """Returns the document of `diff`."""
    lists = {"errors": list(errors), "left": list(left), "others": list(others), "rules": list(rules)}
    return {"command": "diff", "differ": None if errors else differ, "new": new, "old": old, **lists}


def went(rule, *where, **known):
    """Returns a change that went from its place in `old`."""
    return {"change": "went", "example": None, "user": None, "rule": rule, "place": place("old", *where) if where else None, **known}


def came(rule, *where, **known):
    """Returns a change that came at its place in `new`."""
    return {**went(rule, **known), "change": "came", "place": place("new", *where) if where else None}


def warning(rule, text, *where):
    """Returns a warning of lint."""
    return {"place": place(*where), "reason": WORDS[rule], "rule": rule, "text": text}


def overruled(kind, command, where, decider):
    """Returns a command that never decides."""
    return {"command": command, "decider": place(*decider), "kind": kind, "place": place(*where)}


def said(text, known):
    """Returns an error with another text."""
    return {**known, "text": text}


def of_policy(text, cause, file, advice):
    """Returns an error of a whole policy, or of both without a name."""
    return said(text, of_run("Run", cause, file, None, advice))


# ---- check --overruled, check --lint

TEAM = {"main": "ann ALL = NOPASSWD: /bin/ls\n@include more\n", "more": "ann ALL = /bin/ls, \\\n  /usr/bin/vim\n"}
FOUND = {
    "lint": [warning("way-out", "/usr/bin/vim", "more", 2, 3)],
    "overruled": [overruled("overruled", "/bin/ls", ("main", 1, 21), ("more", 1, 11))],
}
BYTES = {"main": b"ALL ALL = /bin/\xff\nALL ALL = /bin/\xff # lint: allow everyone\n"}
OF_BYTES = {
    "lint": [warning("everyone", {"bytes": b"/bin/\xff".hex()}, "main", 1, 11)],
    "overruled": [overruled("useless", {"bytes": b"/bin/\xff".hex()}, ("main", 1, 11), ("main", 2, 11))],
}
CYCLE = "User_Alias A = B : B = A\nA ALL = /bin/a\n"
CIRCLE = "an alias leads back to itself: `check` prints the aliases of the circle"
OF_CYCLE = of_run("Run", "Cycle", advice=CIRCLE)
MANY = "".join(f"u{number} ALL = /bin/a\n" for number in range(66))
OF_MANY = {"overruled": [], "not_decided": {"count": 1, "first": place("main", 1, 10)}}
ROWS = (
    ("lines", TEAM, "check --json --overruled --lint main", b"", check("main", **FOUND), 0, b""),
    ("lines_as_errors", TEAM, "check -s --json --overruled --lint main", b"", check("main", passed=False, **FOUND), 1, b""),
    ("overruled_alone", TEAM, "check -s --json --overruled main", b"", check("main", overruled=FOUND["overruled"]), 0, b""),
    ("lint_alone", TEAM, "check --json --lint main", b"", check("main", lint=FOUND["lint"]), 0, b""),
    ("no_lines", {"main": "# a\n"}, "check -s --json --overruled --lint main", b"", check("main", overruled=[], lint=[]), 0, b""),
    ("quiet_lines", TEAM, "check -q --json --overruled --lint main", b"", None, 0, b""),
    ("quiet_lines_as_errors", TEAM, "check -q -s --json --lint main", b"", None, 1, b""),
    ("lines_that_are_not_utf_8", BYTES, "check --json --overruled --lint main", b"", check("main", **OF_BYTES), 0, b""),
    ("commands_that_are_not_decided", {"main": MANY}, "check --json --overruled main", b"", check("main", **OF_MANY), 0, b""),
    ("a_cycle", {"main": CYCLE}, "check --json --overruled main", b"", check("main", [OF_CYCLE]), 3, NAME + b"Cycle\n"),
    ("a_cycle", {"main": CYCLE}, "check --json --lint --error-status 7 main", b"", check("main", [OF_CYCLE]), 7, NAME + b"Cycle\n"),
    ("an_error_with_lines", {"main": "bob ALL\n"}, "check --json --overruled --lint main", b"", check("main", [BOB]), 1, b""),
    (
        *("no_file_with_lines", {}, "check --json --lint none", b""),
        *(check("none", [of_run("Gather", "NoRoot", "none", "no such file")]), 3, NAME + b"NoRoot\n"),
    ),
)

# ---- diff

SAME = {"old": "ann ALL = /bin/a\n", "new": "# a\nann  ALL=/bin/a\n"}
OTHER = {"old": "ann ALL = /bin/a, !/bin/b\n", "new": "ann ALL = NOPASSWD: /bin/a\nDefaults use_pty, runas_default=bob\n"}
OF_OTHER = (
    went("ann ALL = /bin/a", 1, 11),
    went("ann ALL = !/bin/b", 1, 19),
    came("ann ALL = NOPASSWD: /bin/a", 1, 21),
    came("Defaults runas_default=bob", 2, 1),
)
USE_PTY = came("Defaults use_pty", 2, 1)
PEOPLE = {"passwd": "root:x:0:0:::\nann:x:1:1:::\nbob:x:2:2:::\n", "group": "adm:x:9:\n"}
MACHINE = "--passwd passwd --group-file group --host h --moment 20300101000000Z"
USERS = {
    **PEOPLE,
    "old": "ann ALL = (bob) /bin/a\nzoe ALL = ALL\n",
    "new": "ann ALL = NOTBEFORE=20400101000000Z /bin/a, (eve) /bin/b\nDefaults:bob runas_default=ann\nDefaults insults\n+ng ALL = /bin/c\n",
}
OF_USERS = (
    went("(bob) /bin/a", 1, 17, user="ann", example="-u bob /bin/a"),
    came("NOTBEFORE=20400101000000Z /bin/a", 1, 37, user="ann", example="/bin/a  at 20400101000000Z"),
    came("(eve) NOTBEFORE=20400101000000Z /bin/b", 1, 51, user="ann"),
    went("Defaults runas_default=root", user="bob"),
    came("Defaults runas_default=ann", user="bob"),
)
LEFT = (went("zoe ALL = ALL", 2, 11), came("+ng ALL = /bin/c", 4, 11))
INSULTS = came("Defaults insults", 3, 1)
NOT_UTF_8 = {**PEOPLE, "old": b"", "new": b'"\xe4" ALL = /bin/a\nann ALL = /bin/\xff\n', "passwd": b"root:x:0:0:::\n\xe4:x:1:1:::\nann:x:2:2:::\n"}
BAD_OLD, BAD_NEW = "--old-root bad --new-root good", "--old-root good --new-root bad"
IMAGES = {"bad/s": "bob ALL\n", "good/s": "", "cycle/s": CYCLE}


def of_bob(file, label=""):
    """Returns the error of the line `bob ALL` of a file."""
    where = place(file, 1, 8, 1, 8)
    text = f"{label}{file}:1:8: syntax error: EndOfLine"
    advice = "write `=` between the hosts and the commands: `USER HOST = COMMAND`"
    return advised(text, "EndOfLine", where, advice, expected=["equal", "comma"])


def failing(name, tree, words, told, old="old", new="new", stdin=b""):
    """Returns a row with an error of `diff`."""
    return name, tree, words, stdin, diff(errors=[told], old=old, new=new), 3, NAME + told["text"].encode() + b"\n"


def hex_of(text):
    """Returns a text that is not UTF-8."""
    return {"bytes": text.hex()}


ROWS += (
    ("the_same", SAME, "diff --json old new", b"", diff(differ=False), 0, b""),
    ("other_rules", OTHER, "diff --json old new", b"", diff(OF_OTHER, others=[USE_PTY]), 1, b""),
    ("what_is_granted", OTHER, "diff --granted --json old new", b"", diff([OF_OTHER[1], *OF_OTHER[2:]], others=[USE_PTY]), 1, b""),
    (
        *("nothing_is_granted", {**SAME, "new": "Defaults insults\nann ALL = /bin/a\n"}, "diff --granted --json old new", b""),
        *(diff(others=[came("Defaults insults", 1, 1)], differ=False), 0, b""),
    ),
    ("users", USERS, f"diff --json {MACHINE} old new", b"", diff(OF_USERS, LEFT, [INSULTS]), 1, b""),
    ("a_user", USERS, f"diff --json {MACHINE} old new bob", b"", diff(OF_USERS[3:], LEFT[1:], [INSULTS]), 1, b""),
    ("the_same_for_users", {**USERS, "new": USERS["old"]}, f"diff --json {MACHINE} old new", b"", diff(differ=False), 0, b""),
    (
        *("rules_that_are_not_utf_8", NOT_UTF_8, "diff --json old new", b""),
        diff([came(hex_of(b"\xe4 ALL = /bin/a"), 1, 11), came(hex_of(b"ann ALL = /bin/\xff"), 2, 11)]),
        *(1, b""),
    ),
    (
        *("users_who_are_not_utf_8", NOT_UTF_8, f"diff --json {MACHINE} old new", b""),
        diff(
            [
                came("/bin/a", 1, 11, user=hex_of(b"\xe4"), example="/bin/a"),
                came(hex_of(b"/bin/\xff"), 2, 11, user="ann", example=hex_of(b"/bin/\xff")),
            ]
        ),
        *(1, b""),
    ),
    failing("no_old", SAME, "diff --json none new", said("none: NoRoot", of_run("Gather", "NoRoot", "none", "no such file")), old="none"),
    failing("no_new", SAME, "diff --json old none", said("none: NoRoot", of_run("Gather", "NoRoot", "none", "no such file")), new="none"),
    failing(
        *("a_folder_is_included", {**SAME, "new": "@include sub\n", "sub/a": ""}, "diff --json old new"),
        said("new: Failed", of_run("Gather", "Failed", "sub", "it is no regular file")),
    ),
    failing("an_error_of_old", {**SAME, "old": "bob ALL\n"}, "diff --json old new", of_bob("old")),
    failing("an_error_of_new", {**SAME, "new": "bob ALL\n"}, "diff --json --explain old new", of_bob("new")),
    failing("an_error_of_standard_input", SAME, "diff --json - new", of_bob("-"), old="-", stdin=b"bob ALL\n"),
    failing("an_error_of_an_image", IMAGES, f"diff --json {BAD_OLD} /s /s", of_bob("/s", "OLD: "), "/s", "/s"),
    failing("an_error_of_an_image", IMAGES, f"diff --json {BAD_NEW} /s /s", of_bob("/s", "NEW: "), "/s", "/s"),
    failing(
        *("no_file_of_an_image", IMAGES, "diff --json --old-root good --new-root . /s /s"),
        *(said("NEW: /s: NoRoot", of_run("Gather", "NoRoot", "/s", "no such file")), "/s", "/s"),
    ),
    failing("a_cycle_of_both", {"cycle": CYCLE}, "diff --json cycle cycle", of_policy("OLD: cycle: Cycle", "Cycle", "cycle", CIRCLE), "cycle", "cycle"),
    failing("a_cycle_of_new", {**SAME, "new": CYCLE}, "diff --json old new", of_policy("new: Cycle", "Cycle", "new", CIRCLE)),
    failing(
        *("a_cycle_of_an_image", IMAGES, "diff --json --old-root good --new-root cycle /s /s"),
        *(of_policy("NEW: /s: Cycle", "Cycle", "/s", CIRCLE), "/s", "/s"),
    ),
    failing("no_user", USERS, f"diff --json {MACHINE} old new zoe", of_policy("zoe: NoUser", "NoUser", None, "zoe has no row in passwd")),
    failing(
        *("no_passwd", USERS, f"diff --json {MACHINE.replace('passwd passwd', 'passwd none')} old new"),
        error("none: Read", "Read", place("none"), kind="Run", reason="no such file"),
    ),
    failing(
        *("a_bad_row", {**USERS, "passwd": "ann\n"}, f"diff --json {MACHINE} old new"),
        of_policy("passwd:1: BadRow", "BadRow", None, "a row of passwd has seven fields between `:`, of which the third and fourth are numbers"),
    ),
)

# Rows for a user who may not read everything.
UNREADABLE = (
    failing(
        *("a_closed_file", {**SAME, "old": Closed("# a\n")}, "diff --json old new"),
        said("old: Failed", of_run("Gather", "Failed", "old", "permission denied")),
    ),
)

# Words and a tree, of which each growth of memory is refused. If the growths of finding out which policy has an error are refused, the error of
# these words is of none.
CYCLE_WORDS = "diff --json cycle new"
OF_NONE = {CYCLE_WORDS: (diff(errors=[OF_CYCLE], old="cycle"), NAME + b"Cycle\n")}
GROWTHS = (
    ("check --json -s --overruled --lint main", {**TEAM, **BYTES}),
    ("check --json --overruled main", {"main": MANY}),
    ("check --json --lint main", {"main": CYCLE}),
    ("diff --json old new", OTHER),
    (f"diff --json {MACHINE} old new", USERS),
    (f"diff --json {MACHINE} old new", NOT_UTF_8),
    ("diff --json old new", {**SAME, "new": "bob ALL\n"}),
    (CYCLE_WORDS, {**SAME, "cycle": CYCLE}),
    ("diff --json none new", SAME),
)
