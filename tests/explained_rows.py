"""Rows of explaining.py: errors of a run with their advice, errors that need many files or a folder of `--root`, and exit statuses.

A row of RUNS and of CLOSED has a name, files, words, the error of the run, and its advice. The program may not read the
files of CLOSED. A row of LONG has the error and the whole explanation.
"""

from included_rows import ASKED
from stand import EMPTY_FOLDER, Closed, Link

RULE = {"main": "bob ALL = ALL\n"}
CIRCLE = {"main": "User_Alias A = B\nUser_Alias B = A\nA ALL = ALL\n"}
DEPTH, FILES, LENGTH, SIZE = 128, 256, 65536, 1048576
DEEP = {"main": "@include f1\n", **{f"f{number}": f"@include f{number + 1}\n" for number in range(1, DEPTH + 1)}, f"f{DEPTH + 1}": ""}
MANY = {"main": "@includedir d\n", **{f"d/{number}": "" for number in range(FILES)}}
SO_MANY = "".join(f"User_Alias A{number} = bob\n" for number in range(4097))
NO_MOMENT = ASKED.replace("2026010100Z", "2026-01-01")
NO_PASSWD = ASKED.replace("--passwd passwd", "--passwd none")
NO_GROUP = ASKED.replace("--group-file group", "--group-file none")
ADDRESS = f"{ASKED} bob --interfaces"
STAMP = "write the moment in UTC as YYYYMMDDHHMMSSZ: `date -u +%Y%m%d%H%M%SZ`"
PASSWD_ROW = "a row of passwd has seven fields between `:`, of which the third and fourth are numbers"
GROUP_ROW = "a row of group has four fields between `:`, of which the third is a number"
BITS = "write each address with its bits, as `10.1.2.9/24`, and commas between them"
CIRCLED = "an alias leads back to itself: `check` prints the aliases of the circle"
FILTER = "write the filter as `user=NAME,group=NAME,host=NAME`"

RUNS = (
    ("missing_file", {}, "check main", "NoRoot", "main: no such file"),
    ("missing_file_of_a_folder", RULE, "show d/main", "NoRoot", "d/main: no such file"),
    ("missing_file_below_a_file", RULE, "show main/a", "NoRoot", "main/a: a part of its name is no folder"),
    ("missing_file_with_quiet", {}, "check -q main", "NoRoot", "main: no such file"),
    ("folder", {"main": EMPTY_FOLDER}, "check main", "Failed", "main: it is no regular file"),
    ("included_folder", {"main": "@include d\n", "d": EMPTY_FOLDER}, "show main", "Failed", "d: it is no regular file"),
    (
        *("name_in_a_folder_that_is_not_utf8", {"main": "@includedir d\n", "d/\udcffx": ""}, "check main", "Failed"),
        "d: it is a folder, and a name in it is not UTF-8",
    ),
    ("link_to_itself", {"main": Link("main")}, "convert -f json main", "Failed", "main: its links lead in a circle"),
    ("name_of_300_bytes", {}, f"show {'x' * 300}", "NoRoot", f"{'x' * 300}: its name is too long"),
    ("missing_file_below_a_root", {"r/a": ""}, "check --root r /etc/none", "NoRoot", "/etc/none: no such file"),
    ("folder_below_a_root", {"r/etc": EMPTY_FOLDER}, "check --root r /etc", "Failed", "/etc: it is no regular file"),
    ("too_many_files", MANY, "check main", "TooManyFiles", "a policy has at most 256 files"),
    (
        *("too_long_a_line", {"main": f"# a\n#{'x' * LENGTH}\n"}, "show main", "main:2:1: line too long"),
        "a line has at most 65536 bytes, with the lines that continue it",
    ),
    ("too_large_a_file", {"main": "#\n" * (SIZE // 2) + "#"}, "show main", "main: TooLarge", "a file has at most 1048576 bytes"),
    (
        *("too_many_definitions", {"main": SO_MANY}, "show main", "main: too many User_Alias"),
        "a policy has at most 4096 definitions of each kind, as User_Alias",
    ),
    ("bad_moment", RULE, f"{NO_MOMENT} bob main /bin/a", "BadMoment", STAMP),
    ("too_many_bits", RULE, f"{ADDRESS} 10.0.0.1/99 main", "BadAddress", BITS),
    ("address_without_bits", RULE, f"{ADDRESS} 10.0.0.1,10.0.0.2 main", "BadAddress", BITS),
    ("bad_row_of_passwd", {**RULE, "passwd": "root:x:0:0:::\nbob\n"}, f"{ASKED} bob main", "passwd:2: BadRow", PASSWD_ROW),
    ("bad_row_of_group", {**RULE, "group": "a:x:0\n"}, f"{ASKED} bob main", "group:1: BadRow", GROUP_ROW),
    ("missing_passwd", RULE, f"{NO_PASSWD} bob main", "Read", "none: no such file"),
    ("missing_group", RULE, f"{NO_GROUP} bob main", "Read", "none: no such file"),
    (
        *("too_large_a_passwd", {**RULE, "passwd": "root:x:0:0:::\n" * 90000}, f"{ASKED} bob main"),
        *("TooLarge", "the files of users and of groups have at most 1048576 bytes each"),
    ),
    ("circle_of_a_question", CIRCLE, f"{ASKED} bob main /bin/a", "Cycle", CIRCLED),
    ("circle_of_a_conversion", CIRCLE, "convert -f json -e main", "Cycle", CIRCLED),
    ("unknown_key", RULE, "convert -f json -m foo=bar main", "BadKey", FILTER),
    ("no_key", RULE, "convert -f json -m bob main", "BadKey", FILTER),
    ("no_name_in_a_filter", RULE, "convert -f json -m user= main", "Empty", "write a name after each `=` of the filter"),
    (
        *("bytes_that_are_not_utf_8", {"main": b"b\xff ALL = ALL\n"}, "convert -f json main"),
        *("NotUtf8", "JSON is UTF-8, and a text of the policy is not: print it with `-f sudoers`"),
    ),
)

CLOSED = (
    ("closed_file", {"main": Closed("bob ALL = ALL\n")}, "check main", "Failed", "main: permission denied"),
    ("closed_folder", {"d": Closed(None), "d/main": ""}, "show d/main", "Failed", "d/main: permission denied"),
    ("closed_included_file", {"main": "@include a\n", "a": Closed("# a\n")}, "show main", "Failed", "a: permission denied"),
    ("closed_passwd", {**RULE, "passwd": Closed("root:x:0:0:::\n")}, f"{ASKED} bob main", "Read", "passwd: permission denied"),
)



def excerpts_of_definitions(*places):
    """The explanation of a definition, by two places: a file, the number of a row, and the user whom the row has."""
    rows = (f" --> {file}:{row}:12\n  |\n{row} | User_Alias A = {user}\n  |            ^ defined here\n" for file, row, user in places)
    return "".join(rows) + "  = help: define each alias of a kind once\n"


IN_TWO_FILES = {"main": "User_Alias A = x\n@include a\n", "a": "User_Alias A = y\nUser_Alias A = z\n"}

LONG = (
    (
        *("definition_before_two_of_another_file", IN_TWO_FILES, "check main", "a: User_Alias A defined twice\n"),
        excerpts_of_definitions(("main", 1, "x"), ("a", 1, "y")),
    ),
    (
        *("each_definition_of_another_file", IN_TWO_FILES, "check --all main", "a: User_Alias A defined twice\n" * 2),
        "".join(excerpts_of_definitions(("main", 1, "x"), again) for again in (("a", 1, "y"), ("a", 2, "z"))),
    ),
    (
        *("each_of_three_definitions", {"main": "User_Alias A = x\nUser_Alias A = y\nUser_Alias A = z\n"}),
        *("check --all main", "main: User_Alias A defined twice\n" * 2),
        "".join(excerpts_of_definitions(("main", 1, "x"), again) for again in (("main", 2, "y"), ("main", 3, "z"))),
    ),
    (
        "error_below_a_root",
        {"r/etc/sudoers": "@include x\n", "r/etc/x": "# x\nbob ALL\n"},
        "check --root r /etc/sudoers",
        "/etc/x:2:8: syntax error: EndOfLine\n",
        " --> /etc/x:2:8\n  |\n2 | bob ALL\n  |        ^ expected `=` or `,`\n"
        "  = help: write `=` between the hosts and the commands: `USER HOST = COMMAND`\n",
    ),
    (
        "too_deep",
        DEEP,
        "check main",
        "f128:1:1: includes nested too deep\n",
        " --> f128:1:10\n  |\n1 | @include f129\n  |          ^ the 129th level\n"
        "  = help: files include one another at most 128 levels deep\n",
    ),
)

ANSWERS = {**RULE, "open": "bob ALL = SH\n", "wrong": "bob ALL\n", "script": "erase 1\n"}

# Words after which `--error-status 7` is put, standard input, and the exit status.
STATUSES = (
    ("check none", b"", 7),
    ("check -q none", b"", 7),
    ("check main", b"", 0),
    ("check wrong", b"", 1),
    ("check -q wrong", b"", 1),
    ("check -s open", b"", 1),
    ("check -", b"bob ALL\n", 1),
    ("show none", b"", 7),
    ("show wrong", b"", 7),
    ("show main", b"", 0),
    ("convert -f json none", b"", 7),
    ("convert -f json wrong", b"", 7),
    ("convert -f json -m foo=bar main", b"", 7),
    ("convert -f json main", b"", 0),
    (f"{ASKED} bob none", b"", 7),
    (f"{ASKED} bob wrong", b"", 7),
    (f"{ASKED} eve main", b"", 7),
    (f"{ASKED} ann main", b"", 0),
    (f"{ASKED} ann main /bin/a", b"", 1),
    (f"{ASKED} ann --why main /bin/a", b"", 1),
    (f"{ASKED} bob main /bin/a", b"", 0),
    ("edit", b"erase 1\n", 7),
    ("edit", b"erase 1\n%%\n", 7),
    ("edit", b"prune\n%%\n", 0),
    ("edit --undo 1", b"", 7),
    ("edit --files script main", b"", 7),
    ("edit --files none main", b"", 7),
    ("edit --files - none", b"", 7),
    ("edit --files - main", b"", 0),
)
