"""Whole documents of `check --json` and `show --json`: rows for json_documents.py.

A row has a name, a tree, words, standard input, the document, the exit status, and what is printed on standard error. Without a
document nothing is printed on standard output.
"""

from program import NAME
from stand import EMPTY_FOLDER, Closed


def place(file, line=None, column=None, end_line=None, end_column=None):
    """Returns a place. Without a last line it ends in its first."""
    end = None if end_column is None else {"line": end_line or line, "column": end_column}
    return {"file": file, "line": line, "column": column, "end": end}


def error(text, cause, where, **known):
    """Returns an error of a file, of which nothing further is known but `known`."""
    unknown = {"alias": None, "expected": None, "first": None, "hint": None, "kind": "InFile", "name": None, "reason": None}
    return {**unknown, "text": text, "cause": cause, "place": where, **known}


def advised(text, cause, where, advice, **known):
    """Returns an error with an advice for its place."""
    return error(text, cause, where, hint={"text": advice, "place": where}, **known)


def check(policy, errors=(), passed=True, not_read=None, **notes):
    """Returns the document of `check`."""
    sorts = {sort: notes.get(sort, []) for sort in ("cyclic", "undefined", "unused")}
    lines = {key: notes.get(key) for key in ("lint", "not_decided", "overruled")}
    same = {"command": "check", "policy": policy, "errors": list(errors), "not_read": not_read}
    return {**same, **sorts, **lines, "read": not errors, "passed": passed and not errors}


def show(policy, files=(), lines=(), errors=()):
    """Returns the document of `show`."""
    names = [{"name": name, "number": number} for number, name in enumerate(files, 1)]
    return {"command": "show", "policy": policy, "errors": list(errors), "read": not errors, "files": names, "lines": list(lines)}


def line(number, kind, text, where, *definitions):
    """Returns a line of `show`."""
    return {"number": number, "kind": kind, "text": text, "place": where, "definitions": list(definitions)}


def note(kind, name, where):
    """Returns a note of `check`."""
    return {"kind": kind, "name": name, "place": where}


def definition(number, kind, name, members, where):
    """Returns a definition of a line."""
    return {"number": number, "kind": kind, "name": name, "members": members, "place": where}


def of_run(kind, cause, file=None, reason=None, advice=None):
    """Returns an error that is none of the policy."""
    where = None if file is None else place(file)
    hint = None if advice is None else {"text": advice, "place": where}
    return error(cause, cause, where, kind=kind, reason=reason, hint=hint)


BOB = advised(
    *("main:1:8: syntax error: EndOfLine", "EndOfLine", place("main", 1, 8, 1, 8)),
    "write `=` between the hosts and the commands: `USER HOST = COMMAND`",
    expected=["equal", "comma"],
)
TWICE = advised(
    *("a: User_Alias A defined twice", "Duplicate", place("a", 1, 12, 1, 13)),
    *("define each alias of a kind once",),
    alias="User_Alias",
    name="A",
    first=place("main", 1, 12, 1, 13),
)
SITE = {"main": "User_Alias A = A : B = x\nbob, B ALL = SH\n@includedir d\n", "d/a": "# a\n", "d/b.c": "", "d/e~": "", "d/f/g": ""}
NOTES = {
    "undefined": [note("Cmnd_Alias", "SH", place("main", 2, 14, 2, 16))],
    "cyclic": [note("User_Alias", "A", place("main", 1, 12, 1, 13))],
    "unused": [note("User_Alias", "A", place("main", 1, 12, 1, 13))],
}
SKIPPED = [
    {"name": "d/b.c", "reason": "its name contains '.'"},
    {"name": "d/e~", "reason": "its name ends in '~'"},
    {"name": "d/f", "reason": "no regular file"},
]
NOT_UTF_8 = b"# \xff\nUser_Alias A = \"\xfe\"\n"
NO_FILE = of_run("Gather", "NoRoot", "none", "no such file")
FOLDER = of_run("Gather", "Failed", "sub", "it is no regular file")
MANY_FILES = of_run("Gather", "TooManyFiles", advice="a policy has at most 256 files")
# A file of each name, which an include of their folder reads.
MANY = {"main": "@includedir d\n", **{f"d/{number:03}": "" for number in range(256)}}

ROWS = (
    ("an_empty_policy", {"main": ""}, "check --json main", b"", check("main"), 0, b""),
    ("an_empty_policy", {"main": ""}, "show --json main", b"", show("main", ["main"]), 0, b""),
    ("notes", SITE, "check --json main", b"", check("main", **NOTES), 0, b""),
    ("notes_as_errors", SITE, "check -s --json main", b"", check("main", passed=False, **NOTES), 1, b""),
    ("skipped_names", SITE, "check --json --skipped main", b"", check("main", not_read=SKIPPED, **NOTES), 0, b""),
    ("quiet", SITE, "check -q --json main", b"", None, 0, b""),
    ("quiet_with_an_error", {"main": "bob ALL\n"}, "check -q --json main", b"", None, 1, b""),
    ("quiet_without_a_file", {}, "check -q --json none", b"", None, 1, NAME + b"NoRoot\n"),
    ("an_error", {"main": "bob ALL\n"}, "check --json main", b"", check("main", [BOB]), 1, b""),
    ("an_error", {"main": "bob ALL\n"}, "show --json main", b"", show("main", errors=[BOB]), 1, NAME + b"main:1:8: syntax error: EndOfLine\n"),
    ("an_error_is_not_explained", {"main": "bob ALL\n"}, "check --json --explain main", b"", check("main", [BOB]), 1, b""),
    (
        *("both_places_of_a_name", {"main": "User_Alias A = x\n@include a\n", "a": "User_Alias A = y : B = z\n"}),
        *("check --json main", b"", check("main", [TWICE]), 1, b""),
    ),
    (
        *("an_error_with_skipped_names", {"main": "@includedir d\nbob ALL\n", "d/b.c": ""}, "check --all --skipped --json main", b""),
        check(
            "main",
            [
                advised(
                    *("main:2:8: syntax error: EndOfLine", "EndOfLine", place("main", 2, 8, 2, 8)),
                    "write `=` between the hosts and the commands: `USER HOST = COMMAND`",
                    expected=["equal", "comma"],
                )
            ],
            not_read=SKIPPED[:1],
        ),
        *(1, b""),
    ),
    (
        *("names_in_the_order_of_the_walk", {"main": "User_Alias A = x\n@include a\nUser_Alias A = z\n", "a": "User_Alias A = y\nHost_Alias A = y\n"}),
        *("check --all --json main", b""),
        check(
            "main",
            [
                TWICE,
                advised(
                    *("main: User_Alias A defined twice", "Duplicate", place("main", 3, 12, 3, 13), "define each alias of a kind once"),
                    **{"alias": "User_Alias", "name": "A", "first": place("main", 1, 12, 1, 13)},
                ),
            ],
        ),
        *(1, b""),
    ),
    (
        *("included_twice", {"main": "@include a\n  @include\\\n a # again\n", "a": ""}, "check --json main", b""),
        check(
            "main",
            [
                advised(
                    *("main:2:1: include a twice", "Twice", place("main", 2, 1, 3, 3), "include each file once"),
                    **{"name": "a", "first": place("main", 1, 1, 1, 11)},
                )
            ],
        ),
        *(1, b""),
    ),
    (
        *("the_root_included", {"main": "@include main\n"}, "check --json main", b""),
        check("main", [advised("main:1:1: include main twice", "Twice", place("main", 1, 1, 1, 14), "include each file once", name="main")]),
        *(1, b""),
    ),
    (
        *("a_place_of_an_advice", {"main": "Default env_reset\n"}, "check --json main", b""),
        check(
            "main",
            [
                error(
                    *("main:1:18: syntax error: EndOfLine", "EndOfLine", place("main", 1, 18, 1, 18)),
                    expected=["equal", "comma"],
                    hint={"text": "the keyword is spelled `Defaults`", "place": place("main", 1, 1)},
                )
            ],
        ),
        *(1, b""),
    ),
    (
        *("a_nul_byte", {}, "check --json -", b"# a\n# \0b\n"),
        check("-", [advised("-: NUL at byte 6", "Nul", place("-", 2, 3, 2, 4), "remove the byte: a policy is text")]),
        *(1, b""),
    ),
    (
        *("an_open_continuation", {}, "check --json -", b"bob \\\nALL\\\n"),
        check(
            "-",
            [advised("-: OpenContinuation", "OpenContinuation", place("-", 2, 4, 2, 5), "remove the backslash, or write the line that goes on")],
        ),
        *(1, b""),
    ),
    (
        *("a_long_line", {}, "check --json -", b"# a\n#" + b"x" * 65536 + b"\n"),
        check(
            "-",
            [advised("-:2:1: line too long", "LineTooLong", place("-", 2, 1), "a line has at most 65536 bytes, with the lines that continue it")],
        ),
        *(1, b""),
    ),
    (
        *("a_large_file", {}, "check --json -", b"#" * 1048577),
        check("-", [advised("-: TooLarge", "TooLarge", place("-"), "a file has at most 1048576 bytes")]),
        *(1, b""),
    ),
    (
        *("a_reserved_word", {}, "check --json -", b"User_Alias A = x : ALL = y\n"),
        check(
            "-",
            [
                advised(
                    *("-: User_Alias ALL reserved", "Reserved", place("-", 1, 20, 1, 23), "choose another name for the alias"),
                    **{"alias": "User_Alias", "name": "ALL"},
                )
            ],
        ),
        *(1, b""),
    ),
    (
        *("too_many_aliases", {}, "check --json -", b"".join(b"Host_Alias A%d = x\n" % number for number in range(4097))),
        check(
            "-",
            [
                advised(
                    *("-: too many Host_Alias", "TooMany", place("-", 4097, 12, 4097, 17)),
                    "a policy has at most 4096 definitions of each kind, as Host_Alias",
                    alias="Host_Alias",
                )
            ],
        ),
        *(1, b""),
    ),
    (
        *("a_missing_include", {"d/main": "@include \"a b\" # x\n"}, "check --json d/main", b""),
        check(
            "d/main",
            [
                advised(
                    *("d/main:1:1: include d/a b not loaded", "NotLoaded", place("d/main", 1, 1, 1, 15)),
                    *("put the file there, or remove the line",),
                    name="d/a b",
                )
            ],
        ),
        *(1, b""),
    ),
    (
        *("texts_that_are_not_utf_8", {"main": NOT_UTF_8}, "show --json main", b""),
        show(
            "main",
            ["main"],
            [
                line(1, "comment", {"bytes": "2320ff0a"}, place("main", 1, 1, 2, 1)),
                line(
                    *(2, "alias", {"bytes": b'User_Alias A = "\xfe"\n'.hex()}, place("main", 2, 1, 3, 1)),
                    definition(1, "User_Alias", "A", 1, place("main", 2, 12, 2, 19)),
                ),
            ],
        ),
        *(0, b""),
    ),
    (
        *("wide_characters_and_control_bytes", {"main": "# \u00e4\u6f22\U0001f600 \x01\x1b\x7f\t\"\\x/\r\n"}, "show --json main", b""),
        show("main", ["main"], [line(1, "comment", "# \u00e4\u6f22\U0001f600 \x01\x1b\x7f\t\"\\x/\r\n", place("main", 1, 1, 2, 1))]),
        *(0, b""),
    ),
    (
        *("columns_count_bytes", {"main": "\"\u6f22\" ALL = ls\n"}, "check --json main", b""),
        check(
            "main",
            [
                advised(
                    *("main:1:13: syntax error: UnexpectedToken", "UnexpectedToken", place("main", 1, 13, 1, 15)),
                    "write the full path of the command, as `/usr/bin/ls`",
                    expected=["alias", "all", "path", "not", "open", "tag", "setting", "digest"],
                )
            ],
        ),
        *(1, b""),
    ),
    (
        *("a_line_feed_in_the_name_of_a_file", {"a\nb": "bob ALL\n"}, ["check", "--json", "a\nb"], b""),
        check(
            "a\nb",
            [
                advised(
                    *("a\nb:1:8: syntax error: EndOfLine", "EndOfLine", place("a\nb", 1, 8, 1, 8)),
                    "write `=` between the hosts and the commands: `USER HOST = COMMAND`",
                    expected=["equal", "comma"],
                )
            ],
        ),
        *(1, b""),
    ),
    (
        *("the_name_of_a_file_that_is_not_utf_8", {}, "check --json -", b"@include \"\xff\"\n"),
        check(
            "-",
            [
                advised(
                    *({"bytes": b"-:1:1: include \xff not loaded".hex()}, "NotLoaded", place("-", 1, 1, 1, 13)),
                    *("put the file there, or remove the line",),
                    name={"bytes": "ff"},
                )
            ],
        ),
        *(1, b""),
    ),
    (
        *("lines_of_several_files", {"main": "\nDefaults x\n@include a\n", "a": "User_Alias A = x, \\\n y : B = z\nbob ALL = /a"}),
        *("show --json main", b""),
        show(
            "main",
            ["main", "a"],
            [
                line(1, "blank", "\n", place("main", 1, 1, 2, 1)),
                line(2, "defaults", "Defaults x\n", place("main", 2, 1, 3, 1)),
                line(3, "include", "@include a\n", place("main", 3, 1, 4, 1)),
                line(
                    *(1, "alias", "User_Alias A = x, \\\n y : B = z\n", place("a", 1, 1, 3, 1)),
                    definition(1, "User_Alias", "A", 2, place("a", 1, 12, 2, 3)),
                    definition(2, "User_Alias", "B", 1, place("a", 2, 6, 2, 11)),
                ),
                line(2, "spec", "bob ALL = /a", place("a", 3, 1, 3, 13)),
            ],
        ),
        *(0, b""),
    ),
    ("no_file", {}, "check --json none", b"", check("none", [NO_FILE]), 1, NAME + b"NoRoot\n"),
    ("no_file", {}, "show --json none", b"", show("none", errors=[NO_FILE]), 1, NAME + b"NoRoot\n"),
    ("no_file_and_a_status", {}, "check --error-status 3 --json none", b"", check("none", [NO_FILE]), 3, NAME + b"NoRoot\n"),
    ("no_file_and_all_errors", {}, "check --all --json none", b"", check("none", [NO_FILE]), 1, NAME + b"NoRoot\n"),
    ("a_folder", {"sub": EMPTY_FOLDER}, "check --json sub", b"", check("sub", [FOLDER]), 1, NAME + b"Failed\n"),
    ("a_folder", {"sub": EMPTY_FOLDER}, "show --json sub", b"", show("sub", errors=[FOLDER]), 1, NAME + b"Failed\n"),
    ("too_many_files", MANY, "check --json main", b"", check("main", [MANY_FILES]), 1, NAME + b"TooManyFiles\n"),
)

# Rows for a user who may not read everything.
UNREADABLE = (
    (
        *("a_closed_file", {"main": Closed("# a\n")}, "check --json main", b""),
        *(check("main", [of_run("Gather", "Failed", "main", "permission denied")]), 1, NAME + b"Failed\n"),
    ),
    (
        *("a_closed_folder", {"main": "@includedir d\n", "d": Closed(None)}, "show --json main", b""),
        *(show("main", errors=[of_run("Gather", "Failed", "d", "it is no regular file")]), 1, NAME + b"Failed\n"),
    ),
)

# Words and a tree, of which each growth of memory is refused.
GROWTHS = (
    ("check --json --all --skipped main", {"main": "bob\n@include a\n@includedir d\n", "a": "User_Alias A = x\nUser_Alias A = y\n", "d/b.c": ""}),
    ("check --json --skipped main", SITE),
    ("show --json main", {"main": "User_Alias A = x, \"\u6f22\"\n@include a\n", "a": b"# \xff\nUser_Alias B = x\n"}),
    ("show --json main", {"main": "@include a\n@include a\n", "a": "# a\n"}),
    ("show --json none", {}),
)
