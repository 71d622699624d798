"""Rows of policies of several files: what the built program prints of them, and which errors.

A row of PRINTED has a name, the files of a folder, words, and what they print on standard output, with the exit status.
A row of ERRORS has the text of an error of a policy, whose first file is `main`, and a row of RUN_ERRORS an error of the
run. A row of NOT_REGULAR is `Failed`, and the program waits for nothing before that.
"""

from stand import EMPTY_FOLDER, PIPE, Link

# A question about bob and ann, who are users of the files passwd and group.
PEOPLE = {"passwd": "root:x:0:0:::\nbob:x:1:5:::\nann:x:2:5:::\n", "group": "users:x:5:\n"}
ASKED = "list --passwd passwd --group-file group --host h --moment 2026010100Z -U"

SITE = {
    "main": "User_Alias OPS = bob, ann\n@includedir d\nOPS ALL = WEB\n",
    "d/a": "# a\nCmnd_Alias WEB = /bin/a, \\\n    /bin/b\n",
    "d/b": "ann ALL = !/bin/z\nUser_Alias IDLE = x\n",
    "d/c": "DBA ALL = /bin/c\n",
}
OTHER_NAMES = {"d/b~": "no policy\n", "d/x.y": "no policy\n", "d/.hidden": "no policy\n", "d/sub/e": "no policy\n"}
SH = "Cmnd_Alias SH = /bin/sh\n"
IMAGE = {
    "image/etc/sudoers": "@includedir /etc/sudoers.d\n@include local\n",
    "image/etc/sudoers.d/web": "WEB ALL = ALL\n",
    "image/etc/local": "User_Alias WEB = ann\nUser_Alias IDLE = bob\n",
}
DEPTH, FILES = 128, 256


def chain(last):
    """Files from f0 on, each of which includes the next one, up to the one of this number."""
    files = {f"f{number}": f"@include f{number + 1}\n" for number in range(last)}
    return {**files, f"f{last}": "# end\n"}


def many(count):
    """So many files, with the first one."""
    return {"main": "@includedir d\n", **{f"d/{number}": "# a\n" for number in range(100, 99 + count)}}


PRINTED = (
    (
        "check_of_a_folder_of_three_files",
        {**SITE, **OTHER_NAMES},
        "check main",
        "d/c:1:1: undefined User_Alias DBA\nd/b:2:12: unused User_Alias IDLE\nmain: parsed OK\n",
        0,
    ),
    (
        "strict_check_of_a_folder_of_three_files",
        SITE,
        "check -s main",
        "d/c:1:1: undefined User_Alias DBA\nd/b:2:12: unused User_Alias IDLE\nmain: faults found\n",
        1,
    ),
    ("quiet_check_of_a_folder_of_three_files", SITE, "check -q main", "", 0),
    (
        "skipped_files_of_a_folder",
        {**SITE, **OTHER_NAMES},
        "check --skipped main",
        "d/c:1:1: undefined User_Alias DBA\nd/b:2:12: unused User_Alias IDLE\nmain: parsed OK\n"
        "d/.hidden: not read: its name contains '.'\nd/b~: not read: its name ends in '~'\n"
        "d/sub: not read: no regular file\nd/x.y: not read: its name contains '.'\n",
        0,
    ),
    ("skipped_files_with_quiet", {**SITE, **OTHER_NAMES}, "check -q --skipped main", "", 0),
    ("no_skipped_files", SITE, "check -s --skipped main", "d/c:1:1: undefined User_Alias DBA\nd/b:2:12: unused User_Alias IDLE\nmain: faults found\n", 1),
    (
        "skipped_files_of_a_policy_with_an_error",
        {"main": "@includedir d\nbob\n@includedir a.d", "d/x.y~": "", "a.d/x~": ""},
        "check --skipped main",
        "main:2:4: syntax error: EndOfLine\na.d/x~: not read: its name ends in '~'\nd/x.y~: not read: its name contains '.'\n",
        1,
    ),
    (
        "skipped_files_of_an_included_file",
        {"main": "@include d/a\n", "d/a": "@includedir e\n@includedir none\n", "d/e/f": "# f\n", "d/e/f.rpmsave": "# f\n"},
        "check --skipped main",
        "main: parsed OK\nd/e/f.rpmsave: not read: its name contains '.'\nd/none: not read: no such folder\n",
        0,
    ),
    (
        "skipped_names_of_no_regular_file",
        {
            "main": "@includedir d\n",
            **{"d/a": "# a\n", "d/dangling": Link("none"), "d/folder": EMPTY_FOLDER, "d/link": Link("a"), "d/loop": Link("loop")},
            **{"d/null": Link("/dev/null"), "d/pipe": PIPE, "d/pipe.x": PIPE, "d/to_a_folder": Link("folder"), "d/z~": EMPTY_FOLDER},
        },
        "check --skipped main",
        "main: parsed OK\nd/dangling: not read: no regular file\nd/folder: not read: no regular file\n"
        "d/loop: not read: no regular file\nd/null: not read: no regular file\nd/pipe: not read: no regular file\n"
        "d/pipe.x: not read: its name contains '.'\nd/to_a_folder: not read: no regular file\n"
        "d/z~: not read: its name ends in '~'\n",
        0,
    ),
    (
        "skipped_folders_in_the_order_of_their_bytes",
        {"main": "@includedir b\n@includedir a/\n@includedir B\n@include c/m\n", "b/x.y": "", "c/m": "@includedir a\n@includedir n\n", "c/a/x.z": ""},
        "check --skipped main",
        "main: parsed OK\nB: not read: no such folder\na: not read: no such folder\nb/x.y: not read: its name contains '.'\n"
        "c/a/x.z: not read: its name contains '.'\nc/n: not read: no such folder\n",
        0,
    ),
    (
        "skipped_files_of_a_folder_of_two_lines_once",
        {"main": "@includedir d\n@include a\n@includedir d/\n", "a": "@includedir d//\n", "d/x.y": "", "d/z": EMPTY_FOLDER},
        "check --skipped main",
        "main: parsed OK\nd/x.y: not read: its name contains '.'\nd/z: not read: no regular file\n",
        0,
    ),
    (
        "skipped_file_in_the_place_of_a_folder",
        {"main": "@includedir a\n@includedir a/b\n", "a": "no policy\n"},
        "check --skipped main",
        "main: parsed OK\na: not read: no such folder\na/b: not read: no such folder\n",
        0,
    ),
    (
        "skipped_files_of_a_file_off_the_walk",
        {"main": "@include a\nbob\n@include b\n", "a": "@includedir d\n", "b": "@includedir e\n", "d/x.y": "", "e/x~": ""},
        "check --skipped main",
        "main:2:4: syntax error: EndOfLine\nd/x.y: not read: its name contains '.'\ne/x~: not read: its name ends in '~'\n",
        1,
    ),
    (
        "skipped_file_that_is_included_by_its_name",
        {"main": "@includedir d\n@include d/x.y\n", "d/x.y": "# x\n", "d/x.z": ""},
        "check --skipped main",
        "main: parsed OK\nd/x.z: not read: its name contains '.'\n",
        0,
    ),
    (
        "skipped_files_of_an_image",
        {**IMAGE, "image/etc/sudoers.d/web.conf": "# web\n"},
        "check --skipped --root image /etc/sudoers",
        "/etc/local:2:12: unused User_Alias IDLE\n/etc/sudoers: parsed OK\n"
        "/etc/sudoers.d/web.conf: not read: its name contains '.'\n",
        0,
    ),
    (
        "show_of_a_folder_of_three_files",
        {**SITE, **OTHER_NAMES},
        "show main",
        "file 1 main\n1 alias 1\n1.1 User_Alias OPS 2\n2 include 2\n3 spec 3\n"
        "file 2 d/a\n1 comment 1\n2 alias 2\n2.1 Cmnd_Alias WEB 2\n"
        "file 3 d/b\n1 spec 1\n2 alias 2\n2.1 User_Alias IDLE 1\n"
        "file 4 d/c\n1 spec 1\n",
        0,
    ),
    (
        "convert_of_a_folder_of_three_files",
        SITE,
        "convert -f sudoers main",
        "User_Alias OPS = bob, ann\nCmnd_Alias WEB = /bin/a, /bin/b\nUser_Alias IDLE = x\n"
        "ann ALL = !/bin/z\nDBA ALL = /bin/c\nOPS ALL = WEB\n",
        0,
    ),
    (
        "expand_of_a_folder_of_three_files",
        SITE,
        "convert -f sudoers -e main",
        "ann ALL = !/bin/z\nDBA ALL = /bin/c\nbob, ann ALL = /bin/a, /bin/b\n",
        0,
    ),
    ("listing_of_a_folder_of_three_files", SITE, f"{ASKED} ann main", "ann on h:\n    (root) !/bin/z\n    (root) WEB\n", 0),
    (
        "why_of_an_alias_in_another_file",
        SITE,
        f"{ASKED} ann --why main /bin/b",
        "main:3:11: allowed by: (root) WEB\nd/a:3:5: in Cmnd_Alias WEB: /bin/b\n",
        0,
    ),
    ("why_of_a_rule_of_an_included_file", SITE, f"{ASKED} ann --why main /bin/z", "d/b:1:11: denied by: (root) !/bin/z\n", 1),
    ("command_of_a_folder_of_three_files", SITE, f"{ASKED} bob main /bin/a", "/bin/a\n", 0),
    (
        "last_rule_stands_in_an_included_file",
        {"main": "bob ALL = /bin/a\n@include a\n", "a": "bob ALL = !/bin/a\n"},
        f"{ASKED} bob --why main /bin/a",
        "a:1:11: denied by: (root) !/bin/a\n",
        1,
    ),
    (
        "last_rule_stands_behind_an_included_file",
        {"main": "@include a\n\n\nbob ALL = /bin/a\n", "a": "bob ALL = !/bin/a\n"},
        f"{ASKED} bob --why main /bin/a",
        "main:4:11: allowed by: (root) /bin/a\n",
        0,
    ),
    (
        "include_as_the_first_and_as_the_last_line",
        {"main": "@include a\nbob ALL = ALL\n@include b", "a": "ann ALL = ALL", "b": "cho ALL = ALL\n"},
        "convert -f sudoers main",
        "ann ALL = ALL\nbob ALL = ALL\ncho ALL = ALL\n",
        0,
    ),
    (
        "paths_in_the_folder_of_the_including_file",
        {"main": "@include d/a\n", "d/a": "@include b\n@includedir e\n", "d/b": "# b\n", "d/e/f": "# f\n", "b": "no policy\n"},
        "show main",
        "file 1 main\n1 include 1\nfile 2 d/a\n1 include 1\n2 include 2\nfile 3 d/b\n1 comment 1\nfile 4 d/e/f\n1 comment 1\n",
        0,
    ),
    (
        "names_of_a_folder_in_the_order_of_their_bytes",
        {"main": "@includedir d/\n", "d/b": "# b\n", "d/a": "# a\n", "d/B": "# c\n", "d/10": "# 10\n", "d/9": "# 9\n"},
        "show main",
        "file 1 main\n1 include 1\n" + "".join(f"file {n} d/{name}\n1 comment 1\n" for n, name in enumerate(("10", "9", "B", "a", "b"), 2)),
        0,
    ),
    ("folder_that_is_not_there", {"main": "@includedir d\nbob ALL = ALL\n"}, "show main", "1 include 1\n2 spec 2\n", 0),
    (
        "empty_included_file",
        {"main": "@include a\n", "a": ""},
        "show main",
        "file 1 main\n1 include 1\nfile 2 a\n",
        0,
    ),
    (
        "alias_that_is_used_before_its_file",
        {"main": "bob ALL = SH\n@include a\n", "a": SH},
        "check main",
        "main: parsed OK\n",
        0,
    ),
    (
        "cycle_over_two_files",
        {"main": "User_Alias A = B\n@include a\nA ALL = ALL\n", "a": "\nUser_Alias B = A\n"},
        "check main",
        "main:1:12: cyclic User_Alias A\na:2:12: cyclic User_Alias B\nmain: parsed OK\n",
        0,
    ),
    ("depth_128", chain(DEPTH), "check f0", "f0: parsed OK\n", 0),
    ("256_files", many(FILES), "check main", "main: parsed OK\n", 0),
    (
        "root_of_an_image",
        IMAGE,
        "check --root image /etc/sudoers",
        "/etc/local:2:12: unused User_Alias IDLE\n/etc/sudoers: parsed OK\n",
        0,
    ),
    (
        "show_of_an_image",
        IMAGE,
        "show --root=image/ /etc/sudoers",
        "file 1 /etc/sudoers\n1 include 1\n2 include 2\nfile 2 /etc/sudoers.d/web\n1 spec 1\n"
        "file 3 /etc/local\n1 alias 1\n1.1 User_Alias WEB 1\n2 alias 2\n2.1 User_Alias IDLE 1\n",
        0,
    ),
    (
        "why_of_an_image",
        IMAGE,
        f"{ASKED} ann --root image --why /etc/sudoers /bin/a",
        "/etc/sudoers.d/web:1:11: allowed by: (root) SETENV: ALL\n",
        0,
    ),
    ("convert_of_an_image", IMAGE, "convert -f sudoers -e --root image /etc/sudoers", "ann ALL = ALL\n", 0),
    (
        "relative_names_are_below_the_root",
        {**IMAGE, "image/main": "@include /etc/local\n@include etc/sudoers.d/web\n", "main": "no policy\n"},
        "check --root image main",
        "/etc/local:2:12: unused User_Alias IDLE\nmain: parsed OK\n",
        0,
    ),
)

ERRORS = (
    ("missing_file", {"main": "# a\n@include a\n"}, "main:2:1: include a not loaded"),
    ("missing_file_after_a_continuation", {"main": "\\\n  #include /none/a\n"}, "main:1:1: include /none/a not loaded"),
    ("missing_file_of_an_included_file", {"main": "@include d/a\n", "d/a": "\n@include b\n"}, "d/a:2:1: include d/b not loaded"),
    ("loop_of_two_files", {"main": "@include a\n", "a": "@include b\n", "b": "# b\n@include a\n"}, "b:2:1: include a twice"),
    ("loop_to_the_first_file", {"main": "@include a\n", "a": "@include main\n"}, "a:1:1: include main twice"),
    ("file_that_includes_itself", {"main": "@include main\n"}, "main:1:1: include main twice"),
    ("file_included_by_two_lines", {"main": "@include a\n@include a\n", "a": "# a\n"}, "main:2:1: include a twice"),
    (
        "file_included_by_two_files",
        {"main": "@include a\n@include b\n", "a": "@include c\n", "b": "@include c\n", "c": "# c\n"},
        "b:1:1: include c twice",
    ),
    ("file_of_a_folder_included_before", {"main": "@include d/a\n@includedir d\n", "d/a": "# a\n"}, "main:2:1: include d/a twice"),
    (
        "alias_defined_in_two_files_of_a_folder",
        {"main": "@includedir d\n", "d/b": SH, "d/a": SH, "d/c~": SH, "d/x.y": SH},
        "d/b: Cmnd_Alias SH defined twice",
    ),
    ("alias_defined_before_its_include", {"main": f"{SH}@include a\n", "a": SH}, "a: Cmnd_Alias SH defined twice"),
    ("alias_defined_behind_its_include", {"main": f"@include a\n{SH}", "a": SH}, "main: Cmnd_Alias SH defined twice"),
    ("reserved_name_in_an_included_file", {"main": "@include a\n", "a": "User_Alias ALL = x\n"}, "a: User_Alias ALL reserved"),
    ("syntax_error_in_an_included_file", {"main": "# a\n@include a\nbob\n", "a": "\nbob ALL\n"}, "a:2:8: syntax error: EndOfLine"),
    ("syntax_error_before_an_include", {"main": "bob ALL\n@include none\n"}, "main:1:8: syntax error: EndOfLine"),
    ("missing_file_before_a_syntax_error", {"main": "@include none\nbob ALL\n"}, "main:1:1: include none not loaded"),
    ("open_end_of_an_included_file", {"main": "@include a\n@include none\n", "a": "bob ALL = ALL \\\n"}, "a: OpenContinuation"),
    ("nul_in_the_second_file", {"main": "bob\n@includedir d\n", "d/a": "# a\n", "d/b": "#\0"}, "d/b: NUL at byte 1"),
    ("included_file_that_is_too_large", {"main": "@include a\n", "a": "#" * 1_048_577}, "a: TooLarge"),
    ("line_of_an_included_file_that_is_too_long", {"main": "@include a\n", "a": "\n" + "#" * 65_537}, "a:2:1: line too long"),
    (
        "too_many_aliases_over_two_files",
        {
            "main": "".join(f"Host_Alias A{n} = h\n" for n in range(4_000)) + "@include a\n",
            "a": "".join(f"Host_Alias B{n} = h\n" for n in range(97)),
        },
        "a: too many Host_Alias",
    ),
    ("name_that_is_no_utf_8", {"main": "@include \udcff\n", "\udcff": "# a\n"}, "main:1:1: include \udcff not loaded"),
)

RUN_ERRORS = (
    ("first_file_that_is_not_there", {}, "NoRoot"),
    ("first_file_that_is_a_folder", {"main/a": "# a\n"}, "Failed"),
    ("included_file_that_is_a_folder", {"main": "@include d\n", "d/a": "# a\n"}, "Failed"),
    ("257_files", many(FILES + 1), "TooManyFiles"),
    ("file_that_includes_itself_by_another_name", {"main": "@include ./main\n"}, "TooManyFiles"),
)

# Names that an include line leads to, and that are no regular file once links are followed.
NOT_REGULAR = (
    ("included_pipe", {"main": "@include a\n", "a": PIPE}),
    ("included_pipe_of_an_included_file", {"main": "@include d/a\n", "d/a": "@include b\n", "d/b": PIPE}),
    ("included_link_to_a_pipe", {"main": "@include a\n", "a": Link("b"), "b": PIPE}),
    ("included_device", {"main": "@include /dev/null\n"}),
    ("included_device_without_end", {"main": "@include /dev/zero\n"}),
    ("included_link_to_a_device", {"main": "@include a\n", "a": Link("/dev/null")}),
    ("included_folder", {"main": "@include d\n", "d": EMPTY_FOLDER}),
    ("included_link_to_a_folder", {"main": "@include a\n", "a": Link("d"), "d": EMPTY_FOLDER}),
    ("included_loop_of_links", {"main": "@include a\n", "a": Link("b"), "b": Link("a")}),
    ("included_pipe_before_an_error_of_the_policy", {"main": "bob\n@include a\n", "a": PIPE}),
)

# The same, with a file or a folder that the user may not read.
NOT_READABLE = (
    ("first_file_that_may_not_be_read", {"main": "# a\n"}, "main", 0),
    ("included_file_that_may_not_be_read", {"main": "@include a\n", "a": "# a\n"}, "a", 0),
    ("folder_that_may_not_be_read", {"main": "@includedir d\n", "d/a": "# a\n"}, "d", 0),
    ("folder_whose_files_may_not_be_looked_at", {"main": "@includedir d\n", "d/a": "# a\n"}, "d", 0o444),
)
