"""Rows of policies below a folder, which `--root` makes the root of a system.

A row of ROWS has a name, a tree, the FILE and what is read: the names of the files in the order of `show`, each with the
file of the tree to which it leads behind a `=`, where that is another one. Or it is the text of the error; behind a
`<-` it has the name of the file or folder that could not be read. The tree is the folder `image`. Beside it is the folder
OUT with a file `a`, which nothing may read. {OUT} stands for the path of that folder.
"""

from stand import EMPTY_FOLDER, PIPE, Closed, Link

RULE = "bob ALL = /bin/a\n"
FOLDER = {"etc/sudoers": "@includedir /etc/sudoers.d\n", "etc/sudoers.d/web": RULE}
FILE = {"etc/sudoers": "@include /etc/a/b/c\n", "etc/a/b/c": RULE}
BOTH = "/etc/sudoers, /etc/sudoers.d/web"


def chain(count):
    """So many links, of which the first leads to the file `c` through all others."""
    links = {f"l/{number}": Link(f"{number + 1}") for number in range(1, count)}
    return {**links, f"l/{count}": Link("../c"), "c": RULE}


def folders(count):
    """So many links to folders, each in the folder to which the one before leads."""
    links = {f"f{number}/next": Link(f"/f{number + 1}") for number in range(1, count + 1)}
    return {**links, f"f{count + 1}/c": RULE, "main": "@include f1/" + "next/" * count + "c\n"}


NAMES = (
    ("absolute_names", FOLDER, "/etc/sudoers", BOTH),
    ("relative_policy", FOLDER, "etc/sudoers", "etc/sudoers, /etc/sudoers.d/web"),
    (
        "relative_names",
        {"main": "@include d/a\n", "d/a": "@include b\n@includedir e\n", "d/b": RULE, "d/e/f": ""},
        "main",
        "main, d/a, d/b, d/e/f",
    ),
    ("the_folder_itself", {"sudoers.x": "@includedir /\n", "a": RULE, "b": "", "c/d": RULE}, "/sudoers.x", "/sudoers.x, /a, /b"),
    ("the_folder_itself_by_many_slashes", {"sudoers.x": "@includedir ///\n", "a": RULE}, "sudoers.x", "sudoers.x, /a"),
    ("the_folder_itself_by_a_dot", {"sudoers.x": "@includedir .\n", "a": RULE}, "sudoers.x", "sudoers.x, ./a=a"),
    ("the_folder_itself_by_dots", {"d/sudoers.x": "@includedir ..\n", "a": RULE}, "d/sudoers.x", "d/sudoers.x, d/../a=a"),
    (
        "double_slashes",
        {"etc/sudoers": "@include //etc//a\n@includedir //etc//d//\n", "etc/a": RULE, "etc/d/b": ""},
        "//etc///sudoers",
        "//etc///sudoers=etc/sudoers, //etc//a=etc/a, //etc//d/b=etc/d/b",
    ),
    ("slash_behind_a_file", {"main": "@include a/\n", "a": RULE}, "main", "main:1:1: include a/ not loaded"),
    ("slash_behind_the_policy", {"main": RULE}, "main/", "NoRoot <- main/"),
    ("dot_behind_a_file", {"main": "@include a/.\n", "a": RULE}, "main", "main:1:1: include a/. not loaded"),
    ("dots_behind_a_file", {"main": "@include a/../b\n", "a": RULE, "b": RULE}, "main", "main:1:1: include a/../b not loaded"),
    ("empty_name", {"main": RULE}, "", "NoRoot <- "),
    ("root_as_the_policy", {"main": RULE}, "/", "Failed <- /"),
    ("root_as_an_included_file", {"main": "@include /\n"}, "main", "Failed <- /"),
    ("dots_as_an_included_file", {"main": "@include ..\n"}, "main", "Failed <- .."),
    ("name_of_the_system", {"main": "@include {OUT}/a\n@includedir {OUT}\n"}, "main", "main:1:1: include {OUT}/a not loaded"),
    ("folder_of_the_system", {"main": "@includedir {OUT}\n"}, "main", "main"),
    ("name_that_is_too_long", {"main": "@include " + "a" * 256 + "\n"}, "main", "main:1:1: include " + "a" * 256 + " not loaded"),
    ("path_that_is_too_long", {"main": "@include " + "./" * 2_047 + "a\n", "a": RULE}, "main", "main, " + "./" * 2_047 + "a=a"),
)

DOTS = (
    ("above_the_root", {"main": "@include ../a\n@include /../../b\n", "a": RULE, "b": ""}, "main", "main, ../a=a, /../../b=b"),
    ("above_the_root_in_the_policy", {"main": RULE}, "../../main", "../../main=main"),
    ("above_the_root_in_an_absolute_policy", {"main": "@include a\n", "a": RULE}, "/../main", "/../main=main, /../a=a"),
    ("above_the_root_and_out", {"main": "@include ../OUT/a\n"}, "main", "main:1:1: include ../OUT/a not loaded"),
    ("above_the_root_and_back", {"main": "@include ../image/a\n", "a": RULE}, "main", "main:1:1: include ../image/a not loaded"),
    ("above_the_root_behind_a_folder", {"d/main": "@include ../../../a\n", "a": RULE}, "d/main", "d/main, d/../../../a=a"),
    (
        "folder_above_the_root",
        {"main": "@includedir ../d\n@includedir /d/../../e\n", "d/a": RULE, "e/b": ""},
        "main",
        "main, ../d/a=d/a, /d/../../e/b=e/b",
    ),
    ("behind_a_folder", {"main": "@include d/../a\n", "d": EMPTY_FOLDER, "a": RULE}, "main", "main, d/../a=a"),
    ("behind_a_folder_that_is_not_there", {"main": "@include d/../a\n", "a": RULE}, "main", "main:1:1: include d/../a not loaded"),
    ("in_the_middle", {"main": "@include d/e/../f/./b\n", "d/e": EMPTY_FOLDER, "d/f/b": RULE}, "main", "main, d/e/../f/./b=d/f/b"),
    (
        "behind_a_link",
        {"main": "@include d/../a\n", "d": Link("e/f"), "e/f": EMPTY_FOLDER, "e/a": RULE, "a": ""},
        "main",
        "main, d/../a=e/a",
    ),
    (
        "behind_an_absolute_link",
        {"main": "@include d/../a\n", "d": Link("/e/f"), "e/f": EMPTY_FOLDER, "e/a": RULE, "a": ""},
        "main",
        "main, d/../a=e/a",
    ),
    (
        "behind_a_link_above_the_root",
        {"main": "@include d/../../a\n", "d": Link("../../e"), "e": EMPTY_FOLDER, "a": RULE},
        "main",
        "main, d/../../a=a",
    ),
    (
        "in_the_policy_behind_a_link",
        {"d": Link("/e/f"), "e/f": EMPTY_FOLDER, "e/main": "@include a\n", "e/a": RULE, "a": ""},
        "d/../main",
        "d/../main=e/main, d/../a=e/a",
    ),
)

LINKS = (
    ("first_part", {**FOLDER, "x": Link("etc"), "main": "@includedir /x/sudoers.d\n"}, "main", "main, /x/sudoers.d/web=etc/sudoers.d/web"),
    (
        "folder_by_a_relative_link",
        {"etc/sudoers": FOLDER["etc/sudoers"], "etc/sudoers.d": Link("../opt"), "opt/web": RULE},
        "/etc/sudoers",
        BOTH + "=opt/web",
    ),
    (
        "folder_by_an_absolute_link",
        {"etc/sudoers": FOLDER["etc/sudoers"], "etc/sudoers.d": Link("/opt"), "opt/web": RULE},
        "/etc/sudoers",
        BOTH + "=opt/web",
    ),
    (
        "folder_by_a_link_above_the_root",
        {"etc/sudoers": FOLDER["etc/sudoers"], "etc/sudoers.d": Link("../../../opt"), "opt/web": RULE},
        "/etc/sudoers",
        BOTH + "=opt/web",
    ),
    ("folder_by_a_link_out", {"etc/sudoers": FOLDER["etc/sudoers"], "etc/sudoers.d": Link("{OUT}")}, "/etc/sudoers", "/etc/sudoers"),
    (
        "folder_by_a_relative_link_out",
        {"etc/sudoers": FOLDER["etc/sudoers"], "etc/sudoers.d": Link("../../OUT")},
        "/etc/sudoers",
        "/etc/sudoers",
    ),
    (
        "folder_by_a_link_to_the_root",
        {"etc/sudoers": FOLDER["etc/sudoers"], "etc/sudoers.d": Link("/"), "a": RULE},
        "/etc/sudoers",
        "/etc/sudoers, /etc/sudoers.d/a=a",
    ),
    (
        "files_of_a_folder",
        {**FOLDER, "etc/sudoers.d/x": Link("/srv/x"), "etc/sudoers.d/y": Link("../../srv/y"), "srv/x": "", "srv/y": RULE},
        "/etc/sudoers",
        BOTH + ", /etc/sudoers.d/x=srv/x, /etc/sudoers.d/y=srv/y",
    ),
    (
        "files_of_a_folder_out",
        {**FOLDER, "etc/sudoers.d/x": Link("{OUT}/a"), "etc/sudoers.d/y": Link("../../../OUT/a")},
        "/etc/sudoers",
        BOTH,
    ),
    (
        "files_of_a_folder_that_dangle",
        {**FOLDER, "etc/sudoers.d/x": Link("/none"), "etc/sudoers.d/y": Link("none/../web"), "etc/sudoers.d/z": Link("web/")},
        "/etc/sudoers",
        BOTH,
    ),
    (
        "files_of_a_folder_in_a_loop",
        {**FOLDER, "etc/sudoers.d/x": Link("y"), "etc/sudoers.d/y": Link("/etc/sudoers.d/x")},
        "/etc/sudoers",
        BOTH,
    ),
    (
        "other_kinds_in_a_folder",
        {
            **FOLDER, "etc/sudoers.d/x": Link("/srv"), "srv": EMPTY_FOLDER, "etc/sudoers.d/y": PIPE,
            "etc/sudoers.d/z": Link("y"), "etc/sudoers.d/sub": EMPTY_FOLDER,
        },
        "/etc/sudoers",
        BOTH,
    ),
    (
        "middle_of_a_file",
        {"etc/sudoers": FILE["etc/sudoers"], "etc/a/b": Link("/x"), "x/c": RULE},
        "/etc/sudoers",
        "/etc/sudoers, /etc/a/b/c=x/c",
    ),
    (
        "last_part_of_a_file",
        {"etc/sudoers": FILE["etc/sudoers"], "etc/a/b/c": Link("/x"), "x": RULE},
        "/etc/sudoers",
        "/etc/sudoers, /etc/a/b/c=x",
    ),
    (
        "all_parts_of_a_file",
        {"etc/sudoers": FILE["etc/sudoers"], "etc/a": Link("/x/"), "x/b": Link("../y"), "y/c": Link("//z/./d"), "z/d": RULE},
        "/etc/sudoers",
        "/etc/sudoers, /etc/a/b/c=z/d",
    ),
    ("last_part_of_a_file_out", {"main": "@include a\n", "a": Link("{OUT}/a")}, "main", "main:1:1: include a not loaded"),
    ("last_part_of_a_file_to_a_folder", {"main": "@include a\n", "a": Link("d"), "d": EMPTY_FOLDER}, "main", "Failed <- a"),
    ("last_part_of_a_file_to_a_pipe", {"main": "@include a\n", "a": Link("/d/p"), "d/p": PIPE}, "main", "Failed <- a"),
    ("file_that_dangles", {"main": "@include a\n", "a": Link("none")}, "main", "main:1:1: include a not loaded"),
    ("file_through_a_file", {"main": "@include a/b\n", "a": Link("c"), "c": RULE}, "main", "main:1:1: include a/b not loaded"),
    ("link_to_a_file_with_a_slash", {"main": "@include a\n", "a": Link("c/"), "c": RULE}, "main", "main:1:1: include a not loaded"),
    ("file_in_a_loop", {"main": "@include a\n", "a": Link("/b"), "b": Link("a")}, "main", "Failed <- a"),
    ("folder_in_a_loop", {"main": "@includedir d\n", "d": Link("d")}, "main", "Failed <- d"),
    ("policy_in_a_loop", {"main": Link("main")}, "main", "Failed <- main"),
    (
        "policy",
        {"etc/sudoers": Link("/opt/main"), "opt/main": "@include a\n", "etc/a": RULE, "opt/a": ""},
        "/etc/sudoers",
        "/etc/sudoers=opt/main, /etc/a",
    ),
    ("policy_out", {"main": Link("{OUT}/a")}, "main", "NoRoot <- main"),
    (
        "relative_name_in_a_linked_folder",
        {"main": "@include d/a\n", "d": Link("/e/f"), "e/f/a": "@include ../b\n", "e/b": RULE, "b": ""},
        "main",
        "main, d/a=e/f/a, d/../b=e/b",
    ),
    ("40_links", {**chain(40), "main": "@include l/1\n"}, "main", "main, l/1=c"),
    ("41_links", {**chain(41), "main": "@include l/1\n"}, "main", "Failed <- l/1"),
    ("40_links_to_folders", folders(40), "main", "main, f1/" + "next/" * 40 + "c=f41/c"),
    ("41_links_to_folders", folders(41), "main", "Failed <- f1/" + "next/" * 41 + "c"),
    (
        "41_links_of_a_folder",
        {**chain(41), "main": "@includedir d\n", "d/a": RULE, "d/b": Link("../l/1"), "d/c": Link("../l/3")},
        "main",
        "main, d/a, d/c=c",
    ),
    (
        "41_links_to_a_folder",
        {**folders(41), "main": "@includedir f1/" + "next/" * 41 + "\n"},
        "main",
        "Failed <- f1/" + "next/" * 40 + "next",
    ),
)

ROWS = (*NAMES, *(("dots_" + name, *row) for name, *row in DOTS), *(("links_" + name, *row) for name, *row in LINKS))

# The same for a user who may not read or search everything.
CLOSED = (
    ("file", {"main": "@include a\n", "a": Closed(RULE)}, "main", "Failed <- a"),
    ("policy", {"main": Closed(RULE)}, "/main", "Failed <- /main"),
    ("file_of_a_folder", {"main": "@includedir d\n", "d/a": RULE, "d/b": Closed(RULE)}, "main", "Failed <- d/b"),
    ("folder", {"main": "@includedir d\n", "d/a": RULE, "d": Closed(None)}, "main", "Failed <- d"),
    ("folder_without_search", {"main": "@includedir d\n", "d/a": RULE, "d": Closed(None, 0o444)}, "main", "Failed <- d"),
    ("folder_without_reading", {"main": "@include d/a\n@includedir d\n", "d/a": RULE, "d": Closed(None, 0o111)}, "main", "Failed <- d"),
    ("file_in_a_folder_without_reading", {"main": "@include d/a\n", "d/a": RULE, "d": Closed(None, 0o111)}, "main", "main, d/a"),
    ("file_in_a_folder_without_search", {"main": "@include d/a\n", "d/a": RULE, "d": Closed(None, 0o444)}, "main", "Failed <- d/a"),
    ("through_a_folder_without_search", {"main": "@include d/../a\n", "a": RULE, "d": Closed(None, 0o444)}, "main", "Failed <- d/../a"),
    ("dot_in_a_folder_without_search", {"main": "@include d/./../a\n", "a": RULE, "d": Closed(None, 0o444)}, "main", "Failed <- d/./../a"),
    (
        "through_a_link_to_a_folder_without_search",
        {"main": "@include x/../a\n", "a": RULE, "x": Link("/d"), "d": Closed(None, 0o444)},
        "main",
        "Failed <- x/../a",
    ),
    (
        "link_in_a_folder_without_search",
        {"main": "@include d/a\n", "d/a": Link("/b"), "b": RULE, "d": Closed(None, 0o444)},
        "main",
        "Failed <- d/a",
    ),
    (
        "files_of_a_folder_that_lead_to_one_without_search",
        {"main": "@includedir d\n", "d/a": Link("/e/a"), "e/a": RULE, "e": Closed(None, 0o444)},
        "main",
        "Failed <- d",
    ),
    (
        "skipped_link_that_leads_to_one_without_search",
        {"main": "@includedir d\n", "d/a.x": Link("/e/a"), "e/a": RULE, "e": Closed(None)},
        "main",
        "main",
    ),
)
