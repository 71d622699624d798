"""Asks the program `cases` to gather the files of a policy from folders that are made here.

A row of CASES has a name, a function that makes the files below a folder, the root, and the files that are gathered, or
the error. All names are below that folder.
"""

import os
import shutil
import subprocess
import tempfile

from tables import PROGRAM, TOP, frame
from policies import drawn_gather
from tally import difference

FAILED = "Device(Failed)"
NOBODY = 65534


def write(folder, **files):
    """Writes files. In a name `__` stands for `/`, and `_dot_` for `.`."""
    for name, text in files.items():
        path = os.path.join(folder, name.replace("__", "/").replace("_dot_", "."))
        os.makedirs(os.path.dirname(path), exist_ok=True)
        with open(path, "w", encoding="utf-8") as file:
            file.write(text)


def relative(folder):
    write(folder, main="@include a\n@include d/b\n@include x\n", a="# a\n", d__b="@include c\n", d__c="# c\n", c="# d\n")


def absolute(folder):
    write(folder, main=f"@include {folder}/d/a\n", d__a=f"@include {folder}/b\n", b="# b\n")


def in_a_folder(folder):
    write(folder, main="@includedir d\n", d__b="# b\n", d__a="# a\n", d__A="# c\n", d__e__f="# f\n", d__x_dot_y="# x\n")
    write(folder, d__10="# 10\n", d__9="# 9\n")
    write(folder, **{"d__c~": "# c\n", "d__a b": "# d\n", "d__é": "# e\n"})


def no_folder(folder):
    write(folder, main="@includedir d\n@includedir a\n@include b\n", a="# no folder\n", b="# b\n")


def empty_folder(folder):
    write(folder, main="@includedir d\n")
    os.mkdir(os.path.join(folder, "d"))


def links(folder):
    write(folder, main="@includedir d\n@include e\n", a="# a\n", f__g="# g\n")
    os.mkdir(os.path.join(folder, "d"))
    os.symlink("../a", os.path.join(folder, "d", "link"))
    os.symlink("../none", os.path.join(folder, "d", "dangling"))
    os.symlink("loop", os.path.join(folder, "d", "loop"))
    os.symlink("../f", os.path.join(folder, "d", "to_a_folder"))
    os.symlink("a", os.path.join(folder, "e"))


def linked_folder(folder):
    write(folder, main="@includedir d\n", real__a="@include b\n", real__b="# b\n")
    os.symlink("real", os.path.join(folder, "d"))


def other_kinds(folder):
    write(folder, main="@includedir d\n", d__a="# a\n")
    os.mkfifo(os.path.join(folder, "d", "fifo"))


def through_a_file(folder):
    write(folder, main="@include a/b\n@includedir a/d\n@include a\n", a="# a\n")


def a_folder_as_a_file(folder):
    write(folder, main="@include d\n", d__a="# a\n")


def a_pipe_as_a_file(folder):
    write(folder, main="@include a\n")
    os.mkfifo(os.path.join(folder, "a"))


def a_link_to_a_device(folder):
    write(folder, main="@include a\n")
    os.symlink("/dev/null", os.path.join(folder, "a"))


def a_loop_of_links(folder):
    write(folder, main="@include a\n")
    os.symlink("b", os.path.join(folder, "a"))
    os.symlink("a", os.path.join(folder, "b"))


def loops(folder):
    write(folder, main="@include a\n", a="@include b\n", b="@include a\n@include main\n")


def always_new_names(folder):
    write(folder, main="@include ./main\n")


def no_utf8_in_a_line(folder):
    write(folder, a="# a\n")
    with open(os.path.join(folder, "main"), "wb") as file:
        file.write(b"@include \xff\n@include a\n")
    with open(os.path.join(folder.encode(), b"\xff"), "wb") as file:
        file.write(b"# no name\n")


def no_utf8_in_a_folder(folder):
    write(folder, main="@includedir d\n", d__a="# a\n")
    with open(os.path.join(folder.encode(), b"d", b"\xff"), "wb") as file:
        file.write(b"# no name\n")


def too_large(folder):
    write(folder, main="@include a\n", a="#" * 1_048_600)


def of_the_limit(folder):
    write(folder, main="@include a\n", a="#" * 1_048_576)


def nothing(folder):
    pass


def long_name(folder):
    write(folder, main=f"@include {'a' * 300}\n@include {'d/' * 3000}a\n@include b\n", b="# b\n")


def many(folder):
    write(folder, main="@includedir d\n", **{f"d__{number}": "# a\n" for number in range(100, 355)})


def too_many(folder):
    write(folder, main="@includedir d\n", **{f"d__{number}": "# a\n" for number in range(100, 356)})


def not_readable(folder):
    write(folder, main="@include a\n", a="# a\n")
    os.chmod(os.path.join(folder, "a"), 0)


def not_readable_folder(folder):
    write(folder, main="@includedir d\n", d__a="# a\n")
    os.chmod(os.path.join(folder, "d"), 0)


def passed_over_without_way(folder):
    write(folder, main="@includedir d\n", d__a_dot_x="# a\n", **{"d__b~": "# b\n"})
    os.chmod(os.path.join(folder, "d"), 0o444)


def folder_without_way(folder):
    write(folder, main="@includedir d\n", d__a="# a\n")
    os.chmod(os.path.join(folder, "d"), 0o444)


CASES = (
    ("paths_from_the_folder_of_the_file", relative, "main", "main, a, d/b, d/c"),
    ("paths_from_the_top", absolute, "main", "main, d/a, b"),
    ("the_root_is_not_there", nothing, "main", "NoRoot"),
    ("files_of_a_folder_in_order", in_a_folder, "main", "main, d/10, d/9, d/A, d/a, d/a␠b, d/b, d/⟨c3⟩⟨a9⟩"),
    ("no_folder_and_a_file_in_its_place", no_folder, "main", "main, b"),
    ("an_empty_folder", empty_folder, "main", "main"),
    ("links", links, "main", "main, d/link, e"),
    ("a_link_to_a_folder", linked_folder, "main", "main, d/a, d/b"),
    ("other_kinds_of_files", other_kinds, "main", "main, d/a"),
    ("a_path_through_a_file", through_a_file, "main", "main, a"),
    ("a_folder_in_the_place_of_a_file", a_folder_as_a_file, "main", FAILED),
    ("a_pipe_in_the_place_of_a_file", a_pipe_as_a_file, "main", FAILED),
    ("a_link_to_a_device_in_the_place_of_a_file", a_link_to_a_device, "main", FAILED),
    ("a_loop_of_links_in_the_place_of_a_file", a_loop_of_links, "main", FAILED),
    ("a_folder_as_the_root", a_folder_as_a_file, "d", FAILED),
    ("loops", loops, "main", "main, a, b"),
    ("a_file_that_includes_itself_by_another_name", always_new_names, "main", "TooManyFiles"),
    ("a_name_that_is_no_utf8", no_utf8_in_a_line, "main", "main, a"),
    ("a_name_in_a_folder_that_is_no_utf8", no_utf8_in_a_folder, "main", FAILED),
    ("a_file_past_the_limit", too_large, "main", "main, a (1048577 bytes)"),
    ("a_file_of_the_limit", of_the_limit, "main", "main, a"),
    ("names_that_are_too_long", long_name, "main", "main, b"),
    ("256_files", many, "main", ", ".join(["main", *(f"d/{number}" for number in range(100, 355))])),
    ("257_files", too_many, "main", "TooManyFiles"),
)

# The same, as a user who may not read everything.
CASES_OF_NOBODY = (
    ("a_file_that_may_not_be_read", not_readable, "main", FAILED),
    ("a_folder_that_may_not_be_read", not_readable_folder, "main", FAILED),
    ("a_folder_whose_files_may_not_be_looked_at", folder_without_way, "main", FAILED),
    ("a_folder_whose_passed_over_files_may_not_be_looked_at", passed_over_without_way, "main", "main"),
)


def drawn(folder, line):
    """What is gathered, with the names below the folder, and without the count of calls."""
    files = []
    for path, _, names in os.walk(folder.encode(), followlinks=True):
        for name in names:
            file = os.path.join(path, name)
            if os.path.isfile(file) and os.access(file, os.R_OK):
                with open(file, "rb") as held:
                    files.append((file, held.read()))
    shown = drawn_gather(files, line).rpartition(" | ")[0]
    return ", ".join(one.removeprefix(folder + "/") for one in shown.split(", "))


def answer(program, folder, root, **who):
    """The line that the program answers about a root in a folder."""
    asking = frame(b"d", b"g", bytes(8) + os.path.join(folder, root).encode())
    done = subprocess.run(
        [program], input=asking, stdout=subprocess.PIPE, env={}, timeout=60, check=True, **who
    )
    return done.stdout.decode().rstrip("\n")


def run_case(program, case, tally, **who):
    """Makes the files of a case, and notes what is gathered of them."""
    name, make, root, wanted = case
    with tempfile.TemporaryDirectory() as top:
        folder = os.path.join(top, "policy")
        os.mkdir(folder)
        os.chmod(top, 0o755)
        make(folder)
        came = drawn(folder, answer(program, folder, root, **who))
        for path, folders, _ in os.walk(top):
            for one in folders:
                os.chmod(os.path.join(path, one), 0o755)
        tally.note(f"gathering: {name}", difference("answer", wanted, came))


def run_all(_program, tally):
    """Runs all cases."""
    built = os.path.join(TOP, "crates", PROGRAM, "out", PROGRAM)
    if not os.path.exists(built):
        tally.note("gathering", [f"no program: run `rt run < /dev/null` in crates/{PROGRAM}"])
        return
    for case in CASES:
        run_case(built, case, tally)
    if os.geteuid() != 0:
        for case in CASES_OF_NOBODY:
            run_case(built, case, tally)
        return
    with tempfile.TemporaryDirectory() as top:
        os.chmod(top, 0o755)
        copy = shutil.copy(built, top)
        os.chmod(copy, 0o755)
        for case in CASES_OF_NOBODY:
            run_case(copy, case, tally, user=NOBODY, group=NOBODY, extra_groups=[])
