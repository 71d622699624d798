"""Edits of many files, and of files at the limits."""

from bundles import bundle
from large import ALIAS_LIMIT, LINE_LIMIT, case, case_of_prune, comment, definitions, full_policy
from program import Wanted, fault

FILE_LIMIT = 256
DEEPEST = 128


def accepted(script, files, inverse, edited):
    """A script on files that gives this undo script and these files."""
    return script + bundle(files), Wanted(inverse + bundle(edited))


def refused(script, files, text):
    """A script on files that ends in the error with this text."""
    return script + bundle(files), fault(text)


# ---- the bytes of a file and the definitions of all files --------------------


@case
def insert_beside_a_full_file_is_accepted():
    full = (b"a", full_policy())
    return accepted(b"insert 1\n|\n", [(b"main", b"@include a\n"), full], b"delete 1\n", [(b"main", b"\n@include a\n"), full])


@case
def insert_into_a_full_file_beside_a_small_one():
    return refused(b"file 2\ninsert 1\n|\n", [(b"main", b"@include a\n"), (b"a", full_policy())], "edit 1: TooLarge")


@case
def rename_that_makes_one_of_two_files_too_large():
    text = b"User_Alias A = x\n" + full_policy()[LINE_LIMIT:] + comment(LINE_LIMIT - 17)
    files = [(b"main", b"A ALL=ALL\n@include a\n"), (b"a", text)]
    return refused(b"rename user A B\nrename user B AB\n", files, "edit 2: TooLarge")


@case
def definition_before_as_many_as_there_may_be_in_another_file():
    files = [(b"main", b"@include a\n"), (b"a", definitions(b"Host_Alias", ALIAS_LIMIT))]
    return refused(b"insert 1\n|Host_Alias B = ALL\n", files, "edit 1: NotPolicy: a: too many Host_Alias")


@case
def definition_after_as_many_as_there_may_be_in_another_file():
    files = [(b"main", b"@include a\n"), (b"a", definitions(b"Host_Alias", ALIAS_LIMIT))]
    return refused(b"insert 2\n|Host_Alias B = ALL\n", files, "edit 1: NotPolicy: main: too many Host_Alias")


@case
def definitions_of_a_file_off_the_walk_are_not_counted():
    files = [(b"main", b"@include a\n"), (b"a", definitions(b"Host_Alias", ALIAS_LIMIT))]
    script, inverse = b"file 3\ninsert 1\n|Host_Alias B = ALL\n", b"file 3\ndelete 1\n"
    return accepted(script, [*files, (b"b", b"")], inverse, [*files, (b"b", b"Host_Alias B = ALL\n")])


# ---- the number of files, and how deep they lie ------------------------------


def many(count):
    """So many files, none of which includes another."""
    return [(b"f%d" % number, b"# %d\n" % number) for number in range(count)]


@case
def edit_of_the_last_of_as_many_files_as_there_may_be():
    files = many(FILE_LIMIT)
    name, text = files[-1]
    return accepted(b"file 256\ndelete 1\n", files, b"file 256\ninsert 1\n|" + text, [*files[:-1], (name, b"")])


@case
def a_file_more_than_there_may_be():
    return refused(b"delete 9\n", many(FILE_LIMIT + 1), "TooManyFiles")


def chain(count):
    """So many files, each of which includes the next, and one more that the last does not include."""
    files = [(b"f%d" % number, b"@include f%d\n" % (number + 1)) for number in range(count - 1)]
    return [*files, (b"f%d" % (count - 1), b"# last\n"), (b"f%d" % count, b"# more\n")]


@case
def include_of_a_file_that_would_lie_too_deep():
    script = b"file 129\ninsert 1\n|@include f129\n"
    return refused(script, chain(DEEPEST + 1), "edit 1: NotPolicy: f128:1:1: includes nested too deep")


@case
def include_of_a_file_that_lies_as_deep_as_it_may():
    files = chain(DEEPEST)
    edited = [*files[:-2], (b"f127", b"@include f128\n# last\n"), files[-1]]
    return accepted(b"file 128\ninsert 1\n|@include f128\n", files, b"file 128\ndelete 1\n", edited)


# ---- a tree of 40 files ------------------------------------------------------

INNER, ALL_OF_THEM = 19, 39
USED = {1, 2, 4, 8, 16, 32}  # of the aliases A1 to A39


def alias_of(number):
    """The line of the alias of a file."""
    behind = b"A%d" % (2 * number) if number <= INNER else b"/bin/%d" % number
    return b"Cmnd_Alias A%d = SH, %s\n" % (number, behind)


def includes_of(number):
    """The lines with which a file includes two others; none in the last files."""
    return b"@include f%d\n@include f%d\n" % (2 * number, 2 * number + 1) if number <= INNER else b""


def tree(aliases):
    """The root and 39 files: each of the first 19 includes two others. Only files of these numbers have their alias."""
    files = [(b"main", b"@include f1\nCmnd_Alias SH = /bin/sh\nbob ALL = SH, A1\n")]
    for number in range(1, ALL_OF_THEM + 1):
        files.append((b"f%d" % number, includes_of(number) + (alias_of(number) if number in aliases else b"")))
    return files


def walk(number):
    """The numbers of a file and of those behind it, in the order of their aliases on the walk."""
    return [*walk(2 * number), *walk(2 * number + 1), number] if number <= INNER else [number]


@case
def rename_over_a_tree_of_40_files():
    files = tree(range(1, ALL_OF_THEM + 1))
    edited = [(name, text.replace(b"SH", b"SHELLS")) for name, text in files]
    return accepted(b"rename cmnd SH SHELLS\n", files, b"rename cmnd SHELLS SH\n", edited)


@case_of_prune
def prune_over_a_tree_of_40_files():
    inverse = b"".join(
        b"file %d\ninsert %d\n|%s" % (number + 1, includes_of(number).count(b"\n") + 1, alias_of(number))
        for number in walk(1)
        if number not in USED
    )
    return accepted(b"prune\n", tree(range(1, ALL_OF_THEM + 1)), inverse, tree(USED))
