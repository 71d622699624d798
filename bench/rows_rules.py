"""The rows of a policy of rules alone, with `visudo -c` and `cvtsudoers` beside them, and whether their reaches are met."""

import people
import policies
from reaches import reach_share, reach_times
from rows_convert import CONVERT_SHARE, measure_pair
from rows_list import LIST_SHARES
from rows_read import CHECK_SHARE, SHOW_SHARE

SIZE = 1_000_000
USER = "user"
COMMAND = ("--", "/bin/b", "-l")
# the bytes of rules whose text is not too large for a policy, and that have not too many members to be expanded
CONVERSIONS = {("-f", "json"): SIZE, ("-f", "sudoers"): 700_000, ("-f", "sudoers", "-e"): 500_000}
ASKED = "list COMMAND"
OF = ", rules alone"


def rules(table, size):
    """The path of rules of at most so many bytes, and how many they are."""
    text = policies.rules(size)
    return table.file(text), len(text)


def measure(table):
    """The runs of reading, asking and converting rules alone, each by turns with a program of sudo."""
    path, size = rules(table, SIZE)
    files = ("--passwd", table.file(people.passwd(USER)), "--group-file", table.file(people.group(USER)))
    question = ("list", *files, "-U", USER, *people.HOST, path, *COMMAND)
    rows = {word: table.row(f"`{word}`{OF}", size, (word, path)) for word in ("check", "show")}
    rows[ASKED] = table.row(f"`{ASKED}`{OF}", size, question)
    read = table.by_turns({**rows, **table.visudo(f"`visudo -c`{OF}", size, path)})
    converted = {}
    for words, most in CONVERSIONS.items():
        path, size = rules(table, most)
        converted[" ".join(words)] = (most, *measure_pair(table, size, words, path, OF))
    return read, converted


def reaches(measured):
    """Prints whether each reach of rules alone is met."""
    read, converted = measured
    on = f"on rules alone of {SIZE:,} bytes"
    for word, share in (("check", CHECK_SHARE), ("show", SHOW_SHARE)):
        reach_share(f"`{word}` {on}", read[word], share, read.get("visudo"), "visudo -c")
    reach_times(f"`{ASKED}` {on}", read[ASKED], LIST_SHARES[ASKED], read["check"], "`check`")
    for words, (most, ours, theirs) in converted.items():
        reach_share(f"`convert {words}` on rules alone of {most:,} bytes", ours, CONVERT_SHARE, theirs, "cvtsudoers")
