"""Compares the notes of `check --for sudo` on Defaults lines with the rules of sudoers(5), and with `visudo -c`.

A row of ROWS has a policy and its notes. The program runs on it with the options that go with the notes, and `visudo -c` has to refuse
just the policies with a note `refused by visudo -c`. It knows the machine's locales, so rows that are not decided are not for it. With
`ignore_unknown_defaults` it prints nothing about unknown names, and refuses them all the same.

Each policy of docs/differences.md that the program reads has a note, if sudo refuses it.

Then each parameter of the program's own table stands in each form of a line, and parameters have random values. Both programs have to
refuse the same lines, for the same reason. Lines that the program's grammar refuses are left out. Where visudo of sudo 1.9.13p3 is not
installed, all that is skipped.
"""

import os
import random
import re
import subprocess
from collections import Counter
from dataclasses import dataclass, replace

from cases import Case
from devices import Stand as Devices
from devices import refuse_growths
from documents import SUDO, read_document, visudo
from installed import without_owners
from preload import with_library
from program import SECONDS, Wanted, fault
from stand import EMPTY_FOLDER, Closed, Folder, Stand
from tally import difference
from target_answers import OTHER_ANSWERS, run_page_of_answers
from target_rows import ARGUMENT_ESCAPE, FORMS, LOCALE, NUMBERED, PATH_ESCAPE, REPORT, SLASHES, TIME, Row, form, refused
from target_sudo_rs import run_sudo_rs

PART = "targets"
SEED = 20_261_129
TOP = os.path.dirname(os.path.dirname(os.path.abspath(__file__)))
TABLE = os.path.join(TOP, "crates/sudoers_defaults/src/sudo_parameters.rt")
PARAMETER_COUNT = 161

UNKNOWN, OPERATOR, NEEDLESS = "unknown name", "+= and -= are for lists", "takes no value"
EMPTY, QUOTES = "empty value", "the value needs quotes"

# What a parameter of each type takes, in words.
INTEGER = "a number from -2147483648 to 2147483647"
UNSIGNED = "a number up to 4294967295"
MODE = "an octal mode up to 0777"
MINUTES = "minutes, as 5, 2.5 or -1"
LIMIT = "a number, infinity, or two of them with a comma, or user or default"
PATH = "a path that begins with /, shorter than 4096 bytes"
PATH_OR_STAR = "a path that begins with / or ~, shorter than 4096 bytes, or *"


def row(name, files, *notes):
    """Returns the row with these notes, each a place, the name of a parameter, and words."""
    return Row(name, files, tuple(refused(*note) for note in notes))


def rows_of_values(what, name, takes, good, bad):
    """Returns the rows of one parameter with values that it takes, and with values that it does not take."""
    before = f"Defaults {name}="
    place = f"1:{len(before) + 1}"
    rows = [row(f"{what}, good: {value[:40]}", f"{before}{value}\n") for value in good]
    return rows + [row(f"{what}, bad: {value[:40]}", f"{before}{value}\n", (place, name, f"takes {takes}")) for value in bad]


def rows_of_words(what, name, words):
    """Returns the rows of one parameter that takes one of these words."""
    takes = " or ".join((", ".join(words[:-1]), words[-1]))
    return rows_of_values(what, name, takes, words, (words[0].upper(), words[0][:-1], f"{words[0]}s", "5", f'"{words[0]} "'))


FACILITIES = ("authpriv", "auth", "daemon", "user", *(f"local{number}" for number in range(8)))
PRIORITIES = ("alert", "crit", "debug", "emerg", "err", "info", "notice", "warning", "none")

# Each type's corners.
VALUES = (
    *rows_of_values(
        "integer",
        "closefrom",
        INTEGER,
        ("0", "-0", "+5", "007", "2147483647", "-2147483648", '"  5"', '"\t-5"'),
        ("2147483648", "-2147483649", "5x", "1.5", "five", '"5 "', '"- 5"', '"+"', '"+-5"', "99999999999999999999999"),
    ),
    *rows_of_values(
        "unsigned",
        "passwd_tries",
        UNSIGNED,
        ("0", "-0", "+5", "4294967295", "00000000004294967295", '" 5"'),
        ("4294967296", "-1", "0x5", "5.0", '"5 "', '" "'),
    ),
    *rows_of_values(
        "mode",
        "umask",
        MODE,
        ("0", "7", "0777", "777", "0000777", "-0", '" 022"', "+22"),
        ("1000", "0778", "9", "-22", "rwx", '"022 "'),
    ),
    *rows_of_values(
        "minutes",
        "timestamp_timeout",
        MINUTES,
        ("0", "5", "-1", "+5", "2.5", ".5", "5.", "153722867280912930.133333333", "1.1234567890x"),
        ("153722867280912930.133333334", "153722867280912931", "1.2.3", "1.12345678x", "5m", '" 5"', "1e3"),
    ),
    *rows_of_values(
        "time",
        "command_timeout",
        TIME,
        (
            *("0", "90", "1h30m", "1d2h3m4s", "1H", "1h1h", "24855d", "2147483647", "35791394m7s", "1h5", '"1h 30m"', '"1h -0m"'),
            # Seconds without their letter at the end are not added up.
            *("24855d2147483647", "2147483647s3", "35791394m8"),
        ),
        ("24856d", "2147483648", "35791394m8s", "1m1h", "5x", "h", "1hh", "-1", "1.5h", '"1h "', "1w", "1h2147483648", "1h2147483647s"),
    ),
    *rows_of_values(
        "limits",
        "rlimit_core",
        LIMIT,
        ("0", "infinity", "user", "default", "18446744073709551615", '"5,6"', '"infinity,infinity"', '"0,infinity"'),
        ("18446744073709551616", "Infinity", '"5,"', '",5"', '"5,6,7"', '"user,5"', '"5, 6"', "-1", "+1", '" 5"', "5k"),
    ),
    *rows_of_values(
        "path",
        "env_file",
        PATH,
        ("/", "/etc/environment", '"/a b"', SLASHES),
        ("etc/environment", "~/x", "./x", '" /x"', '"*"', f"{SLASHES}a"),
    ),
    *rows_of_values(
        "path or star",
        "runcwd",
        PATH_OR_STAR,
        ("/", "/srv", "~", "~/x", "~bob/x", '"*"', SLASHES, f"~{SLASHES[:-1]}"),
        ("srv", '"**"', '"*/x"', '" /x"', f"{SLASHES}a", f"~{SLASHES}"),
    ),
    *rows_of_words("commands", "listpw", ("never", "any", "all", "always")),
    *rows_of_words("execution", "fdexec", ("never", "digest_only", "always")),
    *rows_of_words("lecture", "lecture", ("never", "once", "always")),
    *rows_of_words("tickets", "timestamp_type", ("global", "ppid", "tty", "kernel")),
    *rows_of_words("log format", "log_format", ("sudo", "json")),
    *rows_of_words("interception", "intercept_type", ("dso", "trace")),
    *rows_of_words("priorities", "syslog_goodpri", PRIORITIES),
    *rows_of_values(
        "facilities",
        "syslog",
        "authpriv, auth, daemon, user, or local0 to local7",
        FACILITIES,
        ("local8", "kern", "AUTH", "none", "mail"),
    ),
    row("text, anything", 'Defaults mailsub=x, badpass_message="a = b!", passprompt=a\\=b, role=\\!x\n'),
    row("list, words with an operator each", 'Defaults env_keep="A B=c", env_keep += X, env_keep -= "Y Z", !env_keep\n'),
    row("locale of each machine", "Defaults sudoers_locale=C, sudoers_locale=POSIX\n"),
    row("another locale", 'Defaults sudoers_locale="xx_XX.UTF-8"\n', ("1:25", "sudoers_locale", LOCALE)),
    row("locale of other case", "Defaults sudoers_locale=c\n", ("1:25", "sudoers_locale", LOCALE)),
)

FAULTS = (
    row("an unknown name", "Defaults nosuch\n", ("1:10", "nosuch", UNKNOWN)),
    row("an unknown name behind !", "Defaults !!!nosuch\n", ("1:13", "nosuch", UNKNOWN)),
    row("an unknown name with a value", "Defaults nosuch += 5\n", ("1:10", "nosuch", UNKNOWN)),
    row("an unknown name with an empty value", 'Defaults nosuch=""\n', ("1:10", "nosuch", UNKNOWN)),
    row("a name like another", "Defaults env_rest\n", ("1:10", "env_rest", f"{UNKNOWN}; did you mean env_reset?")),
    row("a name with a letter too many", "Defaults insultss\n", ("1:10", "insultss", f"{UNKNOWN}; did you mean insults?")),
    row("a name of other case", "Defaults Fqdn\n", ("1:10", "Fqdn", f"{UNKNOWN}; did you mean fqdn?")),
    row("a short name with two wrong letters", "Defaults fgpn\n", ("1:10", "fgpn", UNKNOWN)),
    row("a name of 65 bytes", f"Defaults {'umask' * 13}\n", ("1:10", "umask" * 13, UNKNOWN)),
    row("the first of two names that are as near", "Defaults pam_rxost\n", ("1:10", "pam_rxost", f"{UNKNOWN}; did you mean pam_rhost?")),
    row("no value for a mode", "Defaults umask\n", ("1:10", "umask", f"needs a value, or ! before it: {MODE}")),
    row("no value for a text", "Defaults mailto\n", ("1:10", "mailto", "needs a value, or ! before it: a text")),
    row("no value for a path", "Defaults env_file\n", ("1:10", "env_file", f"needs a value, or ! before it: {PATH}")),
    row("no value for a path or star", "Defaults runcwd\n", ("1:10", "runcwd", f"needs a value, or ! before it: {PATH_OR_STAR}")),
    row("no value for an integer", "Defaults closefrom\n", ("1:10", "closefrom", f"needs a value, and takes no !: {INTEGER}")),
    row("no value for an unsigned number", "Defaults loglinelen\n", ("1:10", "loglinelen", f"needs a value, or ! before it: {UNSIGNED}")),
    row("no value for minutes", "Defaults passwd_timeout\n", ("1:10", "passwd_timeout", f"needs a value, or ! before it: {MINUTES}")),
    row("no value for a time", "Defaults command_timeout\n", ("1:10", "command_timeout", f"needs a value, or ! before it: {TIME}")),
    row("no value for a limit", "Defaults rlimit_as\n", ("1:10", "rlimit_as", f"needs a value, or ! before it: {LIMIT}")),
    row("no value for a list", "Defaults env_keep\n", ("1:10", "env_keep", "needs a value, or ! before it: one or more words")),
    row("no value for a locale", "Defaults sudoers_locale\n", ("1:10", "sudoers_locale", "needs a value, and takes no !: a locale")),
    row("no value for a word", "Defaults log_format\n", ("1:10", "log_format", "needs a value, or ! before it: sudo or json")),
    row("two ! are none", "Defaults !!umask\n", ("1:12", "umask", f"needs a value, or ! before it: {MODE}")),
    row("no value where none is needed", "Defaults fqdn, !fqdn, syslog, !syslog, lecture, listpw, fdexec, !umask, !env_keep\n"),
    row("! where it needs a value", "Defaults !passwd_tries\n", ("1:11", "passwd_tries", f"needs a value, and takes no !: {UNSIGNED}")),
    row("! of a text that needs a value", "Defaults !mailsub\n", ("1:11", "mailsub", "needs a value, and takes no !: a text")),
    row("+= on a text", "Defaults mailsub += x\n", ("1:10", "mailsub", OPERATOR)),
    row("-= on a number", "Defaults loglinelen -= 5\n", ("1:10", "loglinelen", OPERATOR)),
    row("+= on a flag", "Defaults fqdn += 5\n", ("1:10", "fqdn", OPERATOR)),
    row("+= with a bad value", "Defaults umask += 9\n", ("1:10", "umask", OPERATOR)),
    row("a value for a flag", "Defaults fqdn = true\n", ("1:17", "fqdn", NEEDLESS)),
    row("an empty value", 'Defaults mailto = ""\n', ("1:19", "mailto", EMPTY)),
    row("an empty value of a flag", 'Defaults fqdn=""\n', ("1:15", "fqdn", EMPTY)),
    row("an empty value of +=", 'Defaults mailto+=""\n', ("1:18", "mailto", EMPTY)),
    row("a value with a bare =", "Defaults mailsub=a=b\n", ("1:18", "mailsub", QUOTES)),
    row("a value that begins with =", "Defaults mailsub==b\n", ("1:18", "mailsub", QUOTES)),
    row("a = behind two backslashes", "Defaults mailsub=a\\\\=b\n", ("1:18", "mailsub", QUOTES)),
    row("a = behind a backslash", "Defaults mailsub=a\\=b\n"),
    row("a = in quotes", 'Defaults mailsub="a=b"\n'),
    row("a bare = of +=", "Defaults env_keep += A=b\n", ("1:22", "env_keep", QUOTES)),
    row("a value that begins with !", "Defaults mailsub=!x\n", ("1:18", "mailsub", QUOTES)),
    row("a ! within a value", "Defaults mailsub=x!\n"),
    row("a ! in quotes", 'Defaults mailsub="!x"\n'),
    row("a ! behind a backslash", "Defaults mailsub=\\!x\n"),
    row(
        "several faults in a line",
        'Defaults nosuch, fqdn=1, insults, umask, !mailsub, mailto+=x, mailfrom="", role=a=b, umask=9, env_file=x\n',
        ("1:10", "nosuch", UNKNOWN),
        ("1:23", "fqdn", NEEDLESS),
        ("1:35", "umask", f"needs a value, or ! before it: {MODE}"),
        ("1:43", "mailsub", "needs a value, and takes no !: a text"),
        ("1:52", "mailto", OPERATOR),
        ("1:72", "mailfrom", EMPTY),
        ("1:81", "role", QUOTES),
        ("1:92", "umask", f"takes {MODE}"),
        ("1:104", "env_file", f"takes {PATH}"),
    ),
    row("a locale among faults", "Defaults sudoers_locale=xx, nosuch\n", ("1:25", "sudoers_locale", LOCALE), ("1:29", "nosuch", UNKNOWN)),
)

PLACES = (
    row("a list of users", "Defaults:bob, %adm, !eve umask=9, !nosuch\n", ("1:32", "umask", f"takes {MODE}"), ("1:36", "nosuch", UNKNOWN)),
    row("a list of hosts", "Defaults@h1, 10.0.0.0/8 fqdn=5\n", ("1:30", "fqdn", NEEDLESS)),
    row("a list of commands", "Defaults!/bin/ls, /bin/sh umask\n", ("1:27", "umask", f"needs a value, or ! before it: {MODE}")),
    row("a list of targets", "Defaults>root, #7 env_rest\n", ("1:19", "env_rest", f"{UNKNOWN}; did you mean env_reset?")),
    row("a quoted name of a user", 'Defaults:"a b, umask=9", "!c" umask=9\n', ("1:37", "umask", f"takes {MODE}")),
    row("a user named as a parameter", "Defaults:nosuch, umask !umask, umask\n", ("1:32", "umask", f"needs a value, or ! before it: {MODE}")),
    row("a quoted host", 'Defaults@"h 1" nosuch\n', ("1:16", "nosuch", UNKNOWN)),
    row("an alias in a scope", "User_Alias OPS = bob\nDefaults:OPS nosuch\n", ("2:14", "nosuch", UNKNOWN)),
    row(
        "continued lines",
        "# one\n\nDefaults fqdn, \\\n  umask=9, \\\n\tnosuch\nDefaults !nosuch\n",
        ("4:9", "umask", f"takes {MODE}"),
        ("5:2", "nosuch", UNKNOWN),
        ("6:11", "nosuch", UNKNOWN),
    ),
    row("a value on the next line", "Defaults umask =\\\n 9 # why\n", ("2:2", "umask", f"takes {MODE}")),
    row("a value at the start of the next line", "Defaults umask=\\\n9", ("2:1", "umask", f"takes {MODE}")),
    row("members on the lines before", "Defaults:bob, \\\neve \\\n nosuch\n", ("3:2", "nosuch", UNKNOWN)),
    row("tabs and blanks", "\t Defaults\t \tnosuch\t= 5\n", ("1:14", "nosuch", UNKNOWN)),
    row("a comment at the end of the line", "Defaults nosuch # umask\n", ("1:10", "nosuch", UNKNOWN)),
    row("letters of several bytes", 'Defaults mailsub="\xe4\u20ac", nosuch\n', ("1:27", "nosuch", UNKNOWN)),
    row(
        "repeated names",
        "Defaults umask=9, umask=9\nDefaults umask=022, umask=9\n",
        ("1:16", "umask", f"takes {MODE}"),
        ("1:25", "umask", f"takes {MODE}"),
        ("2:27", "umask", f"takes {MODE}"),
    ),
    row(
        "files in the order of the walk",
        {
            "main": "Defaults nosuch\n@include inc\n@includedir d\nDefaults !nosuch\n",
            "inc": "\nDefaults umask=9",
            "d/b": "Defaults umask=9\n",
            "d/a": "Defaults fqdn=1\n",
        },
        ("1:10", "nosuch", UNKNOWN),
        ("inc:2:16", "umask", f"takes {MODE}"),
        ("d/a:1:15", "fqdn", NEEDLESS),
        ("d/b:1:16", "umask", f"takes {MODE}"),
        ("4:11", "nosuch", UNKNOWN),
    ),
    row("no bytes", ""),
    row("no Defaults", "# Defaults nosuch\nbob ALL = ALL\n"),
    row("a scope is no rule", "Defaults:bob fqdn\nbob ALL = (root) /bin/nosuch umask\n"),
)

IGNORED = (
    row("limits without quotes", "Defaults rlimit_core=5,6\n", ("1:24", "6", f"{UNKNOWN}; a value with a comma needs quotes")),
    row(
        "unknown names that are ignored",
        "Defaults ignore_unknown_defaults, nosuch\nDefaults !nosuch\n",
        ("1:35", "nosuch", UNKNOWN),
        ("2:11", "nosuch", UNKNOWN),
    ),
    row("unknown names that are ignored later", "Defaults nosuch\nDefaults ignore_unknown_defaults\n", ("1:10", "nosuch", UNKNOWN)),
    row("unknown names that a user has ignored", "Defaults:bob ignore_unknown_defaults\nDefaults nosuch\n", ("2:10", "nosuch", UNKNOWN)),
    row(
        "unknown names that are ignored no longer",
        "Defaults ignore_unknown_defaults\nDefaults !ignore_unknown_defaults\nDefaults nosuch\n",
        ("3:10", "nosuch", UNKNOWN),
    ),
    row("bad values where unknown names are ignored", "Defaults ignore_unknown_defaults\nDefaults umask=9\n", ("2:16", "umask", f"takes {MODE}")),
)


SPELLED_VALUES = (
    Row("forms and parameters in their order", "Defaults nosuch #1\nbob ALL = /bin/\\a \\-l\nDefaults umask=9\n", (refused("1:10", "nosuch", UNKNOWN), form("1:17", NUMBERED), form("2:11", PATH_ESCAPE), form("2:19", ARGUMENT_ESCAPE), refused("3:16", "umask", f"takes {MODE}"))),
    row("an escape in quotes", 'Defaults passwd_tries="\\x33"\n', ("1:23", "passwd_tries", f"takes {UNSIGNED}")),
    row("an escape without quotes", "Defaults passwd_tries=\\x33, lecture=\\never\n"),
    row("a continuation in quotes", 'Defaults passwd_tries="3\\\n  4"\n'),
    row("a value behind pairs of !", "Defaults passwd_tries=!!3, mailsub=!!!!x\n"),
    row("a bad value behind pairs of !", "Defaults passwd_tries=!!x\n", ("1:23", "passwd_tries", f"takes {UNSIGNED}")),
    row("a value behind three !", "Defaults mailsub=!!!x, mailfrom=!!\n", ("1:18", "mailsub", QUOTES), ("1:33", "mailfrom", QUOTES)),
    row("a value before a NUL", "Defaults passwd_tries=3\\x00x\n"),
    row("a bad value before a NUL", "Defaults passwd_tries=x\\x003\n", ("1:23", "passwd_tries", f"takes {UNSIGNED}")),
)

ROWS = VALUES + FAULTS + PLACES + IGNORED + SPELLED_VALUES + FORMS + OTHER_ANSWERS



def without_answers(stdout):
    """Returns an output without the notes on what sudo answers otherwise."""
    return b"".join(line for line in stdout.splitlines(keepends=True) if b": answered otherwise by sudo: " not in line)


def run_row(stand, one):
    """Runs a row with the options that go with the notes. Notes on other answers are looked at in rows of these alone."""
    notes = "".join(one.notes).encode()
    strict = 1 if one.is_decided() else 0
    with Folder(one.tree()) as folder:
        for words, text, status in (
            ("--for sudo", one.report(False).encode() + notes, 0),
            ("-s --for sudo", one.report(True).encode() + notes, strict),
            ("-q -s --for sudo", b"", strict),
            ("-q --for=sudo", b"", 0),
            ("--all --for sudo", one.report(False).encode() + notes, 0),
            ("-s", one.report(True).encode(), 1 if one.undefined else 0),
        ):
            came = stand.run(f"check {words} main", folder)
            if one not in OTHER_ANSWERS:
                came = replace(came, stdout=without_answers(came.stdout))
            stand.tally.note(f"{PART}: {one.name}, check {words} main", Wanted(text, status=status).problems(came))


def run_rows(stand):
    """Runs all rows, whose names differ."""
    names = Counter(one.name for one in ROWS)
    stand.tally.note(f"{PART}: names of rows", [name for name, count in names.items() if count > 1])
    for one in ROWS:
        run_row(stand, one)


def run_rows_by_visudo(stand):
    """Has visudo refuse just the policies of rows with a note that says so. Rows that are not decided, or read otherwise, are left out."""
    for one in (one for one in ROWS if one.is_refused() or one.is_read()):
        with Folder(one.tree()) as folder:
            done = run_visudo(folder, "main")
        wanted = 1 if one.is_refused() else 0
        problems = difference("status", wanted, done.returncode)
        stand.tally.note(f"{PART}: {one.name}, visudo", problems + ([f"{done.stderr}"] if problems else []))


# ---- the page of differences -------------------------------------------------------------

PAGE = "docs/differences.md"
FEWEST_ON_PAGE = 70


def run_page(stand):
    """Each policy of the page of differences that this program reads has a note, where the page says that sudo refuses it, and no refusal
    where sudo reads it."""
    rows = [one for one in read_document(PAGE).rows if one.command == "check" and one.sudo and one.printed.endswith(b": parsed OK\n")]
    refusals = 0
    for one in rows:
        with Folder({"policy": one.policy}) as folder:
            came = stand.run("check --for sudo policy", folder)
        is_refused = b": refused by visudo -c: " in came.stdout
        refusals += is_refused
        is_noted = is_refused or one.sudo == "refuses" and b": read otherwise by sudo: " in came.stdout
        stand.tally.note(f"{PART}: {PAGE}:{one.line}", difference("refused", one.sudo == "refuses", is_noted))
    is_enough = refusals >= FEWEST_ON_PAGE
    stand.tally.note(f"{PART}: rows of {PAGE}", [] if is_enough else [f"{refusals} of {FEWEST_ON_PAGE} rows are refused"])


# ---- the words of the program --------------------------------------------------------

FAULTY = {
    "main": "bob ALL = WEB\nDefaults nosuch\n@include inc\n@includedir d\nDefaults umask=9\n",
    "inc": "Defaults sudoers_locale=xx, fqdn=1",
    "d/a": "Defaults !mailsub\n",
    "d/b.x": "Defaults nosuch\n",
}
UNDEFINED = "main:1:11: undefined Cmnd_Alias WEB\n"
FAULTY_NOTES = "".join(
    refused(*note)
    for note in (
        ("2:10", "nosuch", UNKNOWN),
        ("inc:1:25", "sudoers_locale", LOCALE),
        ("inc:1:34", "fqdn", NEEDLESS),
        ("d/a:1:11", "mailsub", "needs a value, and takes no !: a text"),
        ("5:16", "umask", f"takes {MODE}"),
    )
)
NOT_READ = "d/b.x: not read: its name contains '.'\n"
LINK = "d: not read by sudo: mode 0777, should be 0755\n"
BROKEN = {"main": "Defaults nosuch\nbob ALL\nDefaults umask=9\nann ALL\n"}
ERRORS = tuple(f"main:{number}:8: syntax error: EndOfLine\n" for number in (2, 4))
NOTE = refused("1:10", "nosuch", UNKNOWN)
INC_REPORT = "inc: parsed OK\n" + NOTE.replace("main", "inc")

# Words, files, standard input, the whole output and the status.
RUNS = (
    ("--for sudo main", FAULTY, "", UNDEFINED + REPORT + FAULTY_NOTES, 0),
    ("--for sudo -s main", FAULTY, "", UNDEFINED + "main: faults found\n" + FAULTY_NOTES, 1),
    ("--for sudo -q main", FAULTY, "", "", 0),
    ("--for sudo --plain main", FAULTY, "", UNDEFINED + REPORT + FAULTY_NOTES, 0),
    ("--for sudo --explain main", FAULTY, "", UNDEFINED + REPORT + FAULTY_NOTES, 0),
    ("--for sudo --root . main", FAULTY, "", UNDEFINED + REPORT + FAULTY_NOTES, 0),
    ("--for sudo --skipped main", FAULTY, "", UNDEFINED + REPORT + NOT_READ + FAULTY_NOTES, 0),
    ("--for sudo --installed main", FAULTY, "", UNDEFINED + REPORT + NOT_READ + FAULTY_NOTES, 0),
    ("--for sudo --installed main", {**FAULTY, "d": Closed(None, 0o777)}, "", UNDEFINED + REPORT + NOT_READ + LINK + FAULTY_NOTES, 0),
    ("--for sudo --all main", FAULTY, "", UNDEFINED + REPORT + FAULTY_NOTES, 0),
    ("--for sudo -", {}, "Defaults nosuch\n", "-: parsed OK\n" + NOTE.replace("main", "-"), 0),
    ("--for sudo --root . -", {"inc": "Defaults nosuch"}, "@include inc\n", "-: parsed OK\n" + NOTE.replace("main", "inc"), 0),
    ("--for sudo -s -", {}, "Defaults nosuch\n", "-: parsed OK\n" + NOTE.replace("main", "-"), 1),
    ("--for sudo -s -", {}, "Defaults fqdn\n", "-: parsed OK\n", 0),
    ("--for sudo -s main", {"main": "Defaults sudoers_locale=xx\n"}, "", REPORT + refused("1:25", "sudoers_locale", LOCALE), 0),
    ("--for sudo -s --error-status 5 main", {"main": "Defaults nosuch\n"}, "", REPORT + NOTE, 1),
    ("--for sudo main", BROKEN, "", ERRORS[0], 1),
    ("--for sudo -s main", BROKEN, "", ERRORS[0], 1),
    ("--for sudo -q main", BROKEN, "", "", 1),
    ("--for sudo --all main", BROKEN, "", "".join(ERRORS), 1),
    ("--for sudo main", {"main": b"Defaults nosuch\n\0"}, "", "main: NUL at byte 16\n", 1),
    ("--for sudo main", {"main": "Defaults nosuch\n@include none\n"}, "", "main:2:1: include none not loaded\n", 1),
    (
        "--for sudo main inc d/a -",
        {**FAULTY, "main": "Defaults nosuch\n"},
        "Defaults umask=9\n",
        REPORT
        + NOTE
        + "inc: parsed OK\n"
        + refused("inc:1:25", "sudoers_locale", LOCALE)
        + refused("inc:1:34", "fqdn", NEEDLESS)
        + "d/a: parsed OK\n"
        + refused("d/a:1:11", "mailsub", "needs a value, and takes no !: a text")
        + "-: parsed OK\n"
        + refused("-:1:16", "umask", f"takes {MODE}"),
        0,
    ),
    ("--for sudo -s inc main", {"main": "Defaults fqdn\n", "inc": "Defaults nosuch\n"}, "", INC_REPORT + REPORT, 1),
    ("--for sudo inc main", {**BROKEN, "inc": "Defaults nosuch\n"}, "", INC_REPORT + ERRORS[0], 1),
)

# Words that are no question, and what the error names.
WRONG_WORDS = (
    ("check --for sudo --json main", b"'--for <TARGET>' cannot be used with '--json'"),
    ("check --json --for sudo main", b"'--for <TARGET>'"),
    ("check --for doas main", b"invalid value 'doas' for '--for <TARGET>'"),
    ("check --for Sudo main", b"invalid value 'Sudo' for '--for <TARGET>'"),
    ("check --for sudo,sudo main", b"invalid value 'sudo,sudo' for '--for <TARGET>'"),
    ("check --for sudo --for sudo main", b"'--for <TARGET>' cannot be used multiple times"),
    ("check --for", b"a value is required for '--for <TARGET>'"),
    ("check --for= main", b"'--for <TARGET>'"),
    ("check --for sudo", b"<FILE>..."),
    ("show --for sudo main", b"unexpected argument '--for'"),
    ("list --for sudo main", b"unexpected argument '--for'"),
)


def run_words(stand):
    """Runs the options that go with the notes, and those that do not."""
    for words, tree, stdin, text, status in RUNS:
        with Folder(tree) as folder:
            for name in tree:
                if not isinstance(tree[name], Closed):
                    os.chmod(os.path.join(folder, name), 0o440)
            came = stand.run(f"check {words}", folder, stdin.encode())
            problems = difference("lines", text.encode(), without_owners(came.stdout))
            problems += difference("errors", b"", came.stderr) + difference("status", status, came.status)
            stand.tally.note(f"{PART}: check {words}, {sorted(tree)}", problems)
    with Folder({"main": "Defaults nosuch\n", "d": EMPTY_FOLDER}) as folder:
        for words, named in WRONG_WORDS:
            stand.note("wrong words", words, Wanted(b"", None, 2, stderr_has=(named,)), folder)
        stand.note("no file", "check --for sudo none", fault("NoRoot"), folder)
        stand.note("no file", "check -s --error-status 5 --for sudo none", fault("NoRoot", 5), folder)


# ---- lines beside visudo ---------------------------------------------------------------

GROUP = re.compile(r"takes: ParameterType::([\w:()]+),\s*without_value: UseWithoutValue::(\w+),\s*names: &\[([^\]]*)\]")
# An error with a place, as both programs print it; a note.
PLACED = re.compile(r"^p:(\d+):(?:\d+:)? (.*)$", re.MULTILINE)
NOTED = re.compile(r"^p:(\d+):(\d+): (?:refused by visudo -c|not decided): Defaults (\S+): (.*)$", re.MULTILINE)
# Words of a note, and what visudo prints of such a parameter. The first words that the note begins with count.
REASONS = (
    (UNKNOWN, ("unknown defaults entry",)),
    ("needs a value, ", ("no value specified for",)),
    (OPERATOR, ("invalid operator",)),
    (NEEDLESS, ("does not take a value",)),
    (EMPTY, ("empty string",)),
    (QUOTES, ("syntax error",)),
    ("takes a path ", ("must start with", "too long")),
    ("takes ", ("is invalid for option",)),
)
# Where visudo has another reason: the parameter's type, the words of the note, the line, and what visudo prints. A name of other bytes than
# small letters and `_` is no name for its grammar, which comes before its names, as does that of values. Where it takes a word alone, it
# takes a missing value for another one.
OTHER_REASONS = (
    ("", UNKNOWN, r"Defaults !*\w*[A-Z0-9].*", "syntax error"),
    ("", UNKNOWN, r"Defaults \w+=(!|[^\"\\]*=).*", "syntax error"),
    ("", UNKNOWN, r'Defaults \w+=""', "empty string"),
    ("OneOf(WordSet::Interception)", "needs a value, ", r"Defaults (!!)?\w+", "is invalid for option"),
    ("OneOf(WordSet::LogFormat)", "needs a value, ", r"Defaults (!!)?\w+", "is invalid for option"),
    ("OneOf(WordSet::Tickets)", "needs a value, ", r"Defaults (!!)?\w+", "is invalid for option"),
)
PLACED_AT_VALUE = (NEEDLESS, EMPTY, QUOTES, "takes ", LOCALE)
OTHER_NAMES = ("nosuch", "env_rest", "Xyz2")
# The values of the sweep.
SWEPT_VALUES = (
    "5", "abc", "-1", "+5", '"5 "', '" 5"', "0", "-0", "4294967295", "4294967296", "2147483647", "2147483648",
    "-2147483648", "-2147483649", "0777", "01000", "0008", "777", "-0777", '"-000"', "1.5", ".5", "5.", '"1.2.3"',
    "1.1234567890x", "153722867280912930.133333333", "153722867280912930.133333334", "153722867280912931", "1h30m",
    "1h1h", "1m1h", "1H", '"1h 30m"', '"1h -0m"', "1d", "24855d", "24856d", "35791394m8s", "5x", "never", "once",
    "always", "any", "all", "sudo", "json", "trace", "global", "tty", "digest_only", "local3", "warning", "none",
    "user", "default", "infinity", '"infinity,5"', "5,", '"5,6"', '"5,6,7"', '"infinity,infinity"',
    "18446744073709551615", "18446744073709551616", "/x", "~/x", '"*"', '"**"', '"a b"', "a=b", '"a=b"', "=x",
    '"=x"', "!x", '"!x"', '""', '"\\""', "a\\=b", "\\!x", '"\t5"', "+", "-", ".", '"+"', '"h"', '"1h5"', '"5s5"',
)
ADDED_VALUES = ("5", '"a b"', "/x", "never")
LINES_OF_FILE = 1000


@dataclass(frozen=True)
class Line:
    """A line with one parameter, and the columns at which its name and its value stand."""

    text: str
    name: str
    name_column: int
    value_column: int


@dataclass(frozen=True)
class Parameter:
    """A parameter of the program's table."""

    name: str
    takes: str
    without_value: str


def parameters():
    """Returns the parameters of the program's table."""
    with open(TABLE, encoding="utf-8") as file:
        groups = GROUP.findall(file.read())
    return [Parameter(name, takes, without) for takes, without, names in groups for name in re.findall(r'"(\w+)"', names)]


def line_of(marks, name, operator="", value=""):
    """Returns the line with these marks before the name, and this operator and value behind it."""
    before = f"Defaults {marks}"
    return Line(f"{before}{name}{operator}{value}", name, len(before) + 1, len(before + name + operator) + 1)


def forms_of(name):
    """Yields the lines of the sweep with a parameter of this name."""
    for marks in ("", "!", "!!"):
        yield line_of(marks, name)
    for value in SWEPT_VALUES:
        yield line_of("", name, "=", value)
    for value in ADDED_VALUES:
        yield line_of("", name, "+=", value)
        yield line_of("", name, "-=", value)


def run_visudo(folder, file):
    """Returns the run of `visudo -c` on a file of a folder."""
    words = [visudo(), "-c", "-f", file]
    return subprocess.run(words, capture_output=True, cwd=folder, env={"LC_ALL": "C"}, timeout=SECONDS, check=False)


def write_lines(folder, texts):
    """Makes the file `p` of these lines."""
    with open(os.path.join(folder, "p"), "w", encoding="utf-8") as file:
        file.write("".join(f"{text}\n" for text in texts))


def noted_by_program(stand, folder, texts):
    """Returns the lines that are errors of the grammar, and the notes on the others: column, name and words by line."""
    write_lines(folder, texts)
    errors = stand.run("check --all p", folder).stdout.decode()
    left_out = {int(number) - 1 for number, _ in PLACED.findall(errors)}
    write_lines(folder, ["#" if at in left_out else text for at, text in enumerate(texts)])
    came = without_answers(stand.run("check --for sudo p", folder).stdout).decode()
    head, _, notes = came.partition("\n")
    found = NOTED.findall(notes)
    by_line = {int(number) - 1: (int(column), name, words) for number, column, name, words in found}
    if head != "p: parsed OK" or len(by_line) != notes.count("\n"):
        raise ValueError(f"a note for each of these lines at most: {came[:300]}")
    return left_out, by_line


def refused_by_visudo(folder, texts):
    """Returns what visudo prints of each line that it refuses. It shows other errors only where no error of its grammar is left."""
    left, found = list(texts), {}
    while True:
        write_lines(folder, left)
        done = run_visudo(folder, "p")
        placed = PLACED.findall((done.stderr + done.stdout).decode())
        for number, message in placed:
            found.setdefault(int(number) - 1, message)
            left[int(number) - 1] = "#"
        if done.returncode == 0:
            return found
        if not placed:
            raise ValueError(f"visudo names no line: {done}")


def reasons_of_visudo(text, takes, words):
    """Returns what visudo may print of a line, whose parameter is of this type and has a note of these words."""
    for kind, begin, form, reason in OTHER_REASONS:
        if kind == takes and words.startswith(begin) and re.fullmatch(form, text):
            return (reason,)
    return next((reasons for begin, reasons in REASONS if words.startswith(begin)), ())


def line_problems(line, takes, note, message):
    """Returns what is wrong with the note on a line, if visudo prints this of it. None is nothing."""
    if note is None or message is None:
        is_right = note is message or note is not None and note[2] == LOCALE
        return [] if is_right else [f"{line.text}: note {note}, visudo {message}"]
    column, name, words = note
    problems = difference(f"{line.text}: name", line.name, name)
    place = line.value_column if words.startswith(PLACED_AT_VALUE) else line.name_column
    problems += difference(f"{line.text}: column", place, column)
    if not any(reason in message for reason in reasons_of_visudo(line.text, takes, words)):
        problems.append(f"{line.text}: {words}, visudo {message}")
    return problems


def compare_lines(stand, name, lines, types):
    """Compares the notes on lines with what visudo refuses. Returns how many lines both refuse, and how many are left out."""
    texts = [line.text for line in lines]
    with Folder({"p": ""}) as folder:
        left_out, notes = noted_by_program(stand, folder, texts)
        passed_on = left_out | {at for at, note in notes.items() if note[2] == LOCALE}
        messages = refused_by_visudo(folder, ["#" if at in passed_on else text for at, text in enumerate(texts)])
    problems = []
    for at, line in enumerate(lines):
        problems += line_problems(line, types.get(line.name, ""), notes.get(at), messages.get(at))
    stand.tally.note(f"{PART}: {name}, beside visudo", problems)
    return Counter(lines=len(lines), refused=len(set(notes) & set(messages)), left_out=len(left_out))


def run_sweep(stand):
    """Each parameter of the table, and some that are not there, in each form."""
    known = parameters()
    names = [parameter.name for parameter in known]
    stand.tally.note(f"{PART}: names of the table", difference("count", (PARAMETER_COUNT,) * 2, (len(names), len(set(names)))))
    types, counts = {parameter.name: parameter.takes for parameter in known}, Counter()
    for name in (*names, *OTHER_NAMES):
        counts += compare_lines(stand, name, list(forms_of(name)), types)
    print(f"{PART}: sweep, {dict(counts)}")


# What values of a type are made of.
DIGITS = (*"0123456789", "00", "-", "+", " ", ".", "2147483647", "4294967295", "x")
UNITS = (*"0123456789dhmsDHMS", "1d", "1h", "30m", "5s", " ", "-", "+", ".", "24855d", "2147483647")
LIMITS = (*"0123456789", ",", "infinity", "user", "default", "18446744073709551615", "-", " ")
PATHS = (*"/~*.a", " ", "-", "//", "..")
ALPHABETS = {
    "Integer": DIGITS,
    "Unsigned": DIGITS,
    "Mode": (*"01234567", "0", "00", "8", "-", "+", " "),
    "Minutes": (*"0123456789", ".", ".", "-", "+", " ", "15372286728091293", "m"),
    "Time": UNITS,
    "ResourceLimit": LIMITS,
    "Path": PATHS,
    "PathOrStar": PATHS,
}
RANDOM_LINES = 3_000
FEWEST_OF_EACH = 500


def random_line(draw, known):
    """Returns a line with one of the parameters and a random value of what its type is made of."""
    parameter = draw.choice(known)
    value = "".join(draw.choice(ALPHABETS[parameter.takes]) for _ in range(draw.choice((1, 1, 2, 2, 3, 4, 6, 9))))
    if re.search(r"[ ,]", value) or draw.random() < 0.2:
        value = f'"{value}"'
    return line_of("", parameter.name, draw.choice(("=",) * 19 + ("+=",)), value)


def run_random(stand):
    """Random values of the types that do not take each value."""
    by_type, draw, counts = {}, random.Random(SEED), Counter()
    for parameter in parameters():
        by_type.setdefault(parameter.takes, []).append(parameter)
    for first in range(0, RANDOM_LINES, LINES_OF_FILE):
        lines = [random_line(draw, by_type[draw.choice(tuple(ALPHABETS))]) for _ in range(LINES_OF_FILE)]
        types = {parameter.name: takes for takes, some in by_type.items() for parameter in some}
        counts += compare_lines(stand, f"random values from {first}", lines, types)
    taken = counts["lines"] - counts["refused"] - counts["left_out"]
    is_enough = min(taken, counts["refused"]) >= FEWEST_OF_EACH
    stand.tally.note(f"{PART}: random values", [] if is_enough else [f"too few are taken or refused: {counts}"])
    print(f"{PART}: random values, {dict(counts)}")


# ---- memory and time -------------------------------------------------------------------


def run_refused_growths(program, tally):
    """Each growth of memory is refused: the whole output comes, or the error and no part of it."""
    several = {"main": "Defaults umask=9, fqdn=1, mailto+=x\n@include inc\nDefaults umask\n", "inc": "Defaults sudoers_locale=xx"}
    last = f"Defaults umask: needs a value, or ! before it: {MODE}\n"
    unknown = {"main": "Defaults fqdn=1, env_rest\n"}
    inputs = (
        ("--for sudo main", several, last, 0),
        ("-s --for sudo --skipped --root . main", several, last, 1),
        ("-q -s --for sudo main", several, "", 1),
        ("--for sudo main", unknown, f"{UNKNOWN}; did you mean env_reset?\n", 0),
        ("--for sudo main", {"main": "+a h = () /a [^b] \\-c\n"}, f"{ARGUMENT_ESCAPE}\n", 0),
        ("-s --for sudo-rs main", {"main": "Defaults nosuch\n+a h = () list\n"}, "no command list\n", 1),
    )

    def check(library):
        for words, tree, end, status in inputs:
            with Folder(tree) as folder:
                wanted = Wanted(None, status=status, stdout_has=(end.encode(),))
                case = Case(f"check {words}, {len(tree)} files", ("check", *words.split()), b"", wanted, folder=folder)
                refuse_growths(Devices(program, library, tally), case, wanted)

    with_library(tally, check)


LARGEST, LONGEST_LINE, WORST_SECONDS = 1_000_000, 65_000, 20
HEAD = "Defaults "


def letters_of_number(number, size):
    """Returns so many letters that spell a number: other ones for each."""
    return "".join(chr(ord("a") + number // 26**at % 26) for at in range(size))


def worst_policy(size):
    """Returns a policy of as many unknown names of a size as fit into its lines, and the notes on it."""
    in_line = (LONGEST_LINE - len(HEAD) + 1) // (size + 1)
    text, notes = "", []
    for number in range(1, LARGEST // (len(HEAD) + in_line * (size + 1)) + 1):
        names = [letters_of_number((number * in_line + at) * 7 if size > 1 else 0, size) for at in range(in_line)]
        text += HEAD + ",".join(names) + "\n"
        notes += [refused(f"{number}:{len(HEAD) + 1 + at * (size + 1)}", name, UNKNOWN) for at, name in enumerate(names)]
    return text, notes


def run_worst(stand):
    """Policies of as many unknown names as fit are noted in time."""
    for size in (1, 15):
        text, notes = worst_policy(size)
        with Folder({"main": text}) as folder:
            came = stand.run("check --for sudo main", folder, seconds=WORST_SECONDS)
        problems = Wanted((REPORT + "".join(notes)).encode()).problems(came)
        stand.tally.note(f"{PART}: {len(notes)} unknown names of {size} bytes", problems)


# A program, what a line begins and ends with, a form between, and how many notes there are on it.
WORST_FORMS = (
    ("sudo", "", "+a,", "b h = ALL\n", 1),
    ("sudo", "b h[^1],", "h\\*,127.0.0.1,", "i = ALL\n", 2),
    ("sudo", "b h = ", '(A:B) /a [^b] ""\\\\ \\-c,() /b "",', "ALL\n", 7),
    ("sudo", "Defaults ", "!!!root_sudo,", "fqdn\n", 1),
    ("sudo-rs", "", "+a,_b,", "b h = ALL\n", 2),
    ("sudo-rs", "b h = ", "/[a][b\t[,list,", "ALL\n", 3),
    ("sudo-rs", "Defaults ", "!!fqdn,", "fqdn\n", 1),
)


def run_worst_forms(stand):
    """Policies of as many forms as fit are noted in time."""
    for target, begin, one, end, in_form in WORST_FORMS:
        count = (LONGEST_LINE - len(begin) - len(end)) // len(one)
        lines = LARGEST // LONGEST_LINE
        with Folder({"main": (begin + one * count + end) * lines}) as folder:
            came = stand.run(f"check --for {target} main", folder, seconds=WORST_SECONDS)
        notes = came.stdout.count(b": answered otherwise by ") + came.stdout.count(b": refused by ")
        problems = difference("status", 0, came.status) + difference("enough notes", True, notes >= in_form * count * lines)
        stand.tally.note(f"{PART}: {count * lines} times {one}, {target}", problems)


def run_all(program, tally):
    """Runs all of it."""
    stand = Stand(PART, program, tally)
    run_rows(stand)
    run_page(stand)
    run_page_of_answers(stand, PART)
    run_sudo_rs(stand)
    run_words(stand)
    if visudo():
        run_rows_by_visudo(stand)
        run_sweep(stand)
        run_random(stand)
    else:
        tally.skip(f"{PART}: beside visudo", f"visudo of sudo {SUDO.decode()} is not installed")
    run_refused_growths(program, tally)
    run_worst(stand)
    run_worst_forms(stand)
