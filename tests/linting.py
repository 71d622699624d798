"""Warns of rules that give away more than they seem to, with `check --lint`.

A row of a table has a text in which `<1>`, `<2>` mark places, and what is found there: the number of a mark, a rule and a subject. Then
comments silence rules. The page docs/linting.md has the words of each rule and two tables of names: these are those of the code, and the
program finds each name. Large inputs take little time. Growths of memory are refused. Each case is run again with `--json` (json_lines.py).
"""

import os
import re
from dataclasses import dataclass

from cases import Case
from comparing import without_marks
from explaining import stand_in
from json_lines import SpellingStand
from preload import with_library
from program import NAME, Answer, Wanted, fault
from stand import Folder
from tally import difference

PART = "linting"
TOP = os.path.dirname(os.path.dirname(os.path.abspath(__file__)))
PAGE = os.path.join(TOP, "docs", "linting.md")
SOURCES = os.path.join(TOP, "crates", "sudoers_lint", "src")

# The rules in their order, each with what is said where it is broken.
WORDS = {
    "everyone": "every user may run it",
    "all-but": "who is left out of ALL by name can come under another name",
    "nopasswd-any": "any command without a password",
    "deny-list": "a copy of it under another name is still allowed",
    "environment": "the user may set variables that change what runs",
    "way-out": "it can start any other program",
}


@dataclass(frozen=True)
class Linted:
    """A policy, and what is found in it: the number of a mark, a rule and a subject."""

    name: str
    text: str
    found: tuple = ()


DIGEST = "sha224:" + "0" * 56
EVERYONE = (
    Linted("all users", "ALL ALL=<1>/bin/a\n", ((1, "everyone", "/bin/a"),)),
    Linted("all users behind others", "ann, ALL ALL=<1>/bin/a, <2>/bin/b\n", ((1, "everyone", "/bin/a"), (2, "everyone", "/bin/b"))),
    Linted("all users in an alias", "User_Alias E=ann, F : F=ALL\nE ALL=<1>/bin/a\n", ((1, "everyone", "/bin/a"),)),
    Linted("all users, negated twice", "!!ALL ALL=<1>/bin/a\n", ((1, "everyone", "/bin/a"),)),
    Linted("all users by a negated alias", "User_Alias N=!ALL\n!N ALL=<1>/bin/a\n", ((1, "everyone", "/bin/a"),)),
    Linted("no user", "!ALL ALL=/bin/a\n"),
    Linted("a user", "ann, %all, +all ALL=/bin/a\n"),
    Linted("a denial for all users", "ALL ALL=!/bin/a\n"),
    Linted("an alias of commands", "Cmnd_Alias RUN=/bin/a, !/bin/b, /bin/c x\nALL ALL=<1>RUN\n", ((1, "everyone", "/bin/a"), (1, "everyone", "/bin/c x"))),
    Linted("on a host", "ALL h1=<1>/bin/a : h2=<2>list\n", ((1, "everyone", "/bin/a"), (2, "everyone", "list"))),
)
ALL_BUT = (
    Linted("all users but one", "ALL, !bob ALL=<1>/bin/a\n", ((1, "everyone", "/bin/a"), (1, "all-but", "/bin/a"))),
    Linted("one user left out before all", "!bob, ALL ALL=<1>/bin/a\n", ((1, "everyone", "/bin/a"), (1, "all-but", "/bin/a"))),
    Linted("all runas users but one", "ann ALL=(ALL, !root) <1>/bin/a\n", ((1, "all-but", "/bin/a"),)),
    Linted("so for the next command", "ann ALL=(ALL, !root) <1>/bin/a, <2>/bin/b, (root) /bin/c\n", ((1, "all-but", "/bin/a"), (2, "all-but", "/bin/b"))),
    Linted("so in an alias", "Runas_Alias R=ALL, !#0\nann ALL=(R : adm) <1>/bin/a\n", ((1, "all-but", "/bin/a"),)),
    Linted("all runas groups but one", "ann ALL=(root : ALL, !adm) /bin/a, (: ALL, !adm) /bin/a\n"),
    Linted("all runas users", "ann ALL=(ALL) /bin/a, (ALL : ALL) /bin/a, (!root) /bin/a\n"),
    Linted("a denial", "ann ALL=(ALL, !root) !/bin/a\n"),
    Linted("once of both lists", "ALL, !bob ALL=(ALL, !root) <1>/bin/a\n", ((1, "everyone", "/bin/a"), (1, "all-but", "/bin/a"))),
)
NOPASSWD_ANY = (
    Linted("any command without a password", "ann ALL=NOPASSWD: <1>ALL\n", ((1, "nopasswd-any", "ALL"),)),
    Linted("the tag of a command before it", "ann ALL=NOPASSWD: /bin/a, <1>ALL\n", ((1, "nopasswd-any", "ALL"),)),
    Linted("in an alias", "Cmnd_Alias RUN=/bin/a, ALL\nann ALL=NOPASSWD: <1>RUN\n", ((1, "nopasswd-any", "ALL"),)),
    Linted("a command without a password", "ann ALL=NOPASSWD: /bin/a, PASSWD: ALL\n"),
    Linted("any command with a password", "ann ALL=ALL\nann ALL=PASSWD: ALL\n"),
    Linted("a digest", f"ann ALL=NOPASSWD: {DIGEST} ALL\n"),
    Linted("any command denied", "ann ALL=NOPASSWD: !ALL\n"),
)
DENY_LIST = (
    Linted("a denial behind all", "ann ALL=ALL, <1>!/bin/su\n", ((1, "deny-list", "!/bin/su"),)),
    Linted("two denials", "ann ALL=ALL, <1>!/bin/su -, /bin/a, <2>!sudoedit\n", ((1, "deny-list", "!/bin/su -"), (2, "deny-list", "!sudoedit"))),
    Linted("an alias that is denied", "Cmnd_Alias SH=/bin/sh, /bin/vi\nann ALL=ALL, <1>!SH\n", ((1, "deny-list", "!/bin/sh"), (1, "deny-list", "!/bin/vi"))),
    Linted("an alias that denies", "Cmnd_Alias RUN=ALL, !/bin/su\nann ALL=<1>RUN\n", ((1, "deny-list", "!/bin/su"),)),
    Linted("the same hosts again", "ann h1, h2=ALL : h1, h2=<1>!/bin/su\n", ((1, "deny-list", "!/bin/su"),)),
    Linted("the same hosts in an alias", "Host_Alias H=h1, h2\nann H=ALL : h1, h2=<1>!/bin/su\n", ((1, "deny-list", "!/bin/su"),)),
    Linted("other hosts", "ann h1=ALL : h2=!/bin/su\n"),
    Linted("other hosts between", "ann h1=ALL : h2=ALL, <1>!/bin/su : h1=!/bin/su\n", ((1, "deny-list", "!/bin/su"),)),
    Linted("another line", "ann ALL=ALL\nann ALL=!/bin/su\n"),
    Linted("a denial before all", "ann ALL=!/bin/su, ALL\n"),
    Linted("all is denied", "ann ALL=ALL, !ALL\n"),
    Linted("all is denied before", "ann ALL=!ALL, !/bin/su\n"),
    Linted("a digest of all", f"ann ALL={DIGEST} ALL, !/bin/su\n"),
    Linted("a digest of the denied command", f"ann ALL=ALL, <1>{DIGEST} !/bin/su\n", ((1, "deny-list", f"{DIGEST} !/bin/su"),)),
    Linted("another Runas_Spec", "ann ALL=(root) ALL, (bob) <1>!/bin/su\n", ((1, "deny-list", "!/bin/su"),)),
    Linted("a continuation", "ann ALL=ALL, \\\n  <1>!/bin/su\n", ((1, "deny-list", "!/bin/su"),)),
)
ENVIRONMENT = (
    Linted("a tag", "ann ALL=SETENV: <1>/bin/a, <2>/bin/b, NOSETENV: /bin/c\n", ((1, "environment", "/bin/a"), (2, "environment", "/bin/b"))),
    Linted("a denial", "ann ALL=SETENV: !/bin/a\n"),
    Linted("all implies it", "ann ALL=ALL\n"),
    Linted("setenv", "Defaults <1>setenv\nDefaults !setenv\n", ((1, "environment", "setenv"),)),
    Linted("env_reset", "Defaults env_reset\nDefaults !!env_reset\n"),
    Linted("no env_reset", "Defaults <1>!env_reset\n", ((1, "environment", "!env_reset"),)),
    Linted("negated thrice", "Defaults  !use_pty,<1>! ! !env_reset\n", ((1, "environment", "!env_reset"),)),
    Linted("negated twice", "Defaults <1>!!setenv\n", ((1, "environment", "setenv"),)),
    Linted("a scope", "Defaults:ann use_pty, <1>setenv, <2>!env_reset\n", ((1, "environment", "setenv"), (2, "environment", "!env_reset"))),
    Linted("a scope that is negated", "Defaults@!h1, h2 <1>!env_reset\n", ((1, "environment", "!env_reset"),)),
    Linted("a scope of commands", "Defaults!/bin/a <1>!env_reset\nDefaults!/bin/a <2>setenv\n", ((1, "environment", "!env_reset"), (2, "environment", "setenv"))),
    Linted("a scope of the same name", "Defaults:setenv use_pty, <1>setenv\n", ((1, "environment", "setenv"),)),
    Linted("a value with a sign before it", 'Defaults secure_path=!setenv, <1>setenv, secure_path="!a, setenv", <2>setenv\n', ((1, "environment", "setenv"), (2, "environment", "setenv"))),
    Linted("a sign before a continuation", "Defaults use_pty, <1>!\\\n env_reset, \\\n\t<2>setenv\n", ((1, "environment", "!env_reset"), (2, "environment", "setenv"))),
    Linted("behind blanks", " \tDefaults \t <1>setenv\t,  <2>! env_reset\n", ((1, "environment", "setenv"), (2, "environment", "!env_reset"))),
    Linted("env_keep", "Defaults <1>env_keep=PATH\n", ((1, "environment", "env_keep=PATH"),)),
    Linted("env_keep with more", 'Defaults <1>env_keep += "EDITOR HOME  LANG"\n', ((1, "environment", 'env_keep+="EDITOR HOME  LANG"'),)),
    Linted("a tab", 'Defaults <1>env_keep="EDITOR\tHOME"\n', ((1, "environment", "env_keep=EDITOR\\\tHOME"),)),
    Linted("env_keep with less", "Defaults env_keep-=PATH, !env_keep\n"),
    Linted("other variables", 'Defaults env_keep="LANG LC_* PATHX XPATH path PAT PA_* *PATH"\n'),
    Linted("a pattern of the table", "Defaults <1>env_keep=LD_PRELOAD\n", ((1, "environment", "env_keep=LD_PRELOAD"),)),
    Linted("a pattern of the policy", 'Defaults <1>env_keep="PYTHON*"\n', ((1, "environment", 'env_keep="PYTHON*"'),)),
    Linted("a pattern of both", 'Defaults <1>env_keep="LD*"\n', ((1, "environment", 'env_keep="LD*"'),)),
    Linted("any variable", 'Defaults <1>env_keep="*"\n', ((1, "environment", 'env_keep="*"'),)),
    Linted("other parameters", "Defaults env_check=PATH, env_delete=PATH, secure_path=/bin\n"),
)
WAY_OUT = (
    Linted("an editor", "ann ALL=<1>/usr/bin/vim, <2>/vim\n", ((1, "way-out", "/usr/bin/vim"), (2, "way-out", "/vim"))),
    Linted("arguments", 'ann ALL=/usr/bin/vim a, /usr/bin/vim ""\n'),
    Linted("NOEXEC", "ann ALL=NOEXEC: /usr/bin/vim, /usr/bin/less, EXEC: <1>/usr/bin/less\n", ((1, "way-out", "/usr/bin/less"),)),
    Linted("a denial", "ann ALL=!/usr/bin/vim\n"),
    Linted("another name", "ann ALL=/usr/bin/vimx, /usr/bin/vim/a, /usr/bin/Vim, /usr/bin/vi*\n"),
    Linted("a folder", "ann ALL=/usr/bin/vim/\n"),
    Linted("no path", "ann ALL=sudoedit, list\n"),
    Linted("a digest", f"ann ALL={DIGEST} <1>/usr/bin/vim\n".replace(f"{DIGEST} <1>", f"<1>{DIGEST} "), ((1, "way-out", f"{DIGEST} /usr/bin/vim"),)),
)
ROOT = (
    Linted("root", "root ALL=(ALL, !bob) NOPASSWD: SETENV: ALL, !/bin/su, /bin/vi\n"),
    Linted("root by number", "#0 ALL=(ALL, !bob) NOPASSWD: SETENV: ALL, !/bin/su, /bin/vi\n"),
    Linted("root and none else", "root, #0, !bob ALL=NOPASSWD: ALL\n!bob ALL=NOPASSWD: ALL\n"),
    Linted("root in an alias", "User_Alias A=root\nA ALL=NOPASSWD: ALL\n"),
    Linted("root and another", "root, ann ALL=NOPASSWD: <1>ALL\n", ((1, "nopasswd-any", "ALL"),)),
    Linted("the group root", "%root ALL=NOPASSWD: <1>ALL\n%#0 ALL=NOPASSWD: <2>ALL\n", ((1, "nopasswd-any", "ALL"), (2, "nopasswd-any", "ALL"))),
    Linted("root before another", "root ALL=ALL\nann ALL=ALL, <1>!/bin/su\n", ((1, "deny-list", "!/bin/su"),)),
)
ORDER = (
    Linted(
        "all rules of a row, and then Defaults",
        "Defaults <4>setenv\nALL, !bob ALL=(ALL, !root) NOPASSWD: SETENV: <1>ALL, <2>!/bin/a, <3>/bin/vi\n",
        (
            *((1, rule, "ALL") for rule in ("everyone", "all-but", "nopasswd-any", "environment")),
            (2, "deny-list", "!/bin/a"),
            *((3, rule, "/bin/vi") for rule in ("everyone", "all-but", "environment", "way-out")),
            (4, "environment", "setenv"),
        ),
    ),
    Linted("nothing", "# lint\nann ALL=/bin/a\nDefaults use_pty\n"),
)
ONE = "ALL ALL=<1>/bin/a"
FOUND = ((1, "everyone", "/bin/a"),)
SILENCED = (
    Linted("at the end of the line", ONE + " # lint: allow everyone\n"),
    Linted("without blanks", ONE + " #lint: allow everyone\n"),
    Linted("with tabs and commas", ONE + " #\tlint:\tallow,\tway-out,,everyone,\n"),
    Linted("a reason behind it", ONE + " # lint: allow everyone -- it prints the date\n"),
    Linted("a reason before it", ONE + " # lint: allow this everyone\n", FOUND),
    Linted("another rule", ONE + " # lint: allow way-out all-but deny-list environment nopasswd-any\n", FOUND),
    Linted("no rule", ONE + " # lint: allow\n", FOUND),
    Linted("another word", ONE + " # lint: deny everyone\n", FOUND),
    Linted("no blank behind the colon", ONE + " # lint:allow everyone\n", FOUND),
    Linted("a word before it", ONE + " # so lint: allow everyone\n", FOUND),
    Linted("two marks", ONE + " ## lint: allow everyone\n", FOUND),
    Linted("in capitals", ONE + " # Lint: allow everyone\n", FOUND),
    Linted("in quotes", '"# lint: allow everyone", ' + ONE + "\n", FOUND),
    Linted("behind a backslash", ONE + " \\# lint\\: allow everyone\n", ((1, "everyone", "/bin/a \\# lint\\: allow everyone"),)),
    Linted("no LF", ONE + " # lint: allow everyone"),
    Linted("CR LF", ONE + " # lint: allow everyone\r\n"),
    Linted("CR LF of the line before it", "# lint: allow everyone\r\n" + ONE + "\r\n"),
    Linted("before a continuation", "ALL ALL=<1>/bin/a, \\\n<2>/bin/b # lint: allow everyone\n"),
    Linted("one rule of two", "ALL ALL=<1>/bin/vi # lint: allow everyone\n", ((1, "way-out", "/bin/vi"),)),
    Linted("the line before it", "# lint: allow everyone\n" + ONE + "\n"),
    Linted("blanks before it", "  # lint: allow everyone\n" + ONE + "\n"),
    Linted("both", "# lint: allow everyone\nALL ALL=/bin/vi # lint: allow way-out\n"),
    Linted("two lines before it", "# lint: allow everyone\n# why\n" + ONE + "\n", FOUND),
    Linted("a blank line", "# lint: allow everyone\n\n" + ONE + "\n", FOUND),
    Linted("the end of the line before it", "ann ALL=/bin/a # lint: allow everyone\n" + ONE + "\n", FOUND),
    Linted("the line behind it", ONE + "\n# lint: allow everyone\n", FOUND),
    Linted("the next line but one", "# lint: allow everyone\nALL ALL=/bin/a\n" + ONE + "\n", FOUND),
    Linted("parameters", "Defaults setenv, !env_reset # lint: allow environment\n# lint: allow environment\nDefaults env_keep=PATH\n"),
    Linted("another rule of parameters", "Defaults <1>setenv # lint: allow everyone\n", ((1, "environment", "setenv"),)),
)
TABLES = (EVERYONE, ALL_BUT, NOPASSWD_ANY, DENY_LIST, ENVIRONMENT, WAY_OUT, ROOT, ORDER, SILENCED)


def lint_line(place, rule, subject):
    """Returns the line on what is found."""
    return f"{place}: warning: {rule}: {subject}: {WORDS[rule]}\n"


def run_linted(stand, row):
    """Runs one row: with its lines, with -s, and with -q."""
    places = {}
    text = without_marks("main", row.text, places)
    lines = "".join(lint_line(places[mark], rule, subject) for mark, rule, subject in row.found)
    status = 1 if lines else 0
    with Folder({"main": text}) as folder:
        alone = stand.run("check main", folder).stdout
        stand.note(row.name, "check --lint main", Wanted(alone + lines.encode()), folder)
        strict = stand.run("check -s main", folder)
        if strict.status == 0:
            stand.note(row.name, "check -s --lint main", Wanted(strict.stdout + lines.encode(), status=status), folder)
            stand.note(row.name, "check -q -s --lint main", Wanted(b"", status=status), folder)


# ---- the page ----------------------------------------------------------------------------


def names_in_code(file, table):
    """Returns the names of a table of the code."""
    with open(os.path.join(SOURCES, file), encoding="utf-8") as code:
        body = code.read().partition(f"pub const {table}: ")[2].partition("= [")[2].partition("];")[0]
    return re.findall(r'b"([^"]+)",', body)


def names_on_page(page, table):
    """Returns the names of a table of the page."""
    return page.partition(f"<!-- {table} of ")[2].partition("-->")[2].partition("\n\n")[2].partition("\n\n")[0].split()


def run_page(stand):
    """The words and the names of the page are those of the program."""
    with open(PAGE, encoding="utf-8") as file:
        page = file.read()
    rows = re.findall(r"^\| `([a-z-]+)` \| .* \| `([^`]*)` \| [^|]* \|$", page, re.MULTILINE)
    stand.tally.note(f"{PART}: rules of the page", difference("rules", list(WORDS.items()), rows))
    for file, table, line, fewest in (
        ("programs.rt", "PROGRAMS", "ann ALL=/x/{}\n", 90),
        ("variables.rt", "VARIABLES", 'Defaults env_keep="X {}"\n', 30),
    ):
        names = names_in_code(file, table)
        stand.tally.note(f"{PART}: {table} of the page", difference("names", names, names_on_page(page, table)))
        stand.tally.note(f"{PART}: {table} are sorted", difference("names", sorted(set(names)), names))
        stand.tally.note(f"{PART}: {table} are many", difference("enough", True, len(names) >= fewest))
        with Folder({"main": "".join(line.format(name) for name in names)}) as folder:
            came = stand.run("check --lint main", folder)
            stand.tally.note(f"{PART}: {table} are found", difference("warnings", len(names), came.stdout.count(b": warning: ")))


# ---- files, errors and limits ------------------------------------------------------------

TREES = {
    "main": "@include a\nALL ALL=/bin/b\n@include b\nDefaults !env_reset\n",
    "a": "Defaults setenv\nALL ALL=/bin/a\n# lint: allow everyone\n",
    "b": "ALL ALL=/bin/c\n",
    "before": "# lint: allow everyone\n@include b\n",
    "kept": "ALL ALL=/bin/a # lint: allow everyone\n",
    "cycle": "User_Alias A=B : B=A\nA ALL=/bin/a\n",
    "idle": "User_Alias A=B : B=A\nALL ALL=/bin/a\n",
    "wrong": "ALL ALL\n",
    "faulty": "ALL ALL=RUN\n",
    "dialect": "ALL ALL=/bin/a x=y\n",
    "useless": "ALL ALL=/bin/a\nALL ALL=/bin/a\nDefaults nosuch, setenv\n",
}
OF_MAIN = (("main:2:9", "everyone", "/bin/b"), ("b:1:9", "everyone", "/bin/c"))


def run_files(stand):
    """Policies of several files; then what is wrong."""
    a_line, b_line = lint_line("a:2:9", "everyone", "/bin/a"), lint_line("b:1:9", "everyone", "/bin/c")
    defaults = lint_line("a:1:10", "environment", "setenv") + lint_line("main:4:10", "environment", "!env_reset")
    main = "main: parsed OK\n" + a_line + "".join(lint_line(*one) for one in OF_MAIN) + defaults
    with Folder(TREES) as folder:
        stand.note("included files", "check --lint main", Wanted(main.encode()), folder)
        stand.note("a comment before an include", "check --lint before", Wanted(("before: parsed OK\n" + b_line).encode()), folder)
        both = f"kept: parsed OK\nb: parsed OK\n{b_line}"
        stand.note("two policies", "check --lint kept b", Wanted(both.encode()), folder)
        stand.note("two policies", "check -s --lint b kept", Wanted(f"b: parsed OK\n{b_line}kept: parsed OK\n".encode(), status=1), folder)
        stand.note("all is silenced", "check -s --lint kept", Wanted(b"kept: parsed OK\n"), folder)
        wanted = Wanted(f"-: parsed OK\n{lint_line('-:1:9', 'everyone', '/bin/a')}".encode())
        stand.note("standard input", "check --lint -", wanted, folder, b"ALL ALL=/bin/a\n")
        wanted = Wanted(b"dialect: parsed OK\n" + lint_line("dialect:1:9", "everyone", "/bin/a x\\=y").encode())
        stand.note("the dialect", "check --lint --dialect sudo dialect", wanted, folder)
        stand.note("faults", "check --lint faulty", Wanted(None, status=0, stdout_has=(b"undefined Cmnd_Alias RUN\n", b": warning: everyone: RUN: ")), folder)
        stand.note("faults", "check -s --lint faulty", Wanted(None, status=1, stdout_has=(b": warning: everyone: RUN: ",)), folder)
        order = re.compile(rb"useless:3:10: .*\n(?:.*\n)*useless:1:9: useless /bin/a: useless:2:9 decides\nuseless:1:9: warning: everyone")
        came = stand.run("check --lint --overruled --for sudo --installed useless", folder)
        stand.tally.note(f"{PART}: the order of the notes", difference("order", True, bool(order.search(came.stdout))))
        idle = lint_line("idle:2:9", "everyone", "/bin/a").encode()
        stand.note("a cycle that is not reached", "check --lint idle", Wanted(None, stdout_has=(idle,)), folder)
        told = {"stdout_has": (b"cycle: parsed OK\n",), "stderr_has": (b"sudoers_tool: Cycle\n",)}
        stand.note("a cycle", "check --lint cycle", Wanted(None, None, 3, **told), folder)
        stand.note("a cycle", "check --lint --error-status 7 cycle", Wanted(None, None, 7, **told), folder)
        stand.note("a policy with an error", "check --lint --plain wrong", Wanted(b"wrong:1:8: syntax error: EndOfLine\n", status=1), folder)
        stand.note("no file", "check --lint --plain none", fault("NoRoot", 3), folder)
        stand.note("wrong words", "check --lint --for sudo --json main", Wanted(b"", None, 2, stderr_has=(b"cannot be used with",)), folder)


MEMBER_LIMIT = 65_536
WORST_SECONDS = 10


def line_of(begin, pieces, count, end):
    """Returns a line that begins so, has this many pieces, and ends so."""
    return begin + ",".join([pieces] * count) + end


def worst_policies():
    """Yields the name of a large policy, its text, and how many lines it has; None where there are too many."""
    hosts = "Host_Alias H=" + ",".join(f"h{number}" for number in range(9_000)) + "\n"
    users = "User_Alias U=" + ",".join(f"u{number}" for number in range(9_000)) + "\n"
    denied = line_of("ALL,", "!/a", 16_000, "\n")
    yield "denials for many hosts", hosts + f"ann H={denied}" * 7, 7 * 16_000
    yield "denials for many users", users + f"U ALL={denied}" * 7, 7 * 16_000
    yield "a long comment", line_of("ALL ALL=/bin/vi # lint: allow ", "everyone", 7_000, "\n") * 16, 16
    yield "comments before lines", "# lint: allow everyone\nALL ALL=/vi\n" * 25_000, 25_000
    yield "long lists of variables", 'Defaults env_keep="' + "LC_A " * 13_000 + '"\n' + 'Defaults env_keep="PATH"\n', 1
    yield "many parameters", ("Defaults " + "setenv," * 9_000 + "setenv\n") * 10, 10 * 9_001
    yield "rules that break none", "".join(f"u{number} ALL=/bin/a{number}\n" for number in range(40_000)), 0
    yield "too many lines", line_of("ALL ALL=SETENV:", "/a", 21_000, "\n") * 15, None
    yield "too long commands", "Cmnd_Alias C=/" + "a" * 60_000 + "\n" + line_of("ALL ALL=", "C", 20_000, "\n"), None


def run_limits(stand):
    """Large policies take little time; their lines are counted. At most 65,536 members come in the place of aliases."""
    for name, text, count in worst_policies():
        with Folder({"main": text}) as folder:
            came = stand.run("check --lint main", folder, seconds=WORST_SECONDS)
            stand.note_documents(name, "check --lint main", came, folder, seconds=WORST_SECONDS)
            if count is None:
                told = {"stdout_has": (b"main: parsed OK\n",), "stderr_has": (b"sudoers_tool: TooLarge\n",)}
                stand.tally.note(f"{PART}: {name}", Wanted(None, None, 3, **told).problems(came))
            else:
                stand.tally.note(f"{PART}: {name}", difference("status", 0, came.status) + difference("lines", count, came.stdout.count(b": warning: ")))
    users = "User_Alias U=" + ",".join(f"u{number}" for number in range(4096)) + "\n"
    more = 4095
    for name, count, is_read in (("as many members as there may be", MEMBER_LIMIT // more, True), ("too many members", MEMBER_LIMIT // more + 1, False)):
        text = users + "U ALL=/bin/vi\n" * count
        with Folder({"main": text}) as folder:
            wanted = Wanted(None, None, 0 if is_read else 3, stderr_has=() if is_read else (b"TooLarge\n",))
            stand.note(name, "check --lint main", wanted, folder, seconds=WORST_SECONDS)


# ---- refused growths of memory ---------------------------------------------------------------

ERROR_STATUS = 3
GROWN = {
    "main": "@include inc\nDefaults:OPS env_keep += \"PATH X\", setenv, !env_reset\nOPS ALL=(ALL, !R) RUN, !/bin/b # lint: allow all-but\n# lint: allow way-out\nALL ALL=NOPASSWD: ALL\n",
    "inc": "User_Alias OPS=ann, NIGHT : NIGHT=eve\nRunas_Alias R=root\nCmnd_Alias RUN=/bin/vi, !/bin/b, ALL\n",
    "cycle": "User_Alias A=B : B=A\nA ALL=/bin/a\n",
}
REPORT_END = b"parsed OK\n"
GROWTHS = ("check --lint --plain main", "check --lint --plain cycle")


def run_growths(stand):
    """If a growth is refused, the answer comes, or the error of memory: behind the report, or alone.

    Before the command line is read, the program does not know the command, and the error of memory has the status 1.
    """

    def check(library):
        for words in GROWTHS:
            with Folder(GROWN) as folder:
                ample = stand.run(words, folder)
                report = b"".join(ample.stdout.partition(REPORT_END)[:2])
                refused = Answer(report, NAME + b"NoMemory\n", ERROR_STATUS)
                told = (b"", refused.stderr)
                failed = {Answer(out, text, status) for out in (b"", report) for text in told for status in (1, ERROR_STATUS)}
                allowed = {ample, *failed}
                case = Case(words, tuple(words.split(" ")), b"", stand_in(ample), folder=folder)
                came = set()
                for refusal in ("refuse_growth", "refuse_from"):
                    for number, (answer, _) in enumerate(library.run_each(stand.program, case, refusal), 1):
                        stand.tally.note(f"{PART}: {words}, {refusal} {number}", [] if answer in allowed else [f"came {answer}"])
                        came.add(answer)
                stand.tally.note(f"{PART}: {words}, answers", [] if {ample, refused} <= came else [f"came only {came}"])

    with_library(stand.tally, check)


def run_all(program, tally):
    """Runs all of it."""
    stand = SpellingStand(PART, program, tally)
    for table in TABLES:
        for row in table:
            run_linted(stand, row)
    run_page(stand)
    run_files(stand)
    run_limits(stand)
    run_growths(stand)
