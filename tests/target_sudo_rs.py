"""Rows of policies with forms that visudo of sudo-rs 0.2.5 refuses, and their notes: targets.py runs them.

What visudo-rs does with these policies was tried by hand: no test runs it. Where a row has no note, it reads the policy.
"""

from program import Wanted
from stand import Folder
from target_rows import REPORT, Row, form

REFUSED = "refused by visudo-rs -c"
SHA = "sha224:d14a028c2a3a2bc9476102bb288234c415a2b01f828ea62ac5b3e42f"
NETGROUP = "no netgroups"
GROUP_SIGN = "% among groups; write the name alone"
QUOTED_NAME = "no quotes among hosts and groups"
QUOTED_USER = "a quoted name with a quote, a tab or a line end, or that begins with another byte than a letter, a digit and ! ( ) , - . : = \\"
NAME_BYTE = "another byte than a letter, a digit, - . and _ in a name, or _ before it; write it in quotes"
HOST_BYTE = "another byte than a letter, a digit, - . and _ in a host; no networks and wildcards"
LIST_COMMAND, EDITOR, DIGEST = "no command list", "no sudoedit in a rule", "no digests"
OPTION, TAG = "no options but CWD", "no NOEXEC and INTERCEPT"
ESCAPE = "an escape of another byte than , : = # a backslash and a space"
OPEN_SET = "a [ in a path that no ] closes"
ARGUMENT_GAP = "a tab or a continuation before an argument; write a space"
FOLDER = "takes a folder without quotes and wildcards that begins with / or ~, or *"
TWO_MARKS = "two ! before a parameter; write none"
RETURN = "CR before a line end; write LF alone"


def row(name, text, *notes):
    """Returns the row of this policy with these notes, each a place and words."""
    return Row(name, text, tuple(form(place, words, REFUSED) for place, words in notes))


NAMES = (
    row("netgroups", 'User_Alias A = +a\nHost_Alias H = +b\nDefaults:+c fqdn\n"+d", A H = (+e : +f) ALL\n', *((place, NETGROUP) for place in ("1:16", "2:16", "3:10", "4:1", "4:14", "4:19"))),
    row("groups", "%a, %:b, %#5, #5 h = (%c : d, #5, %e) ALL\n", ("1:35", GROUP_SIGN)),
    row("quoted hosts and groups", 'Host_Alias H = "h"\nDefaults@"h" fqdn\nbob H, "h" = (a : "b c") ALL\n', *((place, QUOTED_NAME) for place in ("1:16", "2:10", "3:8", "3:19"))),
    row("quoted users", '"b c", "!b", "%:$ b", "#5", "%#5", "b\\\\", "b\\x41", "%b c" h = ("d e") ALL\nDefaults:"b c" fqdn\n'),
    row("quoted users with other bytes", '"b\tc", "_b", "%_b", "b\\"c", "$", " b", "#b", "b\\\n c" h = ALL\n', *((f"1:{at}", QUOTED_USER) for at in (1, 8, 14, 21, 29, 34, 40, 46))),
    row("users", "b-.c_1, -b, .b, 1b, b\\,\\:\\=\\!\\\"\\(\\)\\\\, %b.c, %:b_c, B h = (b.c : b_c) ALL\n".replace("B h", "bB h")),
    row("users with other bytes", "b$, b@c, b\\ c, _b, %_b, %:b\\@, b\\x41 h = (b/c : _d) ALL\nDefaults:b* fqdn\nUser_Alias A = b~\n".replace("User_Alias A = b~\n", "User_Alias A = b~\nA h = ALL\n"), *((place, NAME_BYTE) for place in ("1:1", "1:5", "1:10", "1:16", "1:20", "1:25", "1:32", "1:43", "1:49", "2:10", "3:16"))),
    row("hosts", "bob h-1.x_y, 10.0.0.1, _h, .h = ALL\nDefaults@h-1 fqdn\nHost_Alias H = h1\nbob H = ALL\n"),
    row("hosts with other bytes", "bob h*, 10.0.0.0/8, h\\,, h[1], %h = ALL\nDefaults@h? fqdn\nHost_Alias H = h@i\nbob H = ALL\n", *((place, HOST_BYTE) for place in ("1:5", "1:9", "1:21", "1:26", "1:32", "2:10", "3:16"))),
)
COMMANDS = (
    row("list", "Cmnd_Alias A = list\nbob h = !list, A : i = NOPASSWD: list\nDefaults!list fqdn\n", *((place, LIST_COMMAND) for place in ("1:16", "2:10", "2:34", "3:10"))),
    row("names like commands", "list sudoedit = (list) /a list, /list, /usr/bin/sudoedit\n"),
    row("sudoedit in rules", "bob h = sudoedit, (a) sudoedit /b, ALL : i = NOPASSWD: sudoedit\n", ("1:9", EDITOR), ("1:23", EDITOR), ("1:56", EDITOR)),
    row("sudoedit elsewhere", "Cmnd_Alias A = sudoedit, sudoedit /a\nbob h = ALL, !sudoedit, !!sudoedit, ! sudoedit, A\nDefaults!sudoedit fqdn\n"),
    row("digests", f"Cmnd_Alias A = {SHA} /a\nbob h = {SHA}, {SHA} ALL, A\n", ("1:23", DIGEST), ("2:16", DIGEST), ("2:81", DIGEST)),
    row("options", "bob h = TIMEOUT=5 ALL, CHROOT=/a ALL, ROLE=a TYPE=b ALL, NOTBEFORE=20300101120000Z ALL, NOTAFTER=20300101120000Z ALL, CWD=/a PRIVS=a ALL\n", *((f"1:{at}", OPTION) for at in (9, 24, 39, 46, 58, 89, 126))),
    row("tags", "bob h = NOEXEC: ALL, NOPASSWD: INTERCEPT: ALL\nbob h = EXEC: NOINTERCEPT: LOG_INPUT: MAIL: SETENV: NOFOLLOW: PASSWD: ALL\n", ("1:9", TAG), ("1:32", TAG)),
    row("escapes", "bob h = /a\\,\\:\\=\\#\\ \\\\b c\\,\\:\\=\\#\\ \\\\d\nCmnd_Alias A = /b\\ c\nbob h = A\nDefaults!/a\\,b fqdn\n"),
    row("other escapes", "bob h = /a\\*, /b \\-c d\\*, /c \"\\\"\", /d\\\te\nCmnd_Alias A = /b\\!\nbob h = A\n", *((place, ESCAPE) for place in ("1:9", "1:18", "1:22", "1:30", "1:36", "2:16"))),
    row("sets that are closed", "bob h = /[a], /[]a], /[!]], /[^], /[a[], /], /[\\,]/b [c\n"),
    row("sets that are not closed", "bob h = /[a, !/[], /[!], /[a]b[, /[!a\n", *((f"1:{at}", OPEN_SET) for at in (9, 15, 20, 26, 34))),
    row("gaps before arguments", "bob h = /a\tb, /c d\te, /f \\\n g, /h\\\ni, /j k\\\nl\n", *((place, ARGUMENT_GAP) for place in ("1:12", "1:20", "2:2", "3:1", "4:1"))),
    row("gaps elsewhere", "bob\th\t=\t/a  b\t,\t/c \\\n, /d e \\\n# f\n"),
    row("folders", "bob h = CWD=/a ALL, CWD=* ALL, CWD=~ ALL, CWD=~b/c ALL, CWD=/a\\ b?[\\\\ ALL\n"),
    row("folders that are none", 'bob h = CWD=a ALL, CWD="/a" ALL, CWD=/a* ALL, CWD=** ALL, CWD=/a\\#b ALL, CWD=\\/a ALL\n', *((f"1:{at}", FOLDER) for at in (13, 24, 38, 51, 63, 78))),
)
LINES = (
    row("two marks before a parameter", "Defaults !!fqdn, ! !env_reset, !use_pty\n", ("1:11", TWO_MARKS), ("1:20", TWO_MARKS)),
    row("two marks before members", "!!bob !!h = (!!a : !!b) !!ALL\nDefaults:!!bob !fqdn\n"),
    row("CR at line ends", "bob h = ALL\r\nDefaults fqdn\r\nbob h, \\\r\n i = ALL \r\n", *((place, RETURN) for place in ("1:9", "2:10", "4:2", "4:6"))),
    row("CR behind comments", "# x\r\nbob h = ALL # x\r\n"),
    row("comments that begin with a number", "bob h = ALL #1\n#-1 x\n"),
    row("a form behind one that begins a comment", 'bob h = /a "x #y" \\-l, list\n'),
    Row("forms and parameters in their order", "Defaults !!insults, fqdn\n+a h = list\n", (form("1:11", TWO_MARKS, REFUSED), f"main:1:12: {REFUSED}: Defaults insults: unknown name\n", form("2:1", NETGROUP, REFUSED), form("2:8", LIST_COMMAND, REFUSED))),
)
SUDO_RS = NAMES + COMMANDS + LINES


def run_sudo_rs(stand):
    """Runs all rows with `--for sudo-rs`, without and with -s."""
    for one in SUDO_RS:
        printed = (REPORT + "".join(one.notes)).encode()
        with Folder(one.tree()) as folder:
            stand.note(one.name, "check --for sudo-rs main", Wanted(printed), folder)
            stand.note(one.name, "check -s --for sudo-rs main", Wanted(printed, status=1 if one.notes else 0), folder)
