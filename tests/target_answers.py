"""Rows of policies with forms for which sudo answers a request otherwise than this program, and their notes: targets.py runs them.

Each row of the tables of docs/differences.md about answers is looked at too. Where its column `Note` says `yes`, the program has a note on its
policy, and elsewhere none.
"""

from documents import ANSWERS, read_document
from stand import Folder
from tally import difference
from target_rows import OTHERWISE, PATH_QUOTE, Row, form, refused

PAGE = "docs/differences.md"
# The number of rows on the page with a note, and how many there are at least without.
FEWEST_NOTED, FEWEST_OTHERS = 30, 15
OTHER_ANSWER = "answered otherwise by sudo"

ALIAS_BESIDE_GROUP = "with -g no alias before : matches; write its members"
USER_BESIDE_GROUP = "with -g alone a user may run it as himself"
GROUP_ALONE = "without -g the user may not run it as himself"
GROUP_ALIAS = "no alias behind : matches; write its members"
EMPTY_RUNAS = "without -u the user runs it as himself"
NO_MASK_BITS = "a mask of 0 bits matches no host; write ALL"
LOOPBACK = "an address of the loopback matches no host; write the name of the host"
QUOTED_WILDCARD = "a wildcard in quotes is one; write it without quotes"
ESCAPED_WILDCARD = "an escaped wildcard of a host is one; write it without a backslash"
HOST_ESCAPE = "\\x in a host is an escape; write the byte"
SET_IN_HOST = "[^ begins a set of other bytes; write [\\!"
SET_IN_ARGUMENT = "[^ begins a set of other bytes; write [!"
TWO_BACKSLASHES = "two backslashes escape the byte behind them; write ? for a backslash"
EMPTY_ARGUMENT = "one empty argument does not match"
QUOTED_ESCAPE = "\\x in quotes is no escape; write the byte"
DIGEST = "a digest is compared with the file, and matches nothing here"
NETGROUP = "a netgroup has members, and matches nothing here"
NON_UNIX_GROUP = "a group of a plugin has members, and matches nothing here"
CASE_OF_USERS = "names of users are compared with their case"
CASE_OF_GROUPS = "names of groups are compared with their case"
TERMINAL = "nothing is allowed without a terminal"
SHELL = "a target needs a shell of /etc/shells"
OTHER_ROOT = "commands are looked for below another root"
ROOT_USER = "root may run nothing"
GROUP_NUMBERS = "groups are compared by their numbers"
OTHER_TARGET = "another target holds where none is asked for"
SHA = "sha224:d14a028c2a3a2bc9476102bb288234c415a2b01f828ea62ac5b3e42f"


def answers(name, text, *notes):
    """Returns the row of this policy with these notes, each a place and words."""
    return Row(name, text, tuple(form(place, words, OTHER_ANSWER) for place, words in notes))


RUNAS = (
    answers("an alias of users beside groups", "Runas_Alias OP = oper\nbob h = (OP : adm) ALL, (a, !OP, ALL : adm) ALL\n", ("2:13", ALIAS_BESIDE_GROUP), ("2:38", ALIAS_BESIDE_GROUP)),
    answers("an alias of users without groups", "Runas_Alias OP = oper\nbob h = (OP) ALL, (!OP, a) ALL\n"),
    answers("users beside groups", 'bob h = (a : adm) ALL, ("ALL", #5, %g : ALL) ALL\n', ("1:12", USER_BESIDE_GROUP), ("1:39", USER_BESIDE_GROUP)),
    answers("all users beside groups", "bob h = (ALL : adm) ALL, (a, ALL, b : adm) ALL, (ALL, !a : ALL) ALL\n"),
    answers("users of one Runas_Spec and groups of another", "Runas_Alias OP = oper\nbob h = (OP, ALL) ALL, (a : b) ALL : i = (: c) ALL\n", ("2:27", USER_BESIDE_GROUP), ("2:43", GROUP_ALONE)),
    answers("groups alone", "bob h = (: a) ALL, ( :b, c) ALL\n", ("1:10", GROUP_ALONE), ("1:22", GROUP_ALONE)),
    answers("an alias of groups", 'Runas_Alias A = b\nbob h = (ALL : A, c, !A, "A") ALL\n', ("2:16", GROUP_ALIAS), ("2:23", GROUP_ALIAS)),
    answers("all groups, and groups with escapes", "bob h = (ALL : ALL, \\A, a, #5) ALL\n"),
    answers("an empty Runas_Spec", "bob h = () ALL, ( ) ALL, (\\\n) ALL\n", ("1:10", EMPTY_RUNAS), ("1:19", EMPTY_RUNAS), ("2:1", EMPTY_RUNAS)),
    answers("marks elsewhere", "bob h = NOPASSWD: ALL : i = /a (), /b c), (a) ALL\n"),
)
HOSTS = (
    answers("networks of 0 bits", "Host_Alias H = 0.0.0.0/0, !10.0.0.0/0\nbob H, 127.0.0.1/0 = ALL\n", ("1:16", NO_MASK_BITS), ("1:28", NO_MASK_BITS), ("2:8", NO_MASK_BITS)),
    answers("other networks", "bob 0.0.0.0/0.0.0.0, 10.0.0.0/10, 10.0.0.0, h0 = ALL\n"),
    answers("the loopback", "Host_Alias H = 127.1.2.3, !127.0.0.0/8, 127.0.0.0/255.0.0.0\nbob H = ALL\n", ("1:16", LOOPBACK), ("1:28", LOOPBACK), ("1:41", LOOPBACK)),
    answers("hosts like the loopback", 'bob 127.0.0, 127.x, "127.0.0.1", 128.0.0.1 = ALL\n'),
    answers("quoted wildcards", 'Host_Alias H = "h*", !"h?", "h[1]"\nbob H = ALL\n', ("1:16", QUOTED_WILDCARD), ("1:23", QUOTED_WILDCARD), ("1:29", QUOTED_WILDCARD)),
    answers("quoted users, and quoted hosts without wildcards", '"b*" "h]" = (ALL : "d*") ALL, ("c*") ALL\n'),
    answers("escaped wildcards", "bob h\\*, !h\\?, h\\[1], h\\\\1 = ALL\n", *((f"1:{at}", ESCAPED_WILDCARD) for at in (5, 11, 16, 23))),
    answers("wildcards, and other escapes of hosts", "bob h*, h?, h[12], h[\\!3], h\\,, h\\ i = ALL\n"),
    answers("users with escaped wildcards", "b\\*, b\\? h = (c\\*) ALL, (ALL : d\\*) ALL\n"),
    answers("escaped bytes of hosts", "bob h\\x31, h\\x4 = ALL\n", ("1:5", HOST_ESCAPE)),
    answers("sets of other bytes", "Host_Alias H = h[^2], !h[1][^3]\nbob H = ALL\n", ("1:16", SET_IN_HOST), ("1:24", SET_IN_HOST)),
    answers("sets that are none of other bytes", "bob h[2^], h^, h[!1] = ALL\n".replace("!", "\\!")),
    answers("users with sets", "b[^c] h = (d[^e]) ALL\n"),
)
NAMES = (
    answers("netgroups", 'User_Alias A = +a, !+b\nHost_Alias H = +c\nRunas_Alias R = "+d"\n+e, A h, !+f, H = (+g, R) ALL\n', *((place, NETGROUP) for place in ("1:16", "1:21", "2:16", "3:17", "4:1", "4:11", "4:20"))),
    answers("names like netgroups", '\\+a, b+c "\\+h" = (\\+d) /+e +f\nDefaults:+a fqdn\nDefaults@+h fqdn\n'),
    answers("non-Unix groups", 'User_Alias A = %:a, !%:b\n%:#5, "%:c d", A h = (%:e) ALL\n', *((place, NON_UNIX_GROUP) for place in ("1:16", "1:22", "2:1", "2:7", "2:23"))),
    answers("groups of the system", "%a, %#5, \"%b\" h = (%c) ALL\nDefaults:%:a fqdn\n"),
    answers("escapes in quoted names", 'User_Alias A = "\\x41"\nA, "%a\\x62" h = (!"\\x41", ALL : "\\x62") ALL\n', *((place, QUOTED_ESCAPE) for place in ("1:16", "2:4", "2:19", "2:33"))),
    answers("escapes in other names", 'b\\x6fb, "\\xg1", "x41" "\\x41" = ROLE="\\x41" ALL\nDefaults:"\\x41" mailsub="\\x41"\n'),
)
COMMANDS = (
    answers("digests", f"Cmnd_Alias A = {SHA} /a\nbob h = !A, {SHA} !/b, {SHA}, {SHA} ALL\n", *((place, DIGEST) for place in ("1:23", "2:20", "2:89", "2:154"))),
    answers("two backslashes", 'bob h = /a b\\\\c, sudoedit \\\\, /b "x\\\\y", /c \\\\\\\\\n', ("1:12", TWO_BACKSLASHES), ("1:27", TWO_BACKSLASHES), ("1:34", TWO_BACKSLASHES), ("1:45", TWO_BACKSLASHES)),
    answers("one backslash", "bob h = /a b\\,c\\ \\*, /b\\,\\ c\n"),
    answers("one empty argument", 'bob h = /a "", sudoedit "" : i = /b \\\n "" # x\nbob h = /c ""\\\n\n', ("1:12", EMPTY_ARGUMENT), ("1:25", EMPTY_ARGUMENT), ("2:2", EMPTY_ARGUMENT), ("3:12", EMPTY_ARGUMENT)),
    answers("more than one empty argument", 'bob h = /a "" b, /b c "", /c "" \\\n "", /d " "\n'),
    answers("sets of other bytes in arguments", 'bob h = /a [^b], sudoedit x[^y, /b "[^c]" d\n', ("1:12", SET_IN_ARGUMENT), ("1:27", SET_IN_ARGUMENT), ("1:36", SET_IN_ARGUMENT)),
    answers("sets in paths, and others in arguments", "bob h = /a[^b], /c [!d] [e^] \\[^ f^\n"),
    Row("quotes in paths", 'bob h = /a"x", !/b"y"\n', (form("1:9", PATH_QUOTE, OTHERWISE), form("1:17", PATH_QUOTE, OTHERWISE))),
)
DEFAULTS = (
    answers("case of names", "Defaults !case_insensitive_user\nDefaults:bob ! case_insensitive_group\n", ("1:11", CASE_OF_USERS), ("2:16", CASE_OF_GROUPS)),
    answers("parameters that are on", "Defaults requiretty, runas_check_shell,!!match_group_by_gid, runchroot=/a\n", ("1:10", TERMINAL), ("1:22", SHELL), ("1:42", GROUP_NUMBERS), ("1:62", OTHER_ROOT)),
    answers("root", "Defaults@h fqdn, !!!root_sudo, mailsub=x\n", ("1:21", ROOT_USER)),
    answers("parameters that are off, or on by default", "Defaults !requiretty, ! runas_check_shell, !!!match_group_by_gid, !runchroot, case_insensitive_user, !!case_insensitive_group, root_sudo\n"),
    answers("targets of targets and commands", "Defaults>root runas_default=a\nDefaults!/a,/b fqdn, runas_default=b\n", ("1:15", OTHER_TARGET), ("2:22", OTHER_TARGET)),
    answers("targets of all, users and hosts", "Defaults runas_default=a\nDefaults:requiretty runas_default=b\nDefaults@requiretty runas_default=c\nDefaults mailsub=requiretty\n"),
)
ORDER = (
    Row("answers, forms and parameters in their order", "Defaults requiretty, nosuch\n+a, \"\\x41\" %b = /c\\* [^d] \\-e #1\nbob h = () ALL\n", (form("1:10", TERMINAL, OTHER_ANSWER), refused("1:22", "nosuch", "unknown name"), form("2:1", NETGROUP, OTHER_ANSWER), form("2:5", QUOTED_ESCAPE, OTHER_ANSWER), form("2:12", "a name with % or +, which may not stand here"), form("2:17", "an escape in a path of another byte than , : = # and blanks"), form("2:22", SET_IN_ARGUMENT, OTHER_ANSWER), form("2:27", "an escape in arguments of another byte than , : = # * ? [ ] ! ^, a backslash and blanks"), form("2:31", "# and a number are a user ID; write a blank behind #"), form("3:10", EMPTY_RUNAS, OTHER_ANSWER))),
    Row("a refused form, of which no answer is asked", f'bob h = {SHA}a /a\n"\\x41\\\\" h = ALL\n', (form("1:16", "a digest of a wrong length"), form("2:1", "a backslash before the closing quote"))),
    Row("a form behind one that begins a comment", 'bob h = /a "x #y" [^d], () /b\n', (form("1:12", "# in quotes begins a comment; write a backslash before it", OTHERWISE),)),
    Row("files in their order", {"main": "+a h = ALL\n@include inc\n+b h = ALL\n", "inc": "\n+c h = ALL\n"}, (form("1:1", NETGROUP, OTHER_ANSWER), f"inc:2:1: {OTHER_ANSWER}: {NETGROUP}\n", form("3:1", NETGROUP, OTHER_ANSWER))),
    answers("a policy without these forms", "User_Alias A = bob, %adm\nHost_Alias H = h1, 10.0.0.0/8\nRunas_Alias R = root\nCmnd_Alias C = /bin/ls -l, /usr/bin/\nDefaults env_reset, !lecture\nDefaults:A !insults\nA H = (R) NOPASSWD: C, sudoedit /etc/motd : i = (ALL : ALL) ALL\n"),
)
OTHER_ANSWERS = RUNAS + HOSTS + NAMES + COMMANDS + DEFAULTS + ORDER


def run_page_of_answers(stand, part):
    """The policies of the tables about answers have a note where the page says so, and nowhere else."""
    rows = [one for one in read_document(PAGE).rows if one.command == "list" and one.note]
    noted = 0
    for one in rows:
        with Folder({"policy": one.policy}) as folder:
            came = stand.run("check --for sudo policy", folder)
        has_note = f": {OTHER_ANSWER}: ".encode() in came.stdout or f": {OTHERWISE}: ".encode() in came.stdout
        noted += has_note
        problems = difference("note", one.note == "yes", has_note)
        if one.note == "report":
            problems += [] if b": cyclic User_Alias " in came.stdout else ["no report names the alias"]
        stand.tally.note(f"{part}: {PAGE}:{one.line}, {ANSWERS}", problems)
    is_enough = noted >= FEWEST_NOTED and len(rows) - noted >= FEWEST_OTHERS
    stand.tally.note(f"{part}: answers of {PAGE}", [] if is_enough else [f"{noted} of {len(rows)} rows have a note"])
