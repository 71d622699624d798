"""Rows of policies with forms that visudo of sudo 1.9.13 refuses, and with their notes: targets.py runs them."""

from dataclasses import dataclass

REPORT = "main: parsed OK\n"
LOCALE = "the machine may not have this locale"
TIME = "a time below 2147483648 seconds, as 90 or 1h30m"
LONGEST_PATH = 4095
SLASHES = "/" + "a" * (LONGEST_PATH - 1)


@dataclass(frozen=True)
class Row:
    """The file `main` or several files, the notes that are wanted, and the lines of the report on undefined names."""

    name: str
    files: object
    notes: tuple = ()
    undefined: str = ""

    def tree(self):
        """Returns the files by their names."""
        return self.files if isinstance(self.files, dict) else {"main": self.files}

    def report(self, is_strict):
        """Returns the report before the notes, with or without -s."""
        return self.undefined + ("main: faults found\n" if is_strict and self.undefined else REPORT)

    def is_refused(self):
        """Returns whether a note says that visudo refuses something."""
        return any(": refused by visudo -c: " in note for note in self.notes)

    def is_read(self):
        """Returns whether no note says that sudo may refuse or read something otherwise."""
        return all(": answered otherwise by sudo: " in note for note in self.notes)

    def is_decided(self):
        """Returns whether a note or the report counts with -s."""
        return self.is_refused() or bool(self.undefined) or any(": read otherwise by sudo: " in note for note in self.notes)


def refused(place, name, words):
    """Returns the note on a parameter that stands at this place, in `main` if it names no other file."""
    file = "" if place.count(":") == 2 else "main:"
    finding = "not decided" if words == LOCALE else "refused by visudo -c"
    return f"{file}{place}: {finding}: Defaults {name}: {words}\n"


def form(place, words, finding="refused by visudo -c"):
    """Returns the note on a form that stands at this place of `main`."""
    return f"main:{place}: {finding}: {words}\n"


NUMBERED = "# and a number are a user ID; write a blank behind #"
ARGUMENT_ESCAPE = "an escape in arguments of another byte than , : = # * ? [ ] ! ^, a backslash and blanks"
HASH = "# in quotes begins a comment; write a backslash before it"
PATH_ESCAPE = "an escape in a path of another byte than , : = # and blanks"
DIGEST = "a digest of a wrong length"
EDITOR = "sudoedit with a path; write sudoedit alone"
SLASH = "a name that begins with /; write it in quotes"
WORD = "> without a backslash in a word, or a tab with one"
RETURN = "CR LF directly behind a command; write LF"
ENDED = "a backslash before the closing quote"
WORD_RETURN = "a backslash and CR LF directly behind a word; write LF"
RESERVED = "a word that begins a command; write it in quotes"
OPTION = "an option among names; a tag before it may be misspelt"
GROUP = "a name with % or +, which may not stand here"
BARE_SIGN = "% or + without a name"
ADDRESS = "an address as a user or a group; write it in quotes"
REGEX = "a name that is a regular expression; write it in quotes"
FOLDER = "takes a folder without quotes that begins with / or ~, or *"
NO_NAME = "a value that is no name; write it in quotes"
NOT_BUILT = "an option that sudo of Debian does not have"
TAG_LINE = "a continuation before the : of a tag"
TAG_NAME = "a tag and : among names"
MARKS = "something between two !; write them together"
FIRST = "a continuation before the first word"
SCOPE = "a blank or a continuation that ends the scope; write the scope without it"
SCOPE_END = "no blank behind Defaults or its scope"
BROKEN = "#- or CR behind #; write a blank behind #"
LONG = "a path of more than 4095 bytes"
PATH_ARGUMENTS = "an escape in a path that begins the arguments"
PATH_QUOTE = "a quote in a path is a byte of it; write a blank before it"
LINE_BLANK = "a backslash and blanks at a line end continue the line"
OTHERWISE = "read otherwise by sudo"
LINE_WORD = "a name that begins a line of Defaults, aliases or includes; write it in quotes"
SCOPE_QUOTE = "a quoted name that begins with a blank or a mark; write a backslash before these, without quotes"
INCLUDE_ROW = "#include begins a row; write a blank behind #"
INDENTED = "blanks before #include make it a comment; remove them"
NAME_END = "# or a backslash directly behind a name is a part of it; write a blank before it"
NAME_SPACE = "a name ends at an unusual space; write it in quotes"
NAME_ESCAPE = "\\x in quotes is no escape; write the byte"
NAME_HOST = "%h is the name of the host; write the whole name"
NAME_SIGN = "a quoted name that begins with % or +; write it without quotes"
SIZES = (("sha224", 56, 40, 38), ("sha256", 64, 44, 43), ("sha384", 96, 64, 64), ("sha512", 128, 88, 86))


def rows_of_digests():
    """Rows of digests of the right sizes, and of one byte more and less."""
    for kind, digits, padded, bare in SIZES:
        right = ("a" * digits, "g" * (padded - 1) + "=", "g" * bare)
        yield Row(f"{kind}, right sizes", "".join(f"bob ALL = {kind}:{digest} /bin/a\n" for digest in right))
        for digest in (*("a" * (digits + by) for by in (-1, 1)), *("g" * (bare + by) for by in (-1, 1)), "g" * padded + "="):
            yield Row(f"{kind}, {len(digest)} bytes, the last {digest[-1]}", f"bob ALL = {kind} : {digest} /bin/a\n", (form(f"1:{14 + len(kind)}", DIGEST),))


TOKENS = (
    Row("a number behind a command", "bob ALL = ALL #1\n", (form("1:15", NUMBERED),)),
    Row("a number below zero behind arguments", "bob ALL = /bin/a -l #-1\n", (form("1:21", NUMBERED),)),
    Row("a number behind Defaults", "Defaults fqdn #1\n", (form("1:15", NUMBERED),)),
    Row("a number behind an alias", "User_Alias A = bob #1\nA ALL = ALL\n", (form("1:20", NUMBERED),)),
    Row("a blank behind #", "bob ALL = ALL # 1\nbob ALL = ALL #- 1\nbob ALL = ALL #x1\n# 1\n"),
    Row("a user of a number below zero", "#-5 ALL = ALL\n", (form("1:1", "#- and a digit are a user ID; write a blank behind #", OTHERWISE),)),
    Row("an escaped letter in arguments", "bob ALL = /bin/a \\-l\n", (form("1:18", ARGUMENT_ESCAPE),)),
    Row("each escape of arguments", "bob ALL = /bin/a \\, \\: \\= \\# \\  \\\\ \\* \\? \\[ \\] \\! \\^ x\n"),
    Row("# in quotes", 'bob ALL = /bin/a "x #y", /bin/b\nbob ALL = /bin/a "x \\#y"\n', (form("1:18", HASH, OTHERWISE),)),
    Row("an escaped wildcard in a path", "bob ALL = /bin/l\\*\n", (form("1:11", PATH_ESCAPE),)),
    Row("each escape of a path", "bob ALL = /bin/\\,\\:\\=\\#\\ x\n"),
    Row("the path of the root", "bob ALL = /, /bin/\n", (form("1:11", "the command /"),)),
    Row("the editor with a path", "bob ALL = /usr/bin/sudoedit /a, /sudoeditor, sudoedit /a\n", (form("1:11", EDITOR),)),
    Row("> in a name", "a>b ALL = ALL\na\\>b ALL = ALL\n", (form("1:1", WORD),)),
    Row("an escaped tab in a name", "a\\\tb ALL = ALL\n", (form("1:1", WORD),)),
    Row("a name that begins with /", '/b ALL = (/c) ALL\n"/b" ALL = ("/c") ALL\n', (form("1:1", SLASH), form("1:11", SLASH))),
    Row("a name that is no path", "/ ALL = ALL\n/a\\>b ALL = ALL\n"),
    Row("folders as values", "bob ALL = CWD=/a CHROOT = /b ALL\n"),
    Row("a path as a role", "bob ALL = ROLE=/x ALL\n", (form("1:16", SLASH),)),
    Row("CR LF behind a path", "bob ALL = /bin/a\r\n", (form("1:11", RETURN),)),
    Row("CR LF behind blanks and arguments", "bob ALL = /bin/a -l \r\n", (form("1:18", RETURN),)),
    Row("CR LF behind sudoedit", "bob ALL = sudoedit\r\n", (form("1:11", RETURN),)),
    Row("CR LF behind a folder, ALL and a comment", "bob ALL = /bin/\r\nbob ALL = ALL\r\nbob ALL = /bin/a # x\r\n\r\n"),
    Row("a backslash at the end of quotes", 'Defaults mailsub="x\\\\"\n', (form("1:18", ENDED),)),
    Row("a backslash at the end of a quoted name", '"x\\\\" ALL = ALL\n', (form("1:1", ENDED),)),
    Row("an escaped quote at the end of quotes", 'Defaults mailsub="x\\""\n'),
    *rows_of_digests(),
)

NAMES = (
    Row("words of sudo as users", "sudoedit ALL = ALL\nsha256, sha512 h = ALL\n", (form("1:1", RESERVED), form("2:1", RESERVED), form("2:9", RESERVED))),
    Row("words of sudo as hosts", "Host_Alias A = ROLE\nbob sudoedit, A, \"CWD\" = ALL\n", (form("1:16", OPTION), form("2:5", RESERVED)), "main:1:16: undefined Host_Alias ROLE\n"),
    Row("an option behind a misspelt tag", "bob h = (root) NOPASWD: CWD=/tmp ALL\n", (form("1:25", OPTION),), "main:1:16: undefined Cmnd_Alias NOPASWD\nmain:1:25: undefined Host_Alias CWD\n"),
    Row("words of sudo as runas users and groups", "bob ALL = (sha224 : sudoedit) ALL\n", (form("1:12", RESERVED), form("1:21", RESERVED))),
    Row("options as users and as hosts", "CWD TYPE = ALL\n", (form("1:1", OPTION), form("1:5", OPTION)), "main:1:1: undefined User_Alias CWD\nmain:1:5: undefined Host_Alias TYPE\n"),
    Row("a tag and : in a Runas_Spec", "bob h = (EXEC:adm) ALL\n", (form("1:14", TAG_NAME),), "main:1:10: undefined Runas_Alias EXEC\n"),
    Row("words of sudo in a scope", "Defaults:bob, sudoedit fqdn\n", (form("1:15", RESERVED),)),
    Row("words of sudo in quotes", '"sudoedit" "CWD" = ("sha224") ALL\nsudoedit2, sha h = (mail) ALL\n'),
    Row("sudoedit as a host before CR LF", "Host_Alias A = sudoedit\r\nbob A = ALL\n", (form("1:16", RESERVED),)),
    Row("groups among hosts", 'bob %a, !%:b, "%c" = ALL\n', (form("1:5", GROUP), form("1:10", GROUP), form("1:15", GROUP))),
    Row("groups in aliases and scopes of hosts", "Host_Alias A = %h\nDefaults@%h fqdn\nbob A = ALL\n", (form("1:16", GROUP), form("2:10", GROUP))),
    Row("groups and netgroups among groups", "bob ALL = (a : %b, +c) ALL\n", (form("1:16", GROUP), form("1:20", GROUP))),
    Row("groups and netgroups where they may stand", "%a, +b, %:c, %#5, A +d, B = (%e, +f : g) ALL\nUser_Alias A = %a, +b\nHost_Alias B = +d\nDefaults>%a fqdn\n"),
    Row("signs alone", 'bob %, "+" = ALL\n', (form("1:5", BARE_SIGN), form("1:8", BARE_SIGN))),
    Row("addresses as users", "10.0.0.1, 1.2.3.04/8 h = (10.0.0.0/255.0.0.0) ALL\n", (form("1:1", ADDRESS), form("1:11", ADDRESS), form("1:27", ADDRESS))),
    Row("an address as a group and in an alias", "User_Alias A = !10.0.0.1/32\nA h = (a : 1.1.1.1) ALL\n", (form("1:17", ADDRESS), form("2:12", ADDRESS))),
    Row("addresses where they may stand, and words like them", '"10.0.0.1", 10.0.0, 10.0.0.256, 1.1.1.1/33, 1.1.1.1/08 10.0.0.1, 10.0.0.0/8 = ALL\n'),
    Row("a regular expression as a name", "^b$ h = ALL\n^b, b h = ALL\n", (form("1:1", REGEX),)),
    Row("a tag in quotes and : among names", "User_Alias A = bob, \"MAIL\" : B = eve\nA, B ALL = (ALL, !\\EXEC:adm) ALL\n"),
)
OPTIONS = (
    Row("folders that are none", 'bob ALL = CWD=tmp CHROOT="/x" ALL, CWD="" ALL\n', (form("1:15", FOLDER), form("1:26", FOLDER), form("1:40", FOLDER))),
    Row("folders", "bob ALL = CWD=/a>b CHROOT=~x/y ALL, CWD=* /a, CWD=/a\\\tb ALL, CWD=~/a\\*b ALL, CWD=\\/a ALL, CWD=\\* ALL\n"),
    Row("a folder with > that is no path", "bob ALL = CWD=~/a>b ALL\n", (form("1:15", FOLDER),)),
    Row("a folder that is an address", "bob ALL = CWD=10.0.0.1 ALL\n", (form("1:15", FOLDER),)),
    Row("times", 'bob ALL = TIMEOUT=90 ALL, TIMEOUT="1h 30m" ALL, TIMEOUT=1d ALL\n'),
    Row("times with backslashes", "bob ALL = TIMEOUT=1h\\ 30m ALL, TIMEOUT=1\\h ALL, TIMEOUT=\\x31h ALL, TIMEOUT=\\ 1h\\ +3m ALL\n"),
    Row("times with backslashes that are none", 'bob ALL = TIMEOUT=1h\\ x ALL, TIMEOUT="1\\h" ALL, TIMEOUT="\\x31h" ALL\n', tuple(form(f"1:{at}", f"takes {TIME}") for at in (19, 38, 57))),
    Row("times that are none", 'bob ALL = TIMEOUT=abc ALL, TIMEOUT="1m1h" ALL, TIMEOUT=+5 ALL\n', (form("1:19", f"takes {TIME}"), form("1:36", f"takes {TIME}"), form("1:56", NO_NAME))),
    Row("values that are no names", 'bob ALL = ROLE=X TYPE=%a ALL, ROLE=1.1.1.1 TYPE="" ALL, ROLE=sha224 TYPE="+a" ALL\n', tuple(form(f"1:{at}", NO_NAME) for at in (16, 23, 36, 49, 62, 74))),
    Row("values that are names", 'bob ALL = ROLE=x TYPE="X" ALL, ROLE=\\%x TYPE="10.0.0.1" ALL\n'),
    Row("options that sudo was built without", "bob ALL = APPARMOR_PROFILE=a ALL, PRIVS=a ALL, LIMITPRIVS=a ALL\n", tuple(form(f"1:{at}", NOT_BUILT) for at in (11, 35, 48))),
)
GAPS = (
    Row("CR LF behind words", "bob\\\r\n h = ALL\\\r\n, /a\\\r\n b\r\n", (form("1:1", WORD_RETURN), form("2:6", WORD_RETURN), form("3:3", WORD_RETURN), form("4:2", RETURN))),
    Row("CR LF behind a tag, an ID and a quoted name", '#5, "x"\\\r\n h = EXEC:\\\r\n ALL, /a!b\\\r\n c\n'),
    Row("CR LF behind the last word of an alias", "User_Alias A = bob\\\r\n\nA h = ALL\n", (form("1:16", WORD_RETURN, OTHERWISE),)),
    Row("marks apart", "bob, ! !eve h = ALL, ! \\\n !!! /a\nDefaults ! !fqdn\n", (form("1:6", MARKS), form("1:22", MARKS), form("3:10", MARKS))),
    Row("marks apart of which sudo drops some", "bob, ! !!eve, !! ! !! dan h = ALL\n"),
    Row("a continuation before the first word", "\\\n Defaults fqdn\n\\\nUser_Alias A = bob\nA h = ALL\n", (form("2:2", FIRST), form("4:1", FIRST))),
    Row("a continuation before a rule", "\\\n bob h = ALL\n"),
    Row("a continuation before the : of a tag", "bob h = NOPASSWD\\\n: ALL, sha224 \\\n : d14a028c2a3a2bc9476102bb288234c415a2b01f828ea62ac5b3e42f /a\n", (form("2:1", TAG_LINE),)),
    Row("a tag as an argument", "bob h = /a NOPASSWD\\\n : i = ALL\n"),
    Row("a blank behind ! in a scope", "Defaults:! bob fqdn\nDefaults!/a, ! /b fqdn\n", (form("1:12", SCOPE), form("2:16", SCOPE))),
    Row("continuations in a scope", "Defaults:bob, \\\n eve fqdn\nDefaults:bob \\\n, eve fqdn\nDefaults:\\\nbob fqdn\n", (form("2:2", SCOPE), form("4:1", SCOPE), form("6:1", SCOPE))),
    Row("continuations in a scope that sudo reads", "Defaults: bob , \\\neve\\\n, !dan \\\n fqdn\n"),
    Row("blanks and ! behind the sign of a scope", "Defaults! /a, !/b fqdn\nDefaults! !sudoedit fqdn\nDefaults: !bob fqdn\nDefaults@\\\r\nh fqdn\n"),
    Row("no blank behind a scope", 'Defaults:bob!fqdn\nDefaults:"bob"fqdn\nDefaults\\\nfqdn\n', (form("1:13", SCOPE_END), form("2:15", SCOPE_END), form("4:1", SCOPE_END))),
    Row("comments that are none", "#-\nbob h = ALL #-\r\n", (form("1:1", BROKEN), form("2:13", BROKEN))),
    Row("a number alone", "#-5\n", (form("1:1", NUMBERED),)),
)
PATHS_AND_ARGUMENTS = (
    Row("a long path", f"bob h = {SLASHES}\nbob h = {SLASHES}a\n", (form("2:9", LONG),)),
    Row("an escape of arguments in a path", "bob h = /a!\\*\n", (form("1:9", PATH_ARGUMENTS, OTHERWISE),)),
    Row("an escape of a word in a path", "bob h = /a\\!x\n", (form("1:9", PATH_ESCAPE),)),
    Row("the path / before )", "bob h = (/) ALL\n", (form("1:10", SLASH),)),
    Row("quotes behind a path", 'bob h = /a"x"\n', (form("1:9", PATH_QUOTE, OTHERWISE),)),
    Row("what follows # in quotes", 'bob h = /a "x #y" \\-l, /b\\*\n', (form("1:12", HASH, OTHERWISE),)),
    Row("a number behind # in quotes", 'bob h = /a "x #1" \\-l\n', (form("1:12", NUMBERED),)),
    Row("an escape before # in quotes", 'bob h = /a "\\-x #y"\n', (form("1:12", ARGUMENT_ESCAPE),)),
    Row("an escaped blank at the end of a line", "bob h = /a \\ \nbob h = ALL\n", (form("1:12", LINE_BLANK, OTHERWISE),)),
    Row("an escaped blank as a name at the end of a line", "User_Alias A = b, \\ \nA h = ALL\n", (form("1:19", LINE_BLANK, OTHERWISE),)),
    Row("an escaped blank before the end of a line", "bob h = /a \\  # x\nbob h = /a \\ b\nbob h = /a\\ \n"),
)
FIRST_WORDS = ("Defaults", "User_Alias", "Runas_Alias", "Host_Alias", "Cmnd_Alias", "Cmd_Alias")
# What may follow a word of these directly, so that a name begins with it.
BEHIND_FIRST_WORDS = ("x", ".x", "2", "$", "\\ x", "-", "%", "_ALIAS")


def rows_of_first_words():
    """Rows of names that begin with a first word, in rows of each beginning."""
    for word in FIRST_WORDS:
        for behind in BEHIND_FIRST_WORDS:
            name = word + behind
            text = "".join(f"{before}{name} h = ALL\n" for before in (" ", "\t", " \t ", "", "\\\n", " \\\n", "\\\n ", "bob, \\\n ", "bob, \\\n", "bob,  "))
            yield Row(f"{name} as a name", text, tuple(form(place, LINE_WORD) for place in ("1:2", "2:2", "3:4", "10:2", "12:2")))
        text = f"bob \\\n{word} = ALL\nbob, \\\n {word} h = (\\\n{word}) ALL\nbob, {word} h = /a \\\n{word} x\n"
        yield Row(f"{word} in a row of its own", text, tuple(form(place, LINE_WORD) for place in ("2:1", "4:2", "5:1")))


def included(name, main, *notes):
    """Returns the row of this file, which includes the file `web` and the folder `parts`."""
    return Row(name, {"main": main, "web": "bob h = ALL\n", "web2": "bob h = ALL\n", "parts/a": "bob h = ALL\n"}, notes)


LINES = (
    *rows_of_first_words(),
    Row("names that begin with other words", " User_Aliax h = ALL\n defaultsx h = ALL\n xDefaults h = ALL\n \\Defaults h = ALL\n \"Defaultsx\" h = ALL\n"),
    Row("first words in aliases, runas lists and values", "User_Alias A = \\\n Defaultsx\nA h = (a : \\\n User_Aliasx) ROLE=\\\nDefaults ALL\n", tuple(form(place, LINE_WORD) for place in ("2:2", "4:2", "5:1"))),
    Row("first words in scopes and parameters", "Defaults:bob,\\\nDefaults fqdn\nDefaults:bob,\\\n@include fqdn\nDefaults mailsub=\\\nDefaults, \\\n fqdn\n"),
    Row("first words in arguments and quotes", 'bob h = /a \\\n Defaultsx, /b \\\n@include web\n"b\\\n@include web", "c\\\n Defaults" h = ALL\n'),
    Row("@include as a name", "bob, @include h, @includedir = ALL\nUser_Alias A = @include\nA h = (@includedir) ALL\n", tuple(form(place, LINE_WORD) for place in ("1:6", "1:18", "2:16", "3:8"))),
    Row("names like @include", '@includex h = ALL\n @includedirs a@include = ALL\nbob "@include", \\@include, @include\\x = ALL\n'),
    Row("#include in a row of its own", "bob h = ALL \\\n#include x\nUser_Alias A = a \\\n#includedir\tx\nA h = /a/ \\\n#include x\n", tuple(form(place, INCLUDE_ROW) for place in ("2:1", "4:1", "6:1"))),
    Row("comments like #include", "bob h = ALL \\\n #include x\nbob h = ALL \\\n#include\nbob h = ALL \\\n#includex y\nbob h = ALL #include x\n"),
    Row("#include behind a command and a parameter", "bob h = /a \\\n#include x\nbob h = /a b \\\n#include x\nbob h = sudoedit \\\n#include x\nDefaults fqdn \\\n#include x\n"),
    Row("a long regular expression as a name", "^b, c$ h = ALL\nbob ^h = /a$\nbob h = (!^b : c$) ROLE=^r /b$\nUser_Alias A = ^b : B = c\\$\nA, B h = ALL\n", tuple(form(place, REGEX) for place in ("1:1", "2:5", "3:11", "3:25", "4:16"))),
    Row("names like regular expressions", "^a$b$ h = ALL\n^a$b, c$ h = ALL\n^b h = /a #$\n^b \\\n h = /a$\n^b, #5, c$ h = ALL\n%^b, a^b, c$ h = ALL\n"),
    Row("a quoted blank or mark that begins a scope", "".join(f'Defaults{before}"{name}" fqdn\n' for before in (":", "@", ">", ":!", ": ", ": !!") for name in (" b", "!b", ">b", ",b", "#b", "(b", "\tb")), tuple(form(f"{number}:9", SCOPE_QUOTE) for number in range(1, 43))),
    Row("quoted names that begin a scope", "".join(f'Defaults:{name} fqdn\n' for name in ('"b"', '"\\ b"', '"#5"', '"%b"', '"@b"', '"/b"', '"+b"', '!"b"', ' !"b"', 'a," b"', 'a,!" b"', "\\ b", "\\!b"))),
    Row("a backslash and a tab at the end of an alias", "User_Alias A = x\\\t\n\nA h = ALL\n", (form("1:16", LINE_BLANK, OTHERWISE),)),
    Row("a backslash and a tab before a comment", "User_Alias A = x\\\t # y\nA h = ALL\n", (form("1:16", WORD),)),
    Row("a continuation before the sign of a quoted name", 'bob "\\\n %a" = (b : "\\\n+c") ALL, ROLE="\\\n " ALL\n"\\\n %a" h = (b : "\\\n c") TIMEOUT="\\\n 5" ALL\n', (form("1:5", GROUP), form("2:13", GROUP), form("3:16", NO_NAME))),
)
INCLUDES = (
    included("include lines", '@include web\n#include "web2" # x\n @includedir\tparts #- 1\n'),
    included("other include lines", '\t@include"web"#x\n#include \\\nweb2 \\\n #x\n#includedir "pa\\\n rts"\\\n\n'),
    included("escapes in names of files", "@include we\\x62\n@include \\w\\e\\b2\n"),
    included("a number behind an include", "@include web #1\n", form("1:14", NUMBERED)),
    included("a number behind #include", "#include web \\\n #-1\n", form("2:2", NUMBERED)),
    included("a number behind a quoted name", '@include "web"#1\n', form("1:15", NUMBERED)),
    included("a number behind a folder", '@includedir "parts"#-1\n', form("1:20", NUMBERED)),
    included("a broken comment behind an include", "@include web #-\n@include web2 #-\r\n", form("1:14", BROKEN), form("2:15", BROKEN)),
    included("a continuation before an include", "\\\n@include web\n", form("2:1", FIRST)),
    included("a continuation before #include", "\\\r\n#include web\n", form("2:1", FIRST)),
    included("a continuation before an indented @include", " \\\n @includedir parts\n", form("2:2", FIRST)),
    included("#include in a row of an include", "@include web \\\n#include web2\n", form("2:1", INCLUDE_ROW)),
    included("CR LF behind @include", "@include\\\r\n web\n", form("1:1", WORD_RETURN)),
    included("#include without a name", "#include #x\n#includedir \n", form("1:1", INCLUDE_ROW, OTHERWISE), form("2:1", INCLUDE_ROW, OTHERWISE)),
    included("#include without a name behind a continuation", "\\\n#include #x\n", form("2:1", INCLUDE_ROW)),
    included("an indented #include without a name", " #include #x\n#include\n#includex \n"),
    included("an indented #include", " #include web #1\n", form("1:2", INDENTED, OTHERWISE)),
    included("an indented #include behind a continuation", "\\\n\t#includedir parts#1\n", form("2:2", INDENTED, OTHERWISE)),
    included("# directly behind a name", "@include web#1\n", form("1:10", NAME_END, OTHERWISE)),
    included("# directly behind the name of a folder", "#includedir parts#x\n", form("1:13", NAME_END, OTHERWISE)),
    included("a continuation directly behind a name", "@include web\\\n\n@includedir parts\\\r\n # x\n", form("1:10", NAME_END, OTHERWISE), form("3:13", NAME_END, OTHERWISE)),
    included("x in quotes", '@include "we\\x62"\n@includedir "pa\\x72ts"\n', form("1:10", NAME_ESCAPE, OTHERWISE), form("2:13", NAME_ESCAPE, OTHERWISE)),
    included("the name of the host", '@includedir %h\n@includedir q%\\hq\n@includedir "q%h"\n', *(form(f"{number}:13", NAME_HOST, OTHERWISE) for number in (1, 2, 3))),
    included("a quoted sign", '@includedir "%x"\n', form("1:13", NAME_SIGN)),
    included("a quoted + behind a continuation", '@includedir "\\\n +x"\n', form("1:13", NAME_SIGN)),
    included("signs without quotes, and others in quotes", '@includedir %x\n@includedir +x\n@includedir "\\%x"\n@includedir "x %H"\n'),
    included("an escaped blank that begins a name", "@includedir \\ x\n@includedir x\\ y\n", form("1:13", NAME_SPACE, OTHERWISE)),
    included("an unusual space in a name", "@includedir x\fy\n", form("1:13", NAME_SPACE, OTHERWISE)),
    included("a backslash at the end of the quoted name of a folder", '@includedir "x\\\\"\n', form("1:13", ENDED)),
)
FORMS = TOKENS + NAMES + OPTIONS + GAPS + PATHS_AND_ARGUMENTS + LINES + INCLUDES
