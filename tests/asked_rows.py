"""Rows of asking_machine.py.

A row of POLICIES has a name, a tree with the policy `main`, and the words that name a host and a moment. Each of QUESTIONS is
asked of it: as whom, and a command. A row of WHO and of WHAT has words, and what they print, with the exit status.

A row of ERRORS has words, the error, and its advice: an empty text if there is none, and None if the row says nothing about
it. The program may not read the files of CLOSED_FILES. A row of LINES has the whole explanation in place of the advice. A row
of USAGES has wrong words, and what the error says. A row of PATHLESS says whether the command is explained to have no path.

A row of IMAGES has the files of a machine, words, what they print on both streams, and the exit status. It is asked with
`--root` and in a chroot.
"""

from stand import EMPTY_FOLDER, Closed, Link

PASSWD = "root:x:0:0:::\n# the people\nbob:x:1000:1000:::\nann:x:1001:100:::\ncho:x:1002:1002:::\n\nbob:x:1003:4:::\n+::::::\n-x:x:1:1:::\nwww-data:x:33:33:::\n"
ODD = f"{PASSWD}a b:x:1004:1004:::\nd.e:x:1005:1005:::\nBob:x:1006:1006:::\né:x:1007:1007:::\n%adm:x:1008:1008:::\n"
MACHINE = {"passwd": PASSWD, "group": "root:x:0:\nadm:x:4:ann\nweb:x:33:cho,a b\nusers:x:100:\n"}
HOST = "--host h --moment 2026010100Z"
PEOPLE = f"--passwd passwd --group-file group {HOST}"
M = f"--policy main {PEOPLE}"
RULE = {"main": "bob ALL = /bin/a\n"}
CIRCLE = {"main": "User_Alias A = B\nUser_Alias B = A\nA ALL = ALL\n"}
ONE = {"passwd": "bob:x:1:1:::\nroot:x:0:0:::\n"}
NONE = {"passwd": "# nobody\n\n"}
NINE_GROUPS = {"group": "".join(f"g{number}:x:{100 + number}:bob\n" for number in range(9))}
NINE_INTERFACES = ",".join(f"10.0.{number}.1/24" for number in range(9))

POLICIES = (
    (
        "several_files",
        {
            "main": "User_Alias OPS = bob, cho\n@includedir d\nOPS ALL = WEB\nDefaults:ann runas_default=www-data\n",
            "d/a": "Cmnd_Alias WEB = /bin/a, \\\n    /bin/b\n",
            "d/b": "ann ALL = !/bin/a, (www-data) /bin/b\n%adm ALL = (root : adm) NOPASSWD: WEB, !SHELLS\n",
            "d/c": "Cmnd_Alias SHELLS = /bin/sh, !/bin/rbash\n",
        },
        HOST,
    ),
    (
        "groups_and_runas_lists",
        {"main": '%web ALL = (www-data, #0 : adm, web) /bin/a, () /bin/b, (: web) /bin/c x\n%#100 h = ALL\nroot ALL = (ALL : ALL) ALL, !/bin/sh\n"a b" ALL = /bin/b\n'},
        HOST,
    ),
    (
        "signs_and_aliases_in_aliases",
        {"main": "Cmnd_Alias A = B, !/bin/b : B = /bin/*, /bin/c\nUser_Alias U = ALL, !ann\nU ALL = A, !B\nbob ALL = A\nann, !bob h = NOPASSWD: SETENV: /bin/a : i = ALL\n"},
        HOST,
    ),
    (
        "stamps_and_digests",
        {"main": "bob ALL = NOTBEFORE=20250101000000Z NOTAFTER=20260601000000Z /bin/a, NOTAFTER=20200101000000Z /bin/b\n"
            "cho ALL = sha224:aa /bin/a, /bin/sh\nann ALL = NOTAFTER=20200101000000Z ALL\n"},
        HOST,
    ),
    ("runas_default_of_nobody", {"main": "Defaults runas_default=gone\nbob ALL = ALL\n"}, HOST),
    ("runas_default_of_nobody_for_one", {"main": "Defaults:cho runas_default=gone\nALL ALL = /bin/a\n"}, HOST),
    ("runas_default_by_alias", {"main": "User_Alias W = %web, !cho\nDefaults:W runas_default=www-data\nALL ALL = /bin/a, (www-data) /bin/b\n"}, HOST),
    (
        "host_and_networks",
        {"main": "ann www1 = /bin/a\nbob www1.example = /bin/b\ncho 10.1.2.0/24 = /bin/c\nroot ALL, !www* = ALL\nDefaults@www1 runas_default=ann\n"},
        "--host www1.example --interfaces 10.1.2.9/24 --moment 2026010100Z",
    ),
    ("names_with_odd_bytes", {"passwd": ODD, "main": '"a b" ALL = /bin/a\nd.e ALL = /bin/b\né ALL = /bin/sh\n\\%adm ALL = list\nBOB ALL = sudoedit /etc/*\n'}, HOST),
    ("no_line", {"main": ""}, HOST),
    ("nobody", {**RULE, **NONE}, HOST),
    ("a_bad_moment", RULE, "--host h --moment 2026"),
)
QUESTIONS = (
    *(("", command) for command in ("/bin/a", "/bin/b", "/bin/sh", "/bin/c x", "list", "a", "sudoedit /etc/x")),
    *(("-u www-data", "/bin/b"), ("-g adm", "/bin/a"), ("-u ann -g web", "/bin/c x"), ("-u gone", "/bin/a"), ("-g gone", "/bin/a")),
)

WHO = (
    (
        "who_of_two_users_of_whom_one_has_two_rows",
        {"main": "bob, ann ALL = /bin/a\n"},
        f"who {M} /bin/a",
        "".join(f"{user}: main:1:16: allowed by: (root) /bin/a\n" for user in ("bob", "ann")),
        0,
    ),
    ("who_of_nobody", RULE, f"who {M} /bin/b", "no user may run it\n", 1),
    ("who_without_the_arguments", {"main": 'bob ALL = /bin/a ""\n'}, f"who {M} /bin/a x", "no user may run it\n", 1),
    ("who_passes_a_denied_user_over", {"main": "ann ALL = !/bin/a\ncho ALL = /bin/a\n"}, f"who {M} /bin/a", "cho: main:2:11: allowed by: (root) /bin/a\n", 0),
    (
        "who_with_denied",
        {"main": "ann ALL = !/bin/a\ncho ALL = /bin/a\n"},
        f"who {M} --denied /bin/a",
        "ann: main:1:11: denied by: (root) !/bin/a\ncho: main:2:11: allowed by: (root) /bin/a\n",
        0,
    ),
    ("who_with_denied_of_nobody", {"main": "ann ALL = !/bin/a\n"}, f"who --denied {M} /bin/a", "ann: main:1:11: denied by: (root) !/bin/a\nno user may run it\n", 1),
    (
        "who_of_an_alias_has_two_lines",
        {**ONE, "main": "@include a\nbob ALL = A\n", "a": "Cmnd_Alias A = /bin/a\n"},
        f"who {M} /bin/a",
        "bob: main:2:11: allowed by: (root) A\nbob: a:1:16: in Cmnd_Alias A: /bin/a\n",
        0,
    ),
    ("who_by_one_of_nine_group_names", {**ONE, **NINE_GROUPS, "main": "%G8 ALL = /bin/a\n%g9 ALL = ALL\n"}, f"who {M} /bin/a", "bob: main:1:11: allowed by: (root) /bin/a\n", 0),
    ("who_by_one_of_nine_group_numbers", {**ONE, **NINE_GROUPS, "main": "%#108 ALL = /bin/a\n%#109 ALL = ALL\n"}, f"who {M} /bin/a", "bob: main:1:13: allowed by: (root) /bin/a\n", 0),
    (
        "who_on_a_host_with_nine_interfaces",
        {**ONE, "main": "bob 10.0.8.1 = /bin/a\nroot 10.0.7.0 = /bin/a\nALL 10.0.8.2, 10.0.9.0 = ALL\n"},
        f"who {M} --interfaces {NINE_INTERFACES} /bin/a",
        "bob: main:1:16: allowed by: (root) /bin/a\nroot: main:2:17: allowed by: (root) /bin/a\n",
        0,
    ),
    ("who_of_an_empty_passwd", {**RULE, **NONE}, f"who {M} --denied /bin/a", "no user may run it\n", 1),
    ("who_of_an_empty_passwd_looks_at_no_word", {**RULE, **NONE}, f"who {M}x -u gone -g gone --interfaces x /bin/a", "no user may run it\n", 1),
    (
        "who_of_names_with_odd_bytes",
        {"main": "ALL ALL = /bin/a\n", "passwd": b"root:x:0:0:::\nb\xff:x:1:1:::\n\x1b[2J:x:2:2:::\n \t:x:3:3:::\n"},
        f"who {M} /bin/a",
        b"".join(name + b": main:1:11: allowed by: (root) /bin/a\n" for name in (b"root", b"b\xff", b"\x1b[2J", b" \t")),
        0,
    ),
    (
        "who_now",
        {**ONE, "main": "bob ALL = NOTAFTER=20000101000000Z /bin/a, NOTBEFORE=99990101000000Z /bin/b\nbob ALL = NOTBEFORE=20000101000000Z /bin/c\n"},
        "who --policy main --passwd passwd --group-file group --host h /bin/a",
        "no user may run it\n",
        1,
    ),
    (
        "who_now_after_a_stamp",
        {**ONE, "main": "bob ALL = NOTBEFORE=20000101000000Z NOTAFTER=99990101000000Z /bin/c\n"},
        "who --policy main --passwd passwd --group-file group --host h /bin/c",
        "bob: main:1:62: allowed by: (root) NOTBEFORE=20000101000000Z NOTAFTER=99990101000000Z /bin/c\n",
        0,
    ),
    (
        "who_in_an_image_with_files_of_the_caller",
        {**ONE, "image/etc/sudoers": "bob h = /bin/a\n", "image/etc/hostname": "h\n"},
        "who --root image --passwd passwd --group-file group /bin/a",
        "bob: /etc/sudoers:1:9: allowed by: (root) /bin/a\n",
        0,
    ),
    (
        "who_in_an_image_with_a_policy_on_it",
        {**ONE, "image/etc/a": "bob h = /bin/a\n"},
        "who --root image --policy etc/a --passwd passwd --group-file group --host h /bin/a",
        "bob: etc/a:1:9: allowed by: (root) /bin/a\n",
        0,
    ),
    ("who_as_a_group", {**ONE, "main": "bob ALL = (:adm) /bin/a\n"}, f"who {M} -g adm /bin/a", "bob: main:1:18: allowed by: (bob : adm) /bin/a\n", 0),
    ("who_with_words_that_look_like_options", {**ONE, "main": "bob ALL = /bin/a -u x\n"}, f"who {M} /bin/a -u x", "bob: main:1:11: allowed by: (root) /bin/a -u x\n", 0),
    ("who_of_a_command_behind_two_dashes", RULE, f"who {M} -- --help", "no user may run it\n", 1),
    ("why_allowed", RULE, f"why {M} bob /bin/a", "main:1:11: allowed by: (root) /bin/a\n", 0),
    ("why_denied", {"main": "bob ALL = ALL, !/bin/a\n"}, f"why {M} bob /bin/a", "main:1:16: denied by: (root) !/bin/a\n", 1),
    ("why_without_a_rule", RULE, f"why {M} ann /bin/a", "no rule matches\n", 1),
    ("why_as_a_user", {"main": "bob ALL = (ann) /bin/a\n"}, f"why -u ann {M} bob /bin/a", "main:1:17: allowed by: (ann) /bin/a\n", 0),
)

DEFAULTS = {
    "main": "Defaults env_reset\n@include a\nDefaults:bob x=1\nDefaults:%adm !y\nDefaults@h z\nDefaults@other z\nDefaults>root w\nDefaults!/bin/a v\n"
    "bob ALL = A, (R) NOPASSWD: /bin/c\n",
    "a": "Cmnd_Alias A = /bin/a, /bin/b\nRunas_Alias R = ann, cho\nHost_Alias H = h, i\n  Defaults@H s\n",
}
OF_BOB = "Defaults:\n    main:1:1: Defaults env_reset\n    a:4:1: Defaults@H s\n    main:3:1: Defaults:bob x=1\n    main:5:1: Defaults@h z\n"
OF_SOME = "Defaults for some commands or runas users:\n    main:7:1: Defaults>root w\n    main:8:1: Defaults!/bin/a v\n"
WHAT = (
    (
        *("what_with_defaults", DEFAULTS, f"what {M} bob"),
        f"bob on h:\n    main:9:11: (root) A\n    main:9:28: (R) NOPASSWD: /bin/c\n{OF_BOB}{OF_SOME}",
        0,
    ),
    (
        *("what_with_members_of_aliases", DEFAULTS, f"what -e {M} bob"),
        f"bob on h:\n    main:9:11: (root) /bin/a\n    main:9:11: (root) /bin/b\n    main:9:28: (ann, cho) NOPASSWD: /bin/c\n{OF_BOB}{OF_SOME}",
        0,
    ),
    (
        *("what_of_a_user_without_a_rule", DEFAULTS, f"what --expand-aliases {M} ann"),
        f"ann may run nothing on h.\n{OF_BOB}{OF_SOME}".replace("main:3:1: Defaults:bob x=1", "main:4:1: Defaults:%adm !y"),
        1,
    ),
    ("what_of_no_line", {"main": "# a\n"}, f"what {M} bob", "bob may run nothing on h.\n", 1),
    ("what_without_defaults", RULE, f"what {M} bob", "bob on h:\n    main:1:11: (root) /bin/a\n", 0),
    ("what_of_a_command_that_is_denied", {"main": "bob ALL = /bin/a, !/bin/a\n"}, f"what {M} bob", "bob on h:\n    main:1:11: (root) /bin/a\n    main:1:19: (root) !/bin/a\n", 0),
    ("what_looks_at_no_moment", RULE, f"what {M}x bob", "bob on h:\n    main:1:11: (root) /bin/a\n", 0),
    (
        "what_of_defaults_for_runas_users_alone",
        {"main": "Defaults>ann x\n"},
        f"what {M} bob",
        "bob may run nothing on h.\nDefaults for some commands or runas users:\n    main:1:1: Defaults>ann x\n",
        1,
    ),
    ("what_of_a_member_on_a_further_line", {"main": "bob ALL = \\\n\t/bin/a, \\\n  !/bin/b\n"}, f"what {M} bob", "bob on h:\n    main:2:2: (root) /bin/a\n    main:3:3: (root) !/bin/b\n", 0),
)

BITS = "write each address with its bits, as `10.1.2.9/24`, and commas between them"
STAMP = "write the moment in UTC as YYYYMMDDHHMMSSZ: `date -u +%Y%m%d%H%M%SZ`"
CIRCLED = "an alias leads back to itself: `check` prints the aliases of the circle"
PASSWD_ROW = "a row of passwd has seven fields between `:`, of which the third and fourth are numbers"
GROUP_ROW = "a row of group has four fields between `:`, of which the third is a number"
LARGE = "the files of users and of groups have at most 1048576 bytes each"
LONG = "the arguments of a command have at most 65536 bytes, with the blanks between them"
WIDE = "what is printed passes 1048576 bytes, a line of it 65536 bytes, or all its lists 65536 members"
BOTH = "or the user of runas_default (root without it)"
DOUBLED = "".join(f"Cmnd_Alias A{number} = A{number - 1}, A{number - 1}\n" for number in range(1, 18))
IMAGE = {"etc/sudoers": "bob h1 = /bin/a\n", "etc/passwd": "root:x:0:0:::\nbob:x:1:1:::\n", "etc/group": "", "etc/hostname": "h1.example\n"}


def below(image, **changes):
    """The files of an image below the folder `image`, some of them changed or left out."""
    files = {**image, **{f"etc/{name}": what for name, what in changes.items()}}
    return {f"image/{name}": what for name, what in files.items() if what is not None}


ERRORS = (
    ("missing_policy", {}, f"who --policy none {PEOPLE} /bin/a", "NoRoot", "none: no such file"),
    ("policy_that_is_a_folder", {"d": EMPTY_FOLDER}, f"what --policy d {PEOPLE} bob", "Failed", "d: it is no regular file"),
    ("missing_passwd", RULE, f"who --policy main --passwd none --group-file group {HOST} /bin/a", "none: Read", "none: no such file"),
    ("missing_group", RULE, f"what --policy main --passwd passwd --group-file d/none {HOST} bob", "d/none: Read", "d/none: no such file"),
    ("passwd_that_is_a_folder", {**RULE, "d": EMPTY_FOLDER}, f"why --policy main --passwd d --group-file group {HOST} bob /bin/a", "d: Read", "d: it cannot be read"),
    ("bad_row_of_passwd", {**RULE, "passwd": "root:x:0:0:::\nbob\n"}, f"who {M} /bin/a", "passwd:2: BadRow", PASSWD_ROW),
    ("bad_row_of_group", {**RULE, "group": "adm:x\n"}, f"what {M} bob", "group:1: BadRow", GROUP_ROW),
    ("too_large_a_passwd", {**RULE, "passwd": "root:x:0:0:::\n" * 90000}, f"who {M} /bin/a", "passwd: TooLarge", LARGE),
    ("too_large_a_group", {**RULE, "group": "#\n" * 524289}, f"why {M} bob /bin/a", "group: TooLarge", LARGE),
    ("too_large_a_passwd_of_an_image", below(IMAGE, passwd="#\n" * 524289), "who --root image /bin/a", "image/etc/passwd: TooLarge", LARGE),
    ("unknown_user_of_what", RULE, f"what {M} eve", "NoUser", "eve has no row in passwd"),
    ("unknown_user_of_why", RULE, f"why {M} eve /bin/a", "NoUser", f"eve {BOTH} has no row in passwd"),
    ("unknown_target_of_why", RULE, f"why {M} -u eve bob /bin/a", "NoUser", "bob or eve has no row in passwd"),
    ("unknown_target_of_who", RULE, f"who {M} -u eve /bin/a", "NoUser", "eve has no row in passwd"),
    ("no_root_in_passwd_of_who", {**RULE, "passwd": "bob:x:1:1:::\n"}, f"who {M} /bin/a", "NoUser", "the user of runas_default (root without it) has no row in passwd"),
    ("unknown_user_of_an_image", below(IMAGE), "what --root image/ eve", "NoUser", "eve has no row in image/etc/passwd"),
    ("unknown_target_of_an_image", below(IMAGE), "who --root image -u eve /bin/a", "NoUser", "eve has no row in image/etc/passwd"),
    ("unknown_group_of_an_image", below(IMAGE), "who --root image -g none /bin/a", "NoGroup", "none has no row in image/etc/group"),
    ("unknown_group_of_who", RULE, f"who {M} -g none /bin/a", "NoGroup", "none has no row in group"),
    ("unknown_group_of_why", RULE, f"why {M} -g none bob /bin/a", "NoGroup", "none has no row in group"),
    ("address_without_bits_of_who", RULE, f"who {M} --interfaces 10.0.0.1 /bin/a", "BadAddress", BITS),
    ("address_without_bits_of_what", RULE, f"what {M} --interfaces 10.0.0.1 bob", "BadAddress", BITS),
    ("bad_moment_of_who", RULE, f"who {M}x /bin/a", "BadMoment", STAMP),
    ("bad_moment_of_why", RULE, f"why {M}x bob /bin/a", "BadMoment", STAMP),
    ("cycle_of_who", CIRCLE, f"who {M} /bin/a", "Cycle", CIRCLED),
    ("cycle_of_what", CIRCLE, f"what {M} bob", "Cycle", CIRCLED),
    ("cycle_of_why", CIRCLE, f"why {M} bob /bin/a", "Cycle", CIRCLED),
    ("cycle_comes_before_an_empty_passwd", {**CIRCLE, **NONE}, f"who {M} /bin/a", "Cycle", CIRCLED),
    ("cycle_comes_before_an_unknown_user", CIRCLE, f"why {M} eve /bin/a", "Cycle", CIRCLED),
    ("cycle_comes_before_an_unknown_target", CIRCLE, f"who {M} -u eve /bin/a", "Cycle", CIRCLED),
    ("cycle_comes_before_a_bad_moment", CIRCLE, f"who {M}x /bin/a", "Cycle", CIRCLED),
    ("unknown_user_comes_before_a_cycle_of_what", CIRCLE, f"what {M} eve", "NoUser", "eve has no row in passwd"),
    ("too_long_arguments_of_who", RULE, f"who {M} /bin/a {'x' * 65537}", "TooLong", LONG),
    ("too_long_arguments_of_why", RULE, f"why {M} bob /bin/a {'x' * 65537}", "TooLong", LONG),
    ("too_many_members", {"main": f"Cmnd_Alias A0 = /bin/a\n{DOUBLED}bob ALL = A17\n"}, f"what -e {M} bob", "TooLarge", WIDE),
    ("policy_comes_before_passwd", RULE, f"who --policy none --passwd none --group-file none {HOST} /bin/a", "NoRoot", "none: no such file"),
    ("passwd_comes_before_group", RULE, f"who --policy main --passwd n1 --group-file n2 {HOST} /bin/a", "n1: Read", "n1: no such file"),
    ("group_comes_before_a_row_of_passwd", {**RULE, "passwd": "bob\n"}, f"who --policy main --passwd passwd --group-file n2 {HOST} /bin/a", "n2: Read", "n2: no such file"),
    ("image_without_a_policy", below(IMAGE, sudoers=None), "who --root image /bin/a", "NoRoot", "/etc/sudoers: no such file"),
    ("image_without_passwd", below(IMAGE, passwd=None), "who --root image /bin/a", "image/etc/passwd: Read", "image/etc/passwd: no such file"),
    ("image_without_group", below(IMAGE, group=None), "what --root image/ bob", "image/etc/group: Read", "image/etc/group: no such file"),
    ("image_without_hostname", below(IMAGE, hostname=None), "why --root image// bob /bin/a", "image/etc/hostname: Read", "image/etc/hostname: no such file"),
    ("empty_hostname", below(IMAGE, hostname=""), "who --root image /bin/a", "image/etc/hostname:1:1: syntax error: EmptyName", ""),
    ("hostname_of_comments", below(IMAGE, hostname="# a\n \n#b"), "what --root image bob", "image/etc/hostname:1:1: syntax error: EmptyName", ""),
    ("folder_as_hostname", below(IMAGE, hostname=EMPTY_FOLDER), "who --root image /bin/a", "image/etc/hostname: Read", "image/etc/hostname: it cannot be read"),
    ("link_of_passwd_that_leads_nowhere", below(IMAGE, passwd=Link("none")), "who --root image /bin/a", "image/etc/passwd: Read", "image/etc/passwd: no such file"),
    ("passwd_comes_before_hostname", below(IMAGE, passwd=None, hostname=""), "who --root image /bin/a", "image/etc/passwd: Read", "image/etc/passwd: no such file"),
)

CLOSED_FILES = (
    ("closed_policy", {"main": Closed("bob ALL = ALL\n")}, f"who {M} /bin/a", "Failed", "main: permission denied"),
    ("closed_passwd", {**RULE, "passwd": Closed("root:x:0:0:::\n")}, f"who {M} /bin/a", "passwd: Read", "passwd: permission denied"),
    ("closed_image", {"main": "bob ALL = ALL\n", "image": Closed(None)}, f"who --root image --policy - {PEOPLE} /bin/a", "image/bin: Read", "image/bin: permission denied"),
    ("closed_hostname", below(IMAGE, hostname=Closed("h\n")), "why --root image bob /bin/a", "image/etc/hostname: Read", "image/etc/hostname: permission denied"),
)

EXPECTED = "  |\n1 | bob ALL\n  |        ^ expected `=` or `,`\n  = help: write `=` between the hosts and the commands: `USER HOST = COMMAND`\n"
LINES = (
    ("error_of_the_policy", {"main": "bob ALL\n"}, f"who {M} /bin/a", "main:1:8: syntax error: EndOfLine", f" --> main:1:8\n{EXPECTED}"),
    ("error_of_an_included_file", {"main": "@include a\n", "a": "bob ALL\n"}, f"what {M} bob", "a:1:8: syntax error: EndOfLine", f" --> a:1:8\n{EXPECTED}"),
    (
        *("error_in_an_image", below(IMAGE, sudoers="bob ALL\n", passwd=None), "why --root image bob /bin/a"),
        *("/etc/sudoers:1:8: syntax error: EndOfLine", f" --> /etc/sudoers:1:8\n{EXPECTED}"),
    ),
)

MISSING = "the following required arguments were not provided:\n  "
USAGES = (
    ("who", f"{MISSING}<WORD>...\n\nUsage: sudoers_tool who <WORD>...\n"),
    (f"who {M}", "<WORD>..."),
    ("who -- ", "<WORD>..."),
    ("what", f"{MISSING}<USER>\n"),
    ("why", f"{MISSING}<USER>\n  <WORD>...\n"),
    (f"why {M} bob", f"{MISSING}<WORD>...\n"),
    (f"what {M} bob ann", "unexpected argument 'ann' found"),
    (f"what {M} bob -u ann", "unexpected argument '-u' found"),
    (f"what {M} --denied bob", "unexpected argument '--denied' found"),
    (f"why {M} --denied bob /bin/a", "unexpected argument '--denied' found"),
    (f"who {M} -e /bin/a", "unexpected argument '-e' found"),
    (f"who {M} --why /bin/a", "unexpected argument '--why' found"),
    (f"who {M} --error-status 7 /bin/a", "unexpected argument '--error-status' found"),
    (f"who {M} -U bob /bin/a", "unexpected argument '-U' found"),
    (f"who {M} --policy main /bin/a", "the argument '--policy <FILE>' cannot be used multiple times"),
    (f"who {M} -u ann --user bob /bin/a", "the argument '--user <TARGET>' cannot be used multiple times"),
    ("who --root none /bin/a", "invalid value 'none' for '--root <DIR>': no such folder"),
    ("what --root passwd bob", "invalid value 'passwd' for '--root <DIR>': no such folder"),
)

ADVISED = b"write the full path of the command, as `/usr/bin/ls`: a policy does not look for it in PATH"
PATHLESS = (
    (f"who {M} a", True),
    (f"who {M} ./a x", True),
    (f"who {M} --denied bin/a", True),
    (f"why {M} bob a", True),
    (f"why {M} ann ALL", True),
    (f"who {M} /bin/a", False),
    (f"who {M} /bin/b a", False),
    (f"who {M} list", False),
    (f"who {M} sudoedit /etc/x", False),
    (f"why {M} bob /bin/a", False),
    (f"why {M} ann /bin/a", False),
    (f"what {M} bob", False),
)

HOSTILE = {"main": "ALL ALL = /bin/a, /bin/b\x1b[2J\n", "passwd": "root:x:0:0:::\n\x1b]0;x\x07:x:1:1:::\nbob:x:2:2:::\n"}
TERMINALS = (
    ("names_of_users", HOSTILE, f"who {M} /bin/a"),
    ("names_of_commands", HOSTILE, f"what {M} bob"),
    ("a_reason", HOSTILE, f"why {M} bob /bin/b\x1b[2J"),
    ("a_rule_that_misses_the_host", {**HOSTILE, "main": "ALL i = /bin/b\x1b[2J\n"}, f"why {M} bob /bin/b\x1b[2J"),
    ("an_error_of_a_line", {"main": "bob ALL\n"}, f"who {M} /bin/a"),
    ("an_error_of_a_line_alone", {"main": "bob ALL\n"}, f"who --plain {M} /bin/a"),
    ("an_error_of_a_file", RULE, f"who --policy main --passwd no\x1b[2Jne --group-file group {HOST} /bin/a"),
    ("a_command_without_its_path", RULE, f"who {M} a"),
    ("a_command_without_its_path_alone", RULE, f"why --plain {M} bob a"),
)

GROWN = {"main": "@include a\nDefaults:bob runas_default=ann\nDefaults>ann x\nbob, %adm ALL = A, (R) /bin/c\n", "a": "Cmnd_Alias A = B, /bin/b : B = /bin/a\nRunas_Alias R = ann, cho\n"}
GROWTHS = (
    (f"who --explain {M} --denied -g web /bin/a", GROWN),
    (f"who --explain {M} a", GROWN),
    (f"what --explain {M} -e bob", GROWN),
    (f"why --explain {M} --same /x=/bin -u root bob /x/c", GROWN),
    (f"why --explain {M} bob /bin/a", GROWN),
    (f"why --explain {M} eve /bin/a", GROWN),
    (f"why --explain --same /bin=/usr/bin --usr-merge {M} bob /usr/bin/b", {"main": "bob, +x i = /bin/b\nbob ALL = !/usr/bin/b x, (ann) /bin/\n"}),
    (f"who --explain --usr-merge {M} --denied /bin/a", GROWN),
    ("who --explain --root image /bin/a", {**below(IMAGE), "image/bin": Link("usr/bin")}),
    ("who --explain --root image /bin/a", below(IMAGE, hostname="")),
    ("who --explain --root image /bin/a", below(IMAGE, passwd=None)),
)

OF_BOB_IN_IMAGE = "bob: /etc/sudoers:1:10: allowed by: (root) /bin/a\n"
IMAGES = (
    ("an_image", IMAGE, "who /bin/a", OF_BOB_IN_IMAGE, 0),
    ("what_of_an_image", IMAGE, "what bob", "bob on h1.example:\n    /etc/sudoers:1:10: (root) /bin/a\n", 0),
    ("why_of_an_image", IMAGE, "why bob /bin/a", "/etc/sudoers:1:10: allowed by: (root) /bin/a\n", 0),
    ("another_host", IMAGE, "who --host h2 /bin/a", "no user may run it\n", 1),
    ("another_policy", {**IMAGE, "etc/other": "root ALL = ALL\n"}, "who --policy /etc/other /bin/a", "root: /etc/other:1:12: allowed by: (root) SETENV: ALL\n", 0),
    ("included_files", {**IMAGE, "etc/sudoers": "@includedir /etc/sudoers.d\n", "etc/sudoers.d/a": "bob h1 = /bin/a\n"}, "why bob /bin/a", "/etc/sudoers.d/a:1:10: allowed by: (root) /bin/a\n", 0),
    ("links_of_an_image", {**IMAGE, "bin": Link("usr/bin")}, "who /usr/bin/a", f"same folders: /bin=/usr/bin\n{OF_BOB_IN_IMAGE}", 0),
    ("a_hostname_after_comments", {**IMAGE, "etc/hostname": "# the name\n\n \th1.example \r\nh2\n"}, "who /bin/a", OF_BOB_IN_IMAGE, 0),
    ("a_hostname_without_a_line_end", {**IMAGE, "etc/hostname": "h1"}, "who /bin/a", OF_BOB_IN_IMAGE, 0),
    ("a_group_of_an_image", {**IMAGE, "etc/sudoers": "%adm ALL = /bin/a\n", "etc/group": "adm:x:4:bob\n"}, "who /bin/a", "bob: /etc/sudoers:1:12: allowed by: (root) /bin/a\n", 0),
    (
        "links_whose_targets_are_in_the_image",
        {**IMAGE, "etc/hostname": Link("/usr/name"), "usr/name": "h1\n", "etc/passwd": Link("../../../usr/users"), "usr/users": "root:x:0:0:::\nbob:x:1:1:::\n"},
        *("who /bin/a", OF_BOB_IN_IMAGE, 0),
    ),
    ("no_passwd", {**IMAGE, "etc/passwd": Link("/none")}, "who /bin/a", "sudoers_tool: /etc/passwd: Read\n", 3),
    ("no_name", {**IMAGE, "etc/hostname": "#\n"}, "who /bin/a", "sudoers_tool: /etc/hostname:1:1: syntax error: EmptyName\n", 3),
)
