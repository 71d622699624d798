"""Rows of same_folders.py.

A row of ANSWERS has a name, a policy, words, what they print, and the exit status. P stands for the words that name the policy
and the people. A row of ROOTS has the files of a root in place of a policy, and is asked of this root. A row of ERRORS has an
error of `list` in place of what is printed. A row of USAGES has words and what the error says.
"""

from stand import EMPTY_FOLDER, Link

PEOPLE = {
    "passwd": "root:x:0:0:::\nbob:x:1000:1000:::\nann:x:1001:100:::\n",
    "group": "root:x:0:\nadm:x:4:ann\nweb:x:33:\nusers:x:100:\n",
}
FILES = "--passwd passwd --group-file group --host h --moment 2026010100Z"
P = f"--policy main {FILES}"
WHY = f"why --no-same {P}"
LIST = f"list -U ann {FILES}"
SAME = "--no-same --same /bin=/usr/bin"
DENY = "ann ALL = ALL, !/bin/sh\n"
DIGEST = "sha224:" + "0" * 56
PAST = "NOTAFTER=20200101000000Z"

NONE = "no rule matches\n"
NOBODY = "no user may run it\n"
HOST = "matches but for the host: "
RUNAS = "matches but for the user or group as whom the command runs: "
MOMENT = "matches but for the moment: "
ARGUMENTS = "matches but for the arguments: "

PAIRS = (
    ("the_first_folder_for_the_second", "ann ALL = /usr/bin/a\n", f"why {SAME} {P} ann /bin/a", "main:1:11: allowed by: (root) /usr/bin/a\n", 0),
    ("the_second_folder_for_the_first", "ann ALL = /bin/a\n", f"why {SAME} {P} ann /usr/bin/a", "main:1:11: allowed by: (root) /bin/a\n", 0),
    ("a_pair_in_the_other_order", "ann ALL = /bin/a\n", f"why --no-same --same /usr/bin=/bin {P} ann /usr/bin/a", "main:1:11: allowed by: (root) /bin/a\n", 0),
    ("a_pair_for_who", "ann ALL = /bin/a\nbob ALL = /usr/bin/a\n", f"who {SAME} {P} /bin/a",
        "bob: main:2:11: allowed by: (root) /usr/bin/a\nann: main:1:11: allowed by: (root) /bin/a\n", 0),
    ("a_pair_for_nobody", "ann ALL = /sbin/b\n", f"who {SAME} {P} /bin/a", NOBODY, 1),
    ("a_pair_of_other_folders", "ann ALL = /usr/bin/a\n", f"why --no-same --same /sbin=/usr/sbin {P} ann /bin/a",
        f"{NONE}not decided: main:1:11: /usr/bin/a: both paths may be one file\n", 1),
    ("a_longer_name_is_not_below", "ann ALL = /usr/bin/a\n", f"why {SAME} {P} ann /binx/a",
        f"{NONE}not decided: main:1:11: /usr/bin/a: both paths may be one file\n", 1),
    ("the_folder_itself_is_not_below", "ann ALL = /usr/bin\n", f"why {SAME} {P} ann /bin", f"{NONE}not decided: main:1:11: /usr/bin: both paths may be one file\n", 1),
    ("a_folder_below_the_folder", "ann ALL = /usr/bin/x/a\n", f"why {SAME} {P} ann /bin/x/a", "main:1:11: allowed by: (root) /usr/bin/x/a\n", 0),
    ("slashes_at_the_ends", "ann ALL = /usr/bin/a\n", f"why --no-same --same /bin//=/usr/bin/ {P} ann /bin/a", "main:1:11: allowed by: (root) /usr/bin/a\n", 0),
    ("the_root_and_a_folder", "ann ALL = /usr/bin/a\n", f"why --no-same --same /=/usr {P} ann /bin/a", "main:1:11: allowed by: (root) /usr/bin/a\n", 0),
    ("a_folder_with_an_equals_sign", "ann ALL = /b\\=c/a\n", f"why --no-same --same /bin=/b=c {P} ann /bin/a", "main:1:11: allowed by: (root) /b\\=c/a\n", 0),
    ("the_same_pair_twice", "ann ALL = /usr/bin/a\n", f"who {SAME} --same /bin=/usr/bin {P} /bin/a", "ann: main:1:11: allowed by: (root) /usr/bin/a\n", 0),
    ("several_pairs_by_the_second", "ann ALL = /c/a\n", f"why --no-same --same /x=/y --same /bin=/c {P} ann /bin/a", "main:1:11: allowed by: (root) /c/a\n", 0),
    ("several_pairs_of_one_folder", "ann ALL = /c/a, !/d/a\n", f"why --no-same --same /bin=/d --same /bin=/c {P} ann /bin/a", "main:1:17: denied by: (root) !/d/a\n", 1),
    ("pairs_are_not_chained", "ann ALL = /c/a\n", f"why --no-same --same /a=/b --same /b=/c {P} ann /a/a", f"{NONE}not decided: main:1:11: /c/a: both paths may be one file\n", 1),
    ("the_middle_of_two_pairs", "ann ALL = /a/a, !/c/a\n", f"why --no-same --same /a=/b --same /b=/c {P} ann /b/a", "main:1:17: denied by: (root) !/c/a\n", 1),
    ("usr_merge_of_bin", "ann ALL = /bin/a\n", f"why --usr-merge {P} ann /usr/bin/a", "main:1:11: allowed by: (root) /bin/a\n", 0),
    ("usr_merge_of_sbin", "ann ALL = /usr/sbin/a\n", f"who --usr-merge {P} /sbin/a", "ann: main:1:11: allowed by: (root) /usr/sbin/a\n", 0),
    ("usr_merge_takes_bin_not_for_sbin", "ann ALL = /usr/sbin/a\n", f"who --usr-merge {P} /bin/a",
        NOBODY + "not decided: ann: main:1:11: /usr/sbin/a: both paths may be one file\n", 1),
    ("usr_merge_beside_no_same", "ann ALL = /bin/a\n", f"who --no-same --usr-merge {P} /usr/bin/a", "ann: main:1:11: allowed by: (root) /bin/a\n", 0),
    ("usr_merge_and_a_pair", "ann ALL = /bin/a, /y/b\n", f"why --usr-merge --same /x=/y {P} ann /x/b", "main:1:19: allowed by: (root) /y/b\n", 0),
    ("a_denial_of_the_other_path", DENY, f"why {SAME} {P} ann /usr/bin/sh", "main:1:16: denied by: (root) !/bin/sh\n", 1),
    ("a_denial_of_another_path_without_a_pair", DENY, f"why --no-same {P} ann /usr/bin/sh",
        "main:1:11: allowed by: (root) SETENV: ALL\nnot decided: main:1:16: !/bin/sh: both paths may be one file\n", 0),
    ("a_denial_of_the_other_path_for_who", DENY, f"who {SAME} {P} --denied /usr/bin/sh", f"ann: main:1:16: denied by: (root) !/bin/sh\n{NOBODY}", 1),
    ("the_last_rule_wins_whatever_its_spelling", "ann ALL = !/bin/a, /usr/bin/a\n", f"why {SAME} {P} ann /bin/a", "main:1:20: allowed by: (root) /usr/bin/a\n", 0),
    ("a_later_denial_by_the_own_path", "ann ALL = /usr/bin/a\nann ALL = !/bin/a\n", f"why {SAME} {P} ann /bin/a", "main:2:11: denied by: (root) !/bin/a\n", 1),
    ("a_member_of_an_alias", "Cmnd_Alias A = /bin/b, /usr/bin/a\nann ALL = A\n", f"why {SAME} {P} ann /bin/a",
        "main:2:11: allowed by: (root) A\nmain:1:24: in Cmnd_Alias A: /usr/bin/a\n", 0),
    ("both_spellings_in_an_alias", "Cmnd_Alias A = /usr/bin/a, !/bin/a\nann ALL = A\n", f"why {SAME} {P} ann /usr/bin/a",
        "main:2:11: denied by: (root) A\nmain:1:28: in Cmnd_Alias A: !/bin/a\n", 1),
    ("an_alias_for_who", "Cmnd_Alias A = /bin/b, /usr/bin/a\nann ALL = !A\n", f"who {SAME} {P} --denied /bin/a",
        f"ann: main:2:11: denied by: (root) !A\nann: main:1:24: in Cmnd_Alias A: /usr/bin/a\n{NOBODY}", 1),
    ("a_path_that_ends_in_a_slash", "ann ALL = /usr/bin/\n", f"why {SAME} {P} ann /bin/a", "main:1:11: allowed by: (root) /usr/bin/\n", 0),
    ("a_path_with_a_pattern", "ann ALL = /usr/bin/[a-c]*\n", f"why {SAME} {P} ann /bin/a", "main:1:11: allowed by: (root) /usr/bin/[a-c]*\n", 0),
    ("arguments_stay_as_they_are", "ann ALL = /usr/bin/a /bin/b\n", f"why {SAME} {P} ann /bin/a /bin/b", "main:1:11: allowed by: (root) /usr/bin/a /bin/b\n", 0),
    ("arguments_have_one_spelling", "ann ALL = /usr/bin/a /bin/b\n", f"why {SAME} {P} ann /bin/a /usr/bin/b",
        f"{NONE}main:1:11: {ARGUMENTS}(root) /usr/bin/a /bin/b\n", 1),
    ("sudoedit_has_one_spelling", "ann ALL = sudoedit /usr/etc/x\n", f"why --no-same --same /etc=/usr/etc {P} ann sudoedit /etc/x",
        f"{NONE}main:1:11: {ARGUMENTS}(root) sudoedit /usr/etc/x\n", 1),
    ("sudoedit_is_asked_as_without_a_pair", "ann ALL = sudoedit /etc/x\n", f"why {SAME} {P} ann sudoedit /etc/x", "main:1:11: allowed by: (root) sudoedit /etc/x\n", 0),
    ("list_is_asked_as_without_a_pair", "ann ALL = list\n", f"why {SAME} {P} ann list", "main:1:11: allowed by: (root) list\n", 0),
    ("a_command_without_a_path", "ann ALL = /usr/bin/a\n", f"why {SAME} {P} ann a", f"{NONE}not decided: main:1:11: /usr/bin/a: both paths may be one file\n", 1),
    ("what_is_undecided_for_the_other_spelling", "ann ALL = /bin/a\nann ALL = !/usr/bin/a, !/sbin/a\n+web ALL = !/usr/bin/a\n", f"why {SAME} {P} ann /bin/a",
        "main:2:11: denied by: (root) !/usr/bin/a\nnot decided: main:2:24: !/sbin/a: both paths may be one file\n"
        "not decided: main:3:1: +web: netgroups are not looked up\n", 1),
    ("a_netgroup_for_the_other_spelling", "ann ALL = /bin/a\n+web ALL = !/usr/bin/a\n", f"why {SAME} {P} ann /bin/a",
        "main:1:11: allowed by: (root) /bin/a\nnot decided: main:2:1: +web: netgroups are not looked up\n", 0),
    ("a_digest_for_the_other_spelling", f"ann ALL = {DIGEST} /usr/bin/a\n", f"why {SAME} {P} ann /bin/a",
        f"{NONE}not decided: main:1:11: {DIGEST} /usr/bin/a: the digest of the file is not compared\n", 1),
    ("a_third_path_stays_undecided", "ann ALL = /bin/a, !/sbin/a\n", f"why {SAME} {P} ann /usr/bin/a",
        "main:1:11: allowed by: (root) /bin/a\nnot decided: main:1:19: !/sbin/a: both paths may be one file\n", 0),
)

LISTS = (
    ("list_with_a_pair", "ann ALL = /usr/bin/a\n", f"{LIST} --same /bin=/usr/bin main /bin/a x", "/bin/a x\n", 0),
    ("list_without_a_pair", "ann ALL = /usr/bin/a\n", f"{LIST} main /bin/a x", "", 1),
    ("list_of_a_denial", DENY, f"{LIST} --same /bin=/usr/bin main /usr/bin/sh", "", 1),
    ("list_does_not_look_at_links", DENY, f"{LIST} main /usr/bin/sh", "/usr/bin/sh\n", 0),
    ("list_with_usr_merge", DENY, f"{LIST} --usr-merge main /usr/bin/sh", "", 1),
    ("list_with_a_reason", DENY, f"{LIST} --usr-merge --why main /usr/bin/sh", "main:1:16: denied by: (root) !/bin/sh\n", 1),
    ("list_with_a_reason_that_allows", "ann ALL = /usr/bin/a\n", f"{LIST} --same /bin=/usr/bin --why main /bin/a", "main:1:11: allowed by: (root) /usr/bin/a\n", 0),
    ("list_names_no_rule_that_misses", "ann db = /usr/bin/a\n", f"{LIST} --same /bin=/usr/bin --why main /bin/a", NONE, 1),
    ("list_as_another_user", "ann ALL = (bob) /usr/bin/a\n", f"{LIST} -u bob --same /bin=/usr/bin --why main /bin/a", "main:1:17: allowed by: (bob) /usr/bin/a\n", 0),
    ("a_listing_has_no_pairs", DENY, f"{LIST} --same /bin=/usr/bin main", "ann on h:\n    (root) ALL\n    (root) !/bin/sh\n", 0),
    ("a_listing_has_no_pairs_of_usr_merge", DENY, f"{LIST} --usr-merge main", "ann on h:\n    (root) ALL\n    (root) !/bin/sh\n", 0),
)

NEAR = (
    ("near_by_the_host", "ann db = /bin/a\n", f"{WHY} ann /bin/a", f"{NONE}main:1:10: {HOST}(root) /bin/a\n", 1),
    ("near_by_the_user", "ann ALL = (bob) /bin/a\n", f"{WHY} ann /bin/a", f"{NONE}main:1:17: {RUNAS}(bob) /bin/a\n", 1),
    ("near_by_a_target", "ann ALL = /bin/a\n", f"{WHY} -u bob ann /bin/a", f"{NONE}main:1:11: {RUNAS}(root) /bin/a\n", 1),
    ("near_by_the_group", "ann ALL = (:web) /bin/a\n", f"{WHY} -g adm -u bob ann /bin/a", f"{NONE}main:1:18: {RUNAS}(ann : web) /bin/a\n", 1),
    ("near_by_a_group_that_is_asked", "ann ALL = /bin/a\n", f"{WHY} -g web -u root ann /bin/a", f"{NONE}main:1:11: {RUNAS}(root) /bin/a\n", 1),
    ("near_by_runas_default", "Defaults runas_default=bob\nann ALL = (root) /bin/a\n", f"{WHY} ann /bin/a", f"{NONE}main:2:18: {RUNAS}(root) /bin/a\n", 1),
    ("near_of_runas_default", "Defaults runas_default=bob\nann ALL = /bin/a\n", f"{WHY} -u root ann /bin/a", f"{NONE}main:2:11: {RUNAS}(bob) /bin/a\n", 1),
    ("near_by_the_moment", f"ann ALL = {PAST} /bin/a\n", f"{WHY} ann /bin/a", f"{NONE}main:1:36: {MOMENT}(root) {PAST} /bin/a\n", 1),
    ("near_by_the_arguments", "ann ALL = /bin/a x\n", f"{WHY} ann /bin/a y", f"{NONE}main:1:11: {ARGUMENTS}(root) /bin/a x\n", 1),
    ("near_by_no_arguments", 'ann ALL = /bin/a ""\n', f"{WHY} ann /bin/a y", f'{NONE}main:1:11: {ARGUMENTS}(root) /bin/a ""\n', 1),
    ("near_by_missing_arguments", "ann ALL = /bin/a x*\n", f"{WHY} ann /bin/a", f"{NONE}main:1:11: {ARGUMENTS}(root) /bin/a x*\n", 1),
    ("near_by_the_file_of_sudoedit", "ann ALL = sudoedit /etc/x\n", f"{WHY} ann sudoedit /etc/y", f"{NONE}main:1:11: {ARGUMENTS}(root) sudoedit /etc/x\n", 1),
    ("near_by_each_part", f"ann db = /bin/a\nann ALL = (bob) /bin/a, (root) /bin/a x, {PAST} /bin/a\n", f"{WHY} ann /bin/a",
        f"{NONE}main:1:10: {HOST}(root) /bin/a\nmain:2:17: {RUNAS}(bob) /bin/a\nmain:2:32: {ARGUMENTS}(root) /bin/a x\nmain:2:67: {MOMENT}(root) {PAST} /bin/a\n", 1),
    ("near_by_host_groups", "ann db = /bin/a : web = /bin/b, /bin/a : ALL = /bin/c\n", f"{WHY} ann /bin/a",
        f"{NONE}main:1:10: {HOST}(root) /bin/a\nmain:1:33: {HOST}(root) /bin/a\n", 1),
    ("near_with_what_stands_before", "ann db = (root : adm) NOPASSWD: SETENV: /bin/b, /bin/a\n", f"{WHY} ann /bin/a", f"{NONE}main:1:49: {HOST}(root : adm) NOPASSWD: SETENV: /bin/a\n", 1),
    ("near_on_a_further_line", "ann db = /bin/b, \\\n    /bin/a\n", f"{WHY} ann /bin/a", f"{NONE}main:2:5: {HOST}(root) /bin/a\n", 1),
    ("near_by_a_denial", "ann db = !/bin/a\nann ALL = !/bin/a x\n", f"{WHY} ann /bin/a", f"{NONE}main:1:10: {HOST}(root) !/bin/a\nmain:2:11: {ARGUMENTS}(root) !/bin/a x\n", 1),
    ("near_by_an_alias", "Cmnd_Alias A = B : B = /bin/b, /bin/a\nann db = A\n", f"{WHY} ann /bin/a", f"{NONE}main:2:10: {HOST}(root) A\n", 1),
    ("near_by_an_alias_that_denies", "Cmnd_Alias A = /bin/a x\nann ALL = !A\n", f"{WHY} ann /bin/a", f"{NONE}main:2:11: {ARGUMENTS}(root) !A\n", 1),
    ("near_by_an_alias_of_hosts", "Host_Alias H = db, !h\nann H = /bin/a\n", f"{WHY} ann /bin/a", f"{NONE}main:2:9: {HOST}(root) /bin/a\n", 1),
    ("near_by_an_alias_of_runas_users", "Runas_Alias R = bob\nann ALL = (R) /bin/a\n", f"{WHY} ann /bin/a", f"{NONE}main:2:15: {RUNAS}(R) /bin/a\n", 1),
    ("near_by_all", "ann db = ALL\n", f"{WHY} ann /bin/a x", f"{NONE}main:1:10: {HOST}(root) ALL\n", 1),
    ("near_by_a_group_of_users", "%adm db = /bin/a\n", f"{WHY} ann /bin/a", f"{NONE}main:1:11: {HOST}(root) /bin/a\n", 1),
    ("near_by_the_other_spelling", "ann db = /usr/bin/a\n", f"why {SAME} {P} ann /bin/a", f"{NONE}main:1:10: {HOST}(root) /usr/bin/a\n", 1),
    ("near_by_the_arguments_of_the_other_spelling", "ann ALL = /usr/bin/a x\n", f"why {SAME} {P} ann /bin/a", f"{NONE}main:1:11: {ARGUMENTS}(root) /usr/bin/a x\n", 1),
    ("near_before_what_was_not_decided", "ann db, +web = /bin/a\n", f"{WHY} ann /bin/a",
        f"{NONE}main:1:16: {HOST}(root) /bin/a\nnot decided: main:1:9: +web: netgroups are not looked up\n", 1),
    ("not_near_for_other_users", "bob db = /bin/a\n+web db = /bin/a\n", f"{WHY} ann /bin/a", NONE, 1),
    ("not_near_by_another_path", "ann ALL = /bin/b\nann db = /bin/b\n", f"{WHY} ann /bin/a", NONE, 1),
    ("not_near_by_host_and_user", "ann db = (bob) /bin/a\n", f"{WHY} ann /bin/a", NONE, 1),
    ("not_near_by_host_and_moment", f"ann db = {PAST} /bin/a\n", f"{WHY} ann /bin/a", NONE, 1),
    ("not_near_by_user_and_moment", f"ann ALL = (bob) {PAST} /bin/a\n", f"{WHY} ann /bin/a", NONE, 1),
    ("not_near_by_host_and_arguments", "ann db = /bin/a x\nann ALL = (bob) /bin/a x\n", f"{WHY} ann /bin/a", NONE, 1),
    ("not_near_by_moment_and_arguments", f"ann ALL = {PAST} /bin/a x\n", f"{WHY} ann /bin/a", NONE, 1),
    ("not_near_where_a_rule_allows", "ann db = /bin/a\nann ALL = /bin/a\n", f"{WHY} ann /bin/a", "main:2:11: allowed by: (root) /bin/a\n", 0),
    ("not_near_where_a_rule_denies", "ann db = /bin/a\nann ALL = !/bin/a\n", f"{WHY} ann /bin/a", "main:2:11: denied by: (root) !/bin/a\n", 1),
    ("not_near_for_who", "ann db = /bin/a\n", f"who --no-same {P} /bin/a", NOBODY, 1),
    ("not_near_for_list", "ann db = /bin/a\n", f"{LIST} --why main /bin/a", NONE, 1),
)

ANSWERS = (*PAIRS, *LISTS, *NEAR)

BOTH = "same folders: /bin=/usr/bin, /sbin=/usr/sbin\n"
BIN = "same folders: /bin=/usr/bin\n"
MERGED = {"etc/sudoers": DENY, "bin": Link("usr/bin"), "sbin": Link("usr/sbin"), "usr/bin": EMPTY_FOLDER, "usr/sbin": EMPTY_FOLDER}
APART = {"etc/sudoers": DENY, "bin": EMPTY_FOLDER, "sbin": EMPTY_FOLDER, "usr/bin": EMPTY_FOLDER}
ASK = f"why {FILES} ann /usr/bin/sh"
DENIED = "/etc/sudoers:1:16: denied by: (root) !/bin/sh\n"
ALLOWED = "/etc/sudoers:1:11: allowed by: (root) SETENV: ALL\nnot decided: /etc/sudoers:1:16: !/bin/sh: both paths may be one file\n"

ROOTS = (
    ("links", MERGED, ASK, BOTH + DENIED, 1),
    ("links_for_who", MERGED, f"who {FILES} /usr/bin/sh", BOTH + NOBODY, 1),
    ("links_for_who_of_a_user", MERGED, f"who {FILES} /usr/bin/a", f"{BOTH}ann: /etc/sudoers:1:11: allowed by: (root) SETENV: ALL\n", 0),
    ("links_where_no_rule_matches", MERGED, f"why {FILES} bob /usr/bin/sh", BOTH + NONE, 1),
    ("links_that_begin_at_the_root", {**MERGED, "bin": Link("/usr/bin"), "sbin": Link("/usr/sbin")}, ASK, BOTH + DENIED, 1),
    ("links_that_end_in_a_slash", {**MERGED, "bin": Link("/usr/bin/"), "sbin": Link("usr/sbin/")}, ASK, BOTH + DENIED, 1),
    ("links_that_begin_with_dots", {**MERGED, "bin": Link("../usr/bin"), "sbin": Link("./usr/sbin")}, ASK, BOTH + DENIED, 1),
    ("a_link_to_a_folder_of_the_same_name_elsewhere", {**APART, "bin": Link("opt/usr/bin")}, ASK, ALLOWED, 0),
    ("a_link_that_leads_nowhere", {"etc/sudoers": DENY, "bin": Link("usr/bin")}, ASK, BIN + DENIED, 1),
    ("one_link", {**MERGED, "bin": EMPTY_FOLDER}, ASK, "same folders: /sbin=/usr/sbin\n" + ALLOWED, 0),
    ("folders", APART, ASK, ALLOWED, 0),
    ("no_folder", {"etc/sudoers": DENY}, ASK, ALLOWED, 0),
    ("a_file_in_place_of_a_folder", {"etc/sudoers": DENY, "bin": "x\n"}, ASK, ALLOWED, 0),
    ("a_link_to_another_folder", {**APART, "bin": Link("usr/sbin")}, ASK, ALLOWED, 0),
    ("a_link_to_a_name_that_is_not_utf8", {**APART, "bin": Link("usr/\udcff")}, ASK, ALLOWED, 0),
    ("a_link_to_a_longer_name", {**APART, "bin": Link("usr/bin2")}, ASK, ALLOWED, 0),
    ("links_that_are_left_aside", MERGED, f"why --no-same {FILES} ann /usr/bin/sh", ALLOWED, 0),
    ("links_that_are_left_aside_beside_a_pair", MERGED, f"why {SAME} {FILES} ann /usr/bin/sh", DENIED, 1),
    ("folders_that_usr_merge_takes_for_links", APART, f"why --usr-merge {FILES} ann /usr/bin/sh", DENIED, 1),
    ("links_and_usr_merge", MERGED, f"why --usr-merge {FILES} ann /usr/bin/sh", DENIED, 1),
    ("links_beside_a_pair", MERGED, f"why --same /a=/b {FILES} ann /usr/bin/sh", BOTH + DENIED, 1),
    ("links_for_no_list", MERGED, f"{LIST} /etc/sudoers /usr/bin/sh", "/usr/bin/sh\n", 0),
    ("links_for_no_list_beside_a_pair", MERGED, f"{LIST} --same /sbin=/usr/sbin /etc/sudoers /usr/bin/sh", "/usr/bin/sh\n", 0),
    ("links_for_what", MERGED, f"what {FILES} ann", "ann on h:\n    /etc/sudoers:1:11: (root) ALL\n    /etc/sudoers:1:16: (root) !/bin/sh\n", 0),
)

CIRCLE = "User_Alias A = B\nUser_Alias B = A\nA ALL = ALL\n"
PAIRED = f"{LIST} --usr-merge"
ERRORS = (
    ("list_without_its_passwd", DENY, f"{PAIRED} main /bin/a".replace("--passwd passwd", "--passwd none"), "none: Read", 1),
    ("list_without_its_group", DENY, f"{PAIRED} main /bin/a".replace("--group-file group", "--group-file none"), "none: Read", 1),
    ("list_of_a_bad_row", DENY, f"{PAIRED} main /bin/a".replace("--group-file group", "--group-file main"), "group:1: BadRow", 1),
    ("list_without_its_policy", DENY, f"{PAIRED} none /bin/a".replace("--passwd passwd", "--passwd none"), "NoRoot", 1),
    ("list_of_a_bad_policy", "ann ALL\n", f"{PAIRED} main /bin/a".replace("--passwd passwd", "--passwd none"), "main:1:8: syntax error: EndOfLine", 1),
    ("list_of_a_cycle_and_an_unknown_target", CIRCLE, f"{PAIRED} -u gone main /bin/a", "Cycle", 1),
    ("list_of_an_unknown_target", DENY, f"{PAIRED} -u gone main /bin/a", "NoUser", 1),
    ("list_of_an_unknown_group", DENY, f"{PAIRED} -g gone --error-status 7 main /bin/a", "NoGroup", 7),
    ("list_of_long_arguments", DENY, f"{PAIRED} main /bin/a {'x' * 65537}", "TooLong", 1),
)

WRONG = "--same takes two absolute folders, as /bin=/usr/bin"
USAGES = (
    *((f"{command} --same {pair} {P} {rest}", WRONG)
        for command, rest in (("who", "/bin/a"), ("why", "ann /bin/a"))
        for pair in ("/bin", "bin=/usr/bin", "/bin=usr/bin", "/bin=", "=/usr/bin", "=", "/a=/b --same /bin", "bin --same /a=/b")),
    (f"{LIST} --same /bin main /bin/a", WRONG),
    (f"{LIST} --same bin=/usr/bin main", WRONG),
    ("who --same /bin --policy none /bin/a", WRONG),
    (f"who --same /bin=/usr/bin {P}", "<WORD>..."),
    (f"who {P} --usr-merge --usr-merge /bin/a", "the argument '--usr-merge' cannot be used multiple times"),
    (f"who {P} --no-same --no-same /bin/a", "the argument '--no-same' cannot be used multiple times"),
    (f"what --same /bin=/usr/bin {P} ann", "unexpected argument '--same' found"),
    (f"what --usr-merge {P} ann", "unexpected argument '--usr-merge' found"),
    (f"what --no-same {P} ann", "unexpected argument '--no-same' found"),
    (f"{LIST} --no-same main", "unexpected argument '--no-same' found"),
)
