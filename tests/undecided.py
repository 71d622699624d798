"""Runs `why`, `who` and `what` on random policies, and compares what they say was not decided with undecided_model.py.

Each case has a policy, a request and the members that were not decided and could have changed the answer. `why` has to print a
line for each place of one, in the order of the lines. `who` has to print the same lines of the user of the request, with his
name. `what` has to print those that could have changed where he has rules, or which Defaults lines hold of him. The rows of
EXACT are whole answers.
"""

import re
from random import Random

from program import Wanted
from stand import Folder, Stand
from undecided_model import GROUPS, MOMENT, PEOPLE, random_case

PART = "undecided"
CASES = 1500
WORDS = {
    "Digest": "the digest of the file is not compared",
    "Netgroup": "netgroups are not looked up",
    "NonUnixGroup": "non-Unix groups are not looked up",
    "Network": "no interface of the host is named",
    "OtherPath": "both paths may be one file",
}
LINE = re.compile(r"not decided: (?:(?P<user>\w+): )?main:(?P<row>\d+):(?P<column>\d+): .+: (?P<reason>[^:]+)")

PASSWD = "".join(f"{name}:x:{number}:{GROUPS[groups[0]]}:::\n" for name, (number, groups) in PEOPLE.items())
GROUP = "".join(
    f"{group}:x:{number}:{','.join(name for name, (_, groups) in PEOPLE.items() if group in groups[1:])}\n"
    for group, number in GROUPS.items()
)

# A policy, words, and what they print, with the exit status.
EXACT = (
    (
        "a_netgroup_that_could_deny",
        "ann ALL = ALL\n+ops ALL = !/bin/su\n",
        "why --no-same --policy main PEOPLE --host h ann /bin/su",
        "main:1:11: allowed by: (root) SETENV: ALL\nnot decided: main:2:1: +ops: netgroups are not looked up\n",
        0,
    ),
    (
        "a_netgroup_behind_which_a_rule_decides",
        "+ops ALL = !/bin/su\nann ALL = ALL\n",
        "why --no-same --policy main PEOPLE --host h ann /bin/su",
        "main:2:11: allowed by: (root) SETENV: ALL\n",
        0,
    ),
    (
        "a_denial_of_another_path",
        "ann ALL = ALL, !/bin/su\n",
        "why --no-same --policy main PEOPLE --host h ann /usr/bin/su",
        "main:1:11: allowed by: (root) SETENV: ALL\nnot decided: main:1:16: !/bin/su: both paths may be one file\n",
        0,
    ),
    (
        "a_listing_names_lists_of_users_and_hosts",
        "ann ALL = /bin/a\n+ops, !ann ALL = /bin/b\n%:staff ALL = /bin/c\nann 10.0.0.1 = /bin/d : h = /bin/e\nbob 10.0.0.1 = /bin/f\n",
        "what --policy main PEOPLE --host h ann",
        "ann on h:\n    main:1:11: (root) /bin/a\n    main:4:29: (root) /bin/e\n"
        "not decided: main:3:1: %:staff: non-Unix groups are not looked up\n"
        "not decided: main:4:5: 10.0.0.1: no interface of the host is named\n",
        0,
    ),
    (
        "a_listing_of_nothing_names_what_could_give_rights",
        "+ops ALL = /bin/a\n",
        "what --policy main PEOPLE --host h ann",
        "ann may run nothing on h.\nnot decided: main:1:1: +ops: netgroups are not looked up\n",
        1,
    ),
    (
        "a_listing_names_scopes_of_defaults_lines",
        "ann ALL = /bin/a\nDefaults:+web !authenticate\nDefaults:+web,ann lecture\nDefaults@10.0.0.1 env_reset\nDefaults>+web insults\nDefaults!/bin/a noexec\n",
        "what --policy main PEOPLE --host h ann",
        "ann on h:\n    main:1:11: (root) /bin/a\nDefaults:\n    main:3:1: Defaults:+web, ann lecture\n"
        "Defaults for some commands or runas users:\n    main:5:1: Defaults>+web insults\n    main:6:1: Defaults!/bin/a noexec\n"
        "not decided: main:2:10: +web: netgroups are not looked up\n"
        "not decided: main:4:10: 10.0.0.1: no interface of the host is named\n",
        0,
    ),
    (
        "who_names_the_user",
        "bob ALL = /bin/a\n%:staff ALL = sha224:00000000000000000000000000000000000000000000000000000000 /bin/a\n",
        "who --no-same --policy main PEOPLE --host h /bin/a",
        "bob: main:1:11: allowed by: (root) /bin/a\n"
        + "".join(
            f"not decided: {name}: main:2:1: %:staff: non-Unix groups are not looked up\n"
            f"not decided: {name}: main:2:15: sha224:{'0' * 56} /bin/a: the digest of the file is not compared\n"
            for name in ("ann", "bob", "root")
        ),
        0,
    ),
)


def words_of(request):
    """The words that ask the request of a policy, without the user and the command."""
    words = ["--no-same", "--policy", "main", *PEOPLE_WORDS, "--host", request.host, "--moment", MOMENT, "-u", request.target]
    words += ["--interfaces", request.interfaces] if request.interfaces else []
    return words + (["-g", request.group] if request.group else [])


def listing_words_of(request):
    """The words that ask for the rules of the user of a request, without the user."""
    words = ["--policy", "main", *PEOPLE_WORDS, "--host", request.host]
    return words + (["--interfaces", request.interfaces] if request.interfaces else [])


PEOPLE_WORDS = ("--passwd", "passwd", "--group-file", "group")


def lines_of(text, user):
    """The places and reasons of the lines of what was not decided, those of a user if one is named."""
    found = [LINE.fullmatch(line) for line in text.decode().splitlines() if line.startswith("not decided: ")]
    return [(int(it["row"]), int(it["column"]), it["reason"]) if it else None for it in found if it is None or it["user"] == user]


def wanted_lines(undecided):
    """The places and reasons of members that were not decided: each place once."""
    lines = {}
    for member in undecided:
        lines.setdefault((member.line + 1, member.start + 1), WORDS[member.reason])
    return [(row, column, reason) for (row, column), reason in sorted(lines.items())]


def run_case(stand, seed):
    """The case of a seed, by `why`, by `who` and by `what`."""
    policy, request, undecided, in_rights = random_case(Random(seed))
    asked = words_of(request)
    runs = (
        ("why", [*asked, request.user, *request.words], undecided),
        ("who", [*asked, *request.words], undecided),
        ("what", [*listing_words_of(request), request.user], in_rights),
    )
    with Folder({"main": policy.text, "passwd": PASSWD, "group": GROUP}) as folder:
        for command, words, members in runs:
            wanted = wanted_lines(members)
            came = stand.run([command, *words], folder)
            user = request.user if command == "who" else None
            problems = [] if lines_of(came.stdout, user) == wanted else [f"{came.stdout} for {policy.text}: {wanted}"]
            problems += [f"{came.stderr}"] if came.stderr else []
            stand.tally.note(f"{PART}: {command} of case {seed}", problems)


def run_all(program, tally):
    """Runs all of it."""
    stand = Stand(PART, program, tally)
    for name, policy, words, text, status in EXACT:
        with Folder({"main": policy, "passwd": PASSWD, "group": GROUP}) as folder:
            words = words.replace("PEOPLE", " ".join(PEOPLE_WORDS))
            stand.note(name, words, Wanted(text.encode(), status=status), folder)
    for seed in range(CASES):
        run_case(stand, seed)
