"""Asks policies with `who --json`, `what --json` and `why --json`, and compares the documents with what is printed without `--json`.

A document has to say the same answer, rules, members and places, with the same exit status. The rows have whole documents. The
worked policies are asked for a command that stands in them, and those of asked_rows.py with its questions.
"""

import json
import os
import re
import subprocess

import json_compared as compared
from asked_rows import MACHINE, ONE, POLICIES, QUESTIONS, M
from cases import Case
from explaining import stand_in
from json_rows import advised, error, place
from preload import with_library
from program import NAME, Answer
from stand import Folder
from tally import difference

PART = "json"
REASONS = {
    "digest": b"the digest of the file is not compared",
    "netgroup": b"netgroups are not looked up",
    "non_unix_group": b"non-Unix groups are not looked up",
    "network": b"no interface of the host is named",
    "other_path": b"both paths may be one file",
}
PARTS = {"host": b"the host", "runas": b"the user or group as whom the command runs", "moment": b"the moment", "arguments": b"the arguments"}
PATH = re.compile(rb"/[a-z]+(?:/[a-z]+)*")
PEOPLE = {
    "passwd": b"root:x:0:0:::\nbob:x:1000:1000:::\nann:x:1001:4:::\neve:x:1002:27:::\n",
    "group": b"adm:x:4:ann\nwheel:x:10:bob\nsudo:x:27:\nweb:x:33:ann,bob\n",
}
ERROR_STATUS = 3


# ---- what a document says, as it is printed without --json


def placed_text(what):
    """Returns a place and its text."""
    return compared.place_text(what["place"]) + compared.bytes_of(what["text"])


def reason_text(user):
    """Returns the lines of the rule that decides."""
    if user["rule"] is None:
        return b"no rule matches\n"
    text = b"%s%s by: %s\n" % (compared.place_text(user["rule"]["place"]), user["answer"].encode(), compared.bytes_of(user["rule"]["text"]))
    member = user["member"]
    if member is not None:
        alias = b"in Cmnd_Alias " + compared.bytes_of(member["alias"]) + b": "
        text += compared.place_text(member["place"]) + alias + compared.bytes_of(member["text"]) + b"\n"
    return text


def undecided_text(answer, before):
    """Returns the lines of what was not decided, with a text before each place."""
    return b"".join(b"not decided: %s%s: %s\n" % (before, placed_text(one), REASONS[one["reason"]]) for one in answer["undecided"])


def who_text(document, denied):
    """Returns what `who` prints."""
    text = b""
    for user in document["users"]:
        if user["answer"] == "allowed" or denied and user["answer"] == "denied":
            name = compared.bytes_of(user["user"]) + b": "
            text += b"".join(name + line for line in reason_text(user).splitlines(keepends=True))
    text += b"" if document["allowed"] else b"no user may run it\n"
    return text + b"".join(undecided_text(user, compared.bytes_of(user["user"]) + b": ") for user in document["users"])


def why_text(document):
    """Returns what `why` prints."""
    (user,) = document["users"]
    near = b"".join(
        b"%smatches but for %s: %s\n" % (compared.place_text(one["place"]), PARTS[one["part"]], compared.bytes_of(one["text"])) for one in user["near"]
    )
    return reason_text(user) + near + undecided_text(user, b"")


def what_text(document):
    """Returns what `what` prints of a user whose name has letters alone."""
    heading = b"%s on %s:\n" if document["allowed"] else b"%s may run nothing on %s.\n"
    text = heading % (compared.bytes_of(document["user"]), compared.bytes_of(document["host"]))
    lists = ((b"", "commands"), (b"Defaults:\n", "defaults"), (b"Defaults for some commands or runas users:\n", "defaults_of_some"))
    for title, key in lists:
        if document[key]:
            text += title + b"".join(b"    %s\n" % placed_text(one) for one in document[key])
    return text + undecided_text(document, b"")


def answer_text(document, words):
    """Returns what the command of these words prints without `--json`."""
    if document["command"] == "who":
        return who_text(document, "--denied" in words)
    return why_text(document) if document["command"] == "why" else what_text(document)


def places_of(document):
    """Returns the places of a document of an answer."""
    found = [one["place"] for key in ("commands", "defaults", "defaults_of_some", "undecided") for one in document.get(key, ())]
    for user in document.get("users", ()):
        found += [one["place"] for one in (user["rule"], user["member"], *(user["near"] or ()), *user["undecided"]) if one]
    return found


def problems_of_asked(plain, came, words, files):
    """What is wrong with the document that is printed for these words, where the files have these bytes by their keys."""
    document, problems = compared.document_of(came.stdout)
    problems += difference("status", plain.status, came.status) + compared.stderr_problems(plain, came)
    if not document:
        return problems
    problems += difference("allowed", {0: True, 1: False}.get(plain.status), document["allowed"])
    if document["errors"]:
        return problems + difference("error", plain.stderr, NAME + compared.errors_text(document))
    problems += difference("answer", plain.stdout, answer_text(document, words))
    for where in places_of(document):
        problems += [] if compared.bytes_at(files, where) else [f"no bytes stand at {where}"]
    return problems


# ---- policies


def run_asked_policies(stand):
    """Each policy of asked_rows.py with each of its questions."""
    for name, tree, machine in POLICIES:
        with Folder({**MACHINE, **tree}) as folder:
            files = {compared.key_of(os.fsencode(file)): text.encode() for file, text in tree.items() if isinstance(text, str)}
            options = ["--policy", "main", "--passwd", "passwd", "--group-file", "group", *machine.split()]
            asked = [["what", *options, "bob"], ["what", "-e", *options, "cho"], ["what", *options, "nobody"]]
            for target, command in QUESTIONS:
                asked.append(["who", "--no-same", "--denied", *options, *target.split(), *command.split()])
                asked.append(["why", "--usr-merge", *options, *target.split(), "bob", *command.split()])
            for words in asked:
                plain, came = stand.run(words, folder), stand.run([words[0], "--json", *words[1:]], folder)
                stand.tally.note(f"{PART}: {name}, {' '.join(words)}", problems_of_asked(plain, came, words, files))


def people_of(ground):
    """Returns the words that name the people, a host and a moment."""
    folder = ground.put("people", [(name.encode(), text) for name, text in PEOPLE.items()])
    return ("--passwd", f"{folder}/passwd", "--group-file", f"{folder}/group", "--host", "h", "--moment", "2026010100Z")


def questions_about(files):
    """Returns what is asked of a policy with these files: of users, with a path that stands in it."""
    paths = sorted({path.decode() for text in files.values() for path in PATH.findall(text)}) or ["/bin/ls"]
    path = paths[len(b"".join(files.values())) % len(paths)]
    who, why = ("who", "--no-same"), ("why", "--no-same")
    return (
        (*who, "--denied", path),
        (*why, "bob", path),
        ("what", "bob"),
        (*why, "ann", path, "x"),
        ("what", "-e", "ann"),
        ("who", "--usr-merge", path),
    )


def problems_of_policy(ground, number, files, folder, file, stdin):
    """What is wrong with the document of one question about a policy, which is `file` in the folder."""
    asked = questions_about(files)
    command, *words = asked[number % len(asked)]
    words = ("--root", ".", "--policy", file, *people_of(ground), *words)
    plain, came = ground.start((command, *words), stdin, folder), ground.start((command, "--json", *words), stdin, folder)
    return [f"{command} {' '.join(words)}: {line}" for line in problems_of_asked(plain, came, words, files)]


# ---- rows


def asked(command, users=(), allowed=True, errors=(), same=()):
    """Returns the document of `who` or `why`."""
    allowed = None if errors else allowed
    return {"command": command, "policy": "main", "allowed": allowed, "errors": list(errors), "same": [list(pair) for pair in same], "users": list(users)}


def rights(user, host="h", errors=(), **lists):
    """Returns the document of `what`."""
    lists = {key: lists.get(key, []) for key in ("commands", "defaults", "defaults_of_some", "undecided")}
    allowed = None if errors else bool(lists["commands"])
    return {"command": "what", "policy": "main", "allowed": allowed, "errors": list(errors), "user": user, "host": None if errors else host, **lists}


def at(text, line, column, end, file="main", **known):
    """Returns a text that stands in one line."""
    return {"text": text, "place": place(file, line, column, line, end), **known}


def told(user, answer, rule=None, member=None, near=None, undecided=()):
    """Returns the answer to a user."""
    return {"user": user, "answer": answer, "rule": rule, "member": member, "near": near, "undecided": list(undecided)}


def of_words(text, cause, advice=None, file=None, reason=None):
    """Returns an error that is none of the policy."""
    where = None if file is None else place(file)
    hint = None if advice is None else {"text": advice, "place": where}
    return error(text, cause, where, kind="Run", hint=hint, reason=reason)


def whole(text, line, end_line, file="main"):
    """Returns a Defaults line."""
    return {"text": text, "place": place(file, line, 1, end_line, 1)}


MERGED = (("/bin", "/usr/bin"), ("/sbin", "/usr/sbin"))
NO_RULE = ("no_rule", None, None)
ALIAS = {**ONE, "main": "@include a\nbob ALL = A\n", "a": "Cmnd_Alias A = /bin/b, /bin/a\n"}
OF_ALIAS = (at("(root) A", 2, 11, 12), at("/bin/a", 1, 24, 30, "a", alias="A"))
DENY = {**ONE, "main": "bob ALL = ALL, !/bin/a\nroot ALL = NOPASSWD: /bin/a x\n"}
OPEN = {**ONE, "main": "bob ALL = ALL, !/usr/bin/a\n+ng ALL = /bin/b\n"}
NEAR = {**ONE, "main": "bob i = /bin/a\nbob ALL = (root : adm) /bin/a x\nbob ALL = (games) /bin/a\n"}
RIGHTS = {
    **ONE,
    "main": "Defaults env_reset\nDefaults:bob !authenticate, \\\n  x\nDefaults!/bin/a !lecture\nCmnd_Alias A = /bin/a, /bin/b\nbob ALL = NOPASSWD: A, (root, #1) /bin/c x\n",
}
ROWS = (
    ("a_rule_and_a_member", ALIAS, f"who --no-same --json {M} /bin/a", asked("who", [told("bob", "allowed", *OF_ALIAS)]), 0, b""),
    ("a_rule_and_a_member", ALIAS, f"why --no-same --json {M} bob /bin/a", asked("why", [told("bob", "allowed", *OF_ALIAS, [])]), 0, b""),
    ("no_user", ALIAS, f"who --no-same --json {M} /bin/c", asked("who", allowed=False), 1, b""),
    ("no_rule", ALIAS, f"why --no-same --json {M} root /bin/a", asked("why", [told("root", *NO_RULE, [])], False), 1, b""),
    ("a_denied_user_is_left_out", DENY, f"who --no-same --json {M} /bin/a", asked("who", allowed=False), 1, b""),
    (
        *("a_denied_user", DENY, f"who --no-same --denied --json {M} /bin/a"),
        asked("who", [told("bob", "denied", at("(root) !/bin/a", 1, 16, 23))], False),
        *(1, b""),
    ),
    ("a_denied_user", DENY, f"why --no-same --json {M} bob /bin/a", asked("why", [told("bob", "denied", at("(root) !/bin/a", 1, 16, 23), None, [])], False), 1, b""),
    (
        *("what_is_not_decided", OPEN, f"who --no-same --json {M} /bin/a"),
        asked("who", [told("bob", "allowed", at("(root) SETENV: ALL", 1, 11, 14), undecided=[at("!/usr/bin/a", 1, 16, 27, reason="other_path")])]),
        *(0, b""),
    ),
    (
        *("what_is_not_decided_without_a_rule", OPEN, f"who --no-same --json {M} /bin/b"),
        asked(
            "who",
            [
                told("bob", "allowed", at("(root) SETENV: ALL", 1, 11, 14), undecided=[at("+ng", 2, 1, 4, reason="netgroup")]),
                told("root", *NO_RULE, undecided=[at("+ng", 2, 1, 4, reason="netgroup")]),
            ],
        ),
        *(0, b""),
    ),
    (
        *("folders_that_are_one", OPEN, f"why --usr-merge --json {M} bob /bin/a"),
        asked("why", [told("bob", "denied", at("(root) !/usr/bin/a", 1, 16, 27), None, [])], False, same=MERGED),
        *(1, b""),
    ),
    ("a_pair_of_folders", OPEN, f"who --same /=/b --no-same --json {M} /c", asked("who", [told("bob", "allowed", at("(root) SETENV: ALL", 1, 11, 14))], same=[("/", "/b")]), 0, b""),
    (
        *("what_matches_but_for_one_thing", NEAR, f"why --no-same --json {M} bob /bin/a"),
        asked(
            "why",
            [
                told(
                    *("bob", *NO_RULE),
                    [
                        at("(root) /bin/a", 1, 9, 15, part="host"),
                        at("(root : adm) /bin/a x", 2, 24, 32, part="arguments"),
                        at("(games) /bin/a", 3, 19, 25, part="runas"),
                    ],
                )
            ],
            False,
        ),
        *(1, b""),
    ),
    (
        *("rights", RIGHTS, f"what --json {M} bob"),
        rights(
            "bob",
            commands=[at("(root) NOPASSWD: A", 6, 21, 22), at("(root, #1) NOPASSWD: /bin/c x", 6, 35, 43)],
            defaults=[whole("Defaults env_reset", 1, 2), whole("Defaults:bob !authenticate, x", 2, 4)],
            defaults_of_some=[whole("Defaults!/bin/a !lecture", 4, 5)],
        ),
        *(0, b""),
    ),
    (
        *("expanded_rights", {**RIGHTS, "main": "Cmnd_Alias A = /bin/a, /bin/b\nbob ALL = A\n"}, f"what -e --json {M} bob"),
        rights("bob", commands=[at("(root) /bin/a", 2, 11, 12), at("(root) /bin/b", 2, 11, 12)]),
        *(0, b""),
    ),
    ("no_rights", ALIAS, f"what --json {M} root", rights("root"), 1, b""),
    (
        *("what_is_not_decided", OPEN, f"what --json {M} bob"),
        rights(
            "bob",
            commands=[at("(root) ALL", 1, 11, 14), at("(root) !/usr/bin/a", 1, 16, 27)],
            undecided=[at("+ng", 2, 1, 4, reason="netgroup")],
        ),
        *(0, b""),
    ),
    (
        *("a_name_that_is_not_utf_8", {"passwd": b"b\xff:x:1:1:::\nroot:x:0:0:::\n", "main": b"b\xff ALL = (root, \xfe) /bin/a\n"}),
        f"who --no-same --json {M} /bin/a",
        asked("who", [told({"bytes": "62ff"}, "allowed", at({"bytes": b"(root, \xfe) /bin/a".hex()}, 1, 20, 26))]),
        *(0, b""),
    ),
    (
        *("no_such_user", ALIAS, f"what --json {M} zoe"),
        rights("zoe", errors=[of_words("NoUser", "NoUser", "zoe has no row in passwd")]),
        *(3, NAME + b"NoUser\n"),
    ),
    (
        *("no_such_user", ALIAS, f"why --no-same --json --explain {M} zoe /bin/a"),
        asked("why", errors=[of_words("NoUser", "NoUser", "zoe or the user of runas_default (root without it) has no row in passwd")]),
        *(3, NAME + b"NoUser\n"),
    ),
    (
        *("a_circle", {**ONE, "main": "Cmnd_Alias A = A\nbob ALL = A\n"}, f"who --no-same --json {M} /bin/a"),
        asked("who", errors=[of_words("Cycle", "Cycle", "an alias leads back to itself: `check` prints the aliases of the circle")]),
        *(3, NAME + b"Cycle\n"),
    ),
    (
        *("a_wrong_row", {**ONE, "main": "", "passwd": "root:x:0:0:::\nbob\n"}, f"who --no-same --json {M} /bin/a"),
        asked(
            "who",
            errors=[of_words("passwd:2: BadRow", "BadRow", "a row of passwd has seven fields between `:`, of which the third and fourth are numbers")],
        ),
        *(3, NAME + b"passwd:2: BadRow\n"),
    ),
    (
        *("no_file_of_users", {"main": "", "group": ""}, f"what --json {M} bob"),
        rights("bob", errors=[of_words("passwd: Read", "Read", file="passwd", reason="no such file")]),
        *(3, NAME + b"passwd: Read\n"),
    ),
    (
        *("no_policy", {}, f"who --no-same --json {M} /bin/a"),
        asked("who", errors=[error("NoRoot", "NoRoot", place("main"), kind="Gather", reason="no such file")]),
        *(3, NAME + b"NoRoot\n"),
    ),
    (
        *("an_error_of_the_policy", {**ONE, "main": "bob ALL\n"}, f"why --no-same --json {M} bob /bin/a"),
        asked(
            "why",
            errors=[
                advised(
                    *("main:1:8: syntax error: EndOfLine", "EndOfLine", place("main", 1, 8, 1, 8)),
                    "write `=` between the hosts and the commands: `USER HOST = COMMAND`",
                    expected=["equal", "comma"],
                )
            ],
        ),
        *(3, NAME + b"main:1:8: syntax error: EndOfLine\n"),
    ),
)

# Words and a tree, of which each growth of memory is refused.
GROWTHS = (
    (f"who --no-same --denied --json {M} /bin/a", OPEN),
    (f"why --usr-merge --json {M} bob /bin/a", ALIAS),
    (f"why --no-same --json {M} bob /bin/a", NEAR),
    (f"what --json {M} bob", RIGHTS),
    (f"what -e --json {M} bob", RIGHTS),
    (f"why --no-same --json {M} zoe /bin/a", ALIAS),
)


def run_rows(stand):
    """Compares the document of each row."""
    for name, tree, words, document, status, stderr in ROWS:
        with Folder({"group": "adm:x:4:\n", **MACHINE, **tree} if "passwd" in tree else tree) as folder:
            came = stand.run(words, folder)
        printed, problems = compared.document_of(came.stdout)
        problems += difference("stderr", stderr, came.stderr) + difference("status", status, came.status)
        problems += difference("document", json.dumps(document, sort_keys=True), json.dumps(printed, sort_keys=True))
        stand.tally.note(f"{PART}: {name}, {words}", problems)


def run_full_device(stand):
    """A document that cannot be written is the error `Write`; of an error that error is printed."""
    for words, told_error in ((f"who --no-same --json {M} /bin/a", b"Write"), (f"what --json {M} bob", b"Write"), (f"what --json {M} zoe", b"NoUser")):
        with Folder({**MACHINE, **ALIAS}) as folder, open("/dev/full", "wb") as full:
            done = subprocess.run([stand.program, *words.split()], stdout=full, stderr=subprocess.PIPE, cwd=folder, env={}, check=False)
        problems = difference("stderr", NAME + told_error + b"\n", done.stderr) + difference("status", ERROR_STATUS, done.returncode)
        stand.tally.note(f"{PART}: {words} on a full device", problems)


def run_growths(stand):
    """If a growth of memory is refused, the whole document comes, with or without the error, or none and the error of memory."""

    def check(library):
        for words, tree in GROWTHS:
            with Folder({**MACHINE, **tree}) as folder:
                ample = stand.run(words, folder)
                case = Case(words, tuple(words.split()), b"", stand_in(ample), folder=folder)
                without = {Answer(b"", text, status) for text in (NAME + b"NoMemory\n", b"", ample.stderr) for status in (1, ERROR_STATUS)}
                allowed = {ample, Answer(ample.stdout, b"", ample.status), *without}
                came = set()
                for refusal in ("refuse_growth", "refuse_from"):
                    for number, (answer, _) in enumerate(library.run_each(stand.program, case, refusal), 1):
                        stand.tally.note(f"{PART}: {words}, {refusal} {number}", [] if answer in allowed else [f"came {answer}"])
                        came.add(answer)
                problems = [] if ample in came and len(came) > 1 else ["no growth is refused"]
                stand.tally.note(f"{PART}: {words}, answers", problems)

    with_library(stand.tally, check)


def run_all(stand):
    """Runs all of it but the worked policies."""
    run_rows(stand)
    run_full_device(stand)
    run_asked_policies(stand)
    run_growths(stand)
