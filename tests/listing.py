"""`list` of each policy of the cases of `convert`, and of what `convert` prints of it.

A printed policy answers each request as the policy that was read, and so it has the same listing. With `-e` its listing
names members in place of aliases, but the answers are the same. If one of the two listings is an error, both are.
A policy that is not printed has the same error in both. With `-e` alone a cycle is an error of `convert` for all
requests, so the expanded policy is not compared.
"""

import os
import re

import cases
import rows
from program import Wanted, run
from tally import difference

PASSWD = b"root:x:0:0:::\nbob:x:1000:1000:::\nann:x:5:4:::\ncho:x:7:7:::\nx:x:8:5:::\n"
GROUP = b"root:x:0:\nadm:x:4:bob\nweb:x:5:\nusers:x:100:x\n"
FILES = (("passwd", PASSWD), ("group", GROUP))
WORDS = ("list", "--passwd", "passwd", "--group-file", "group", "--moment", "2026010100Z")
WHOSE = (
    ("-U", "bob", "--host", "h"),
    ("-U", "bob", "--host", "h1.example", "--interfaces", "10.1.2.9/24"),
    ("-U", "ann", "--host", "h"),
    ("-U", "x", "--host", "i"),
)
TARGETS = ((), ("-u", "ann"), ("-u", "root", "-g", "adm"), ("-g", "adm"))
PATH = re.compile(rb"/[a-z0-9/._]*[a-z0-9](?: [a-z0-9*/]+)?")
MOST_COMMANDS = 3

PRINTED = ("convert", "-f", "sudoers", "-")
EXPANDED = ("convert", "-f", "sudoers", "-e", "-")


def policies():
    """The policies of the cases of `convert`, each once, also those of cases that end in an error."""
    found = {}
    for case in rows.load_every().values():
        if [os.fsdecode(word) for word in case.words[:1]] == ["convert"]:
            in_folder = case.folder and cases.read_file(case.folder, "policy")
            found.setdefault(case.stdin if not in_folder else in_folder, case.name)
    return found


def commands_of(policy):
    """Some commands to ask of a policy: paths in it, with and without what follows them, and one that is in none."""
    found = [tuple(text.split(b" ")) for text in sorted(set(PATH.findall(policy)))]
    return [*found[:MOST_COMMANDS], (b"list",)]


def questions_of(policy):
    """Words after those of all questions: who asks of which command, as whom."""
    for place, command in enumerate(commands_of(policy)):
        whose, target = WHOSE[place % 2], TARGETS[(place + len(policy)) % len(TARGETS)]
        yield (*whose, *target, "-", "--", *command)


class Stand:
    """The program, and a policy with what is printed of it."""

    def __init__(self, program, policy):
        self.program = program
        self.policy = policy
        self.printed = self.run(PRINTED, policy)
        self.expanded = self.run(EXPANDED, policy)

    def run(self, words, policy):
        """What a run answers to these words and this policy."""
        return run(self.program, words, policy, files=FILES)

    def problems(self, words, other):
        """Where two policies answer these words differently."""
        here, there = self.run((*WORDS, *words), self.policy), self.run((*WORDS, *words), other)
        wanted = Wanted(here.stdout, here.stderr, here.status)
        return [f"{words}:", *wanted.problems(there)] if wanted.problems(there) else []

    def listings(self):
        """Where the printed policy has other listings or answers."""
        lines = [problem for whose in WHOSE for problem in self.problems((*whose, "-"), self.printed.stdout)]
        return lines + [problem for words in questions_of(self.policy) for problem in self.problems(words, self.printed.stdout)]

    def refusals(self):
        """Where `list` has another error than `convert` for a policy that is not printed."""
        wanted = Wanted(b"", self.printed.stderr, 1)
        return [problem for whose in WHOSE for problem in wanted.problems(self.run((*WORDS, *whose, "-"), self.policy))]

    def answers(self):
        """Where the policy without its aliases has other answers."""
        return [problem for words in questions_of(self.policy) for problem in self.problems(words, self.expanded.stdout)]


def run_policy(program, tally, name, policy):
    """Compares the listings and answers of one policy."""
    stand = Stand(program, policy)
    if stand.printed.status == 0:
        tally.note(f"list of {name}, printed", stand.listings())
    else:
        tally.note(f"list of {name}, not printed", stand.refusals())
    if stand.expanded.status == 0:
        tally.note(f"list of {name}, expanded", stand.answers())


def run_all(program, tally):
    """Compares those of all policies. Some of them have to list something, or the comparisons would show nothing."""
    listed = 0
    for policy, name in policies().items():
        run_policy(program, tally, name, policy)
        listed += run(program, (*WORDS, *WHOSE[0], "-"), policy, files=FILES).stdout.startswith(b"bob on h:\n")
    tally.note("policies that list something", difference("enough", True, listed > 50))
