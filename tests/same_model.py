"""A model of answers where folders have two names, and of the rules that match in all parts but one.

`random_question(chance)` returns a policy, a request and pairs of folders. `answer(question)` returns the place of the rule that
decides and whether it allows, `near_misses(question)` the rules that match but for one part, and `undecided(question)` what was
not decided. The policies, and what matches in them, are those of undecided_model.py.

A command has its own spelling, and one for each pair: with the second folder in place of the first, or the first in place of
the second. The last rule decides that matches one of the spellings.
"""

from collections import namedtuple

from undecided_model import FORMS, PARTS, PAST, Model, Part, Writer, command_matches, flat_list, part_of_list, path_matches, random_request

Question = namedtuple("Question", "policy request pairs")
# A command of a rule: its member, and its other parts.
Rule = namedtuple("Rule", "member users host runas moment")

WORDS = {
    "host": "the host",
    "runas": "the user or group as whom the command runs",
    "moment": "the moment",
    "arguments": "the arguments",
}
PAIRS = (
    (("/bin", "/usr/bin"),),
    (("/usr/bin", "/bin"), ("/sbin", "/usr/sbin")),
    (("/sbin", "/bin"),),
    (("/sbin", "/usr/bin"), ("/bin", "/usr/bin")),
    (("/bin", "/usr/bin"), ("/bin", "/sbin")),
    (("/etc", "/usr/etc"),),
    (),
)
PATHS = ("/bin/ls", "/usr/bin/ls", "/sbin/ls", "/bin/cat")


# How often the forms of members come here: more rules match, or match but for one part.
OFTEN = {
    "user": {"all": 24, "name": 6, "alias": 2, "netgroup": 1, "nonunix": 0, "group": 4},
    "runas": {"all": 40, "name": 8, "alias": 2, "netgroup": 1, "nonunix": 0, "group": 1},
    "host": {"all": 20, "name": 8, "alias": 2, "netgroup": 1, "network": 1},
    "cmnd": {"all": 1, "path": 8, "alias": 3},
}


class MatchingWriter(Writer):
    """Writes a policy, of which more rules match."""

    negates = 0.1
    forms = {kind: tuple((OFTEN[kind][form], form, texts) for _, form, texts in rows) for kind, rows in FORMS.items()}


def random_question(chance):
    """Returns a question."""
    policy, request = chance.choice((Writer, MatchingWriter, MatchingWriter, MatchingWriter))(chance).policy(), random_request(chance)
    changes = {"words": (chance.choice(PATHS), *request.words[1:]), "group": chance.choice(("", "", "", request.group))}
    return Question(policy, request._replace(**changes), chance.choice(PAIRS))


def spellings(question):
    """Returns the request with each spelling of its command, its own first."""
    path, *args = question.request.words
    found = [path]
    for pair in question.pairs:
        for before, after in (pair, pair[::-1]):
            if path.startswith(before + "/"):
                found.append(after + path[len(before) :])
    return [question.request._replace(words=(path, *args)) for path in found]


def rules(question):
    """Yields the rules in order: one for each command."""
    policy, model = question.policy, Model(question.policy, question.request)
    for spec in policy.specs:
        users = part_of_list(policy, "Users", "user", spec.users.members, model.user)
        for group in spec.groups:
            host = part_of_list(policy, "Hosts", "host", group.hosts.members, model.host)
            runas, ends = None, None
            for command in group.commands:
                runas, ends = command.runas or runas, command.ends or ends
                both = all(part.holds for part in model.runas_parts(runas))
                yield Rule(command.member, users, host, Part(both), Part(ends != PAST))


def hits(question, member):
    """Returns the signs of the atoms of a command that match a spelling."""
    flat = flat_list(question.policy, "cmnd", [member])
    return [atom.allow for atom in flat if any(command_matches(atom.member, request) for request in spellings(question))]


def hits_path(question, member):
    """Returns whether an atom of a command matches a spelling, whatever the arguments are."""
    flat = [atom.member for atom in flat_list(question.policy, "cmnd", [member])]
    bare = [atom._replace(text=atom.text.split(" ")[0]) for atom in flat if not atom.digest]
    return any(path_matches(atom, request) for atom in bare for request in spellings(question))


def answer(question):
    """Returns the member of the rule that decides, and whether it allows, or None."""
    found = None
    for rule in rules(question):
        signs = hits(question, rule.member)
        if signs and all(part.holds for part in rule[1:]):
            found = rule.member, signs[-1]
    return found


def missed_part(question, rule):
    """Returns the one part in which a rule does not match, or None."""
    missed = [name for name in ("host", "runas", "moment") if not getattr(rule, name).holds]
    if not rule.users.holds or len(missed) > 1:
        return None
    is_hit = bool(hits(question, rule.member))
    if missed:
        return missed[0] if is_hit else None
    return "arguments" if not is_hit and hits_path(question, rule.member) else None


def near_misses(question):
    """Returns the members of the rules that match but for one part, each with this part, where no rule matches."""
    if answer(question):
        return []
    found = [(rule.member, missed_part(question, rule)) for rule in rules(question)]
    return [(member, part) for member, part in found if part]


def is_decided(question, member):
    """Returns whether a member that stands for another path matches a spelling."""
    return any(path_matches(member, request) for request in spellings(question))


def undecided(question):
    """Returns what was not decided: that of each spelling, but for paths that match another one."""
    at = {(member.line, member.start): member for member in members(question.policy)}
    found = set()
    for request in spellings(question):
        for one in Model(question.policy, request).undecided():
            if one.reason != "OtherPath" or not is_decided(question, at[one.line, one.start]):
                found.add(one)
    return sorted(found, key=lambda member: (member.line, member.start, PARTS.index(member.part)))


def members(policy):
    """Yields the members of commands of a policy."""
    for definition in policy.definitions:
        if definition.kind == "cmnd":
            yield from definition.members
    for spec in policy.specs:
        for group in spec.groups:
            yield from (command.member for command in group.commands)
