"""A model of what was not decided in an answer: which members of a small policy could have changed it.

`random_case(chance)` returns a policy, a request, and the members that `list_undecided_members` has to return for them. The
model follows the definitions and knows no trick of the code: it makes the flat list of each list and each row of the policy.
So policies have to be small.

A member is undecided if no file tells whether it matches: a netgroup, a non-Unix group, an address where no interface is
known, a command with a digest, or a path with the last name of the command in another folder. It can turn a list if no
member behind it matches and its sign is contrary to what the list says. It can turn a row if each part of the row holds or
can be turned, and the row fits or the part of the member does not hold. Rows count from the last one that fits.
"""

import sys
from collections import namedtuple
from random import Random

# A member as it is written: what it is, and the line and the byte at which it begins. `form` is one of FORMS.
Member = namedtuple("Member", "form text negated digest line start alias")
# A list of members, with its kind: user, runas, host or cmnd.
List = namedtuple("List", "kind members")
Definition = namedtuple("Definition", "kind name members")
# A setting of runas_default; `scope` is a List or None.
Setting = namedtuple("Setting", "scope value")
# A command with what is written before it; `runas` is a pair of Lists or None.
Command = namedtuple("Command", "runas ends member")
HostGroup = namedtuple("HostGroup", "hosts commands")
Spec = namedtuple("Spec", "users groups")
Policy = namedtuple("Policy", "text definitions settings specs")

# What is asked. A group is a name; `group` and `interfaces` may be empty.
Request = namedtuple("Request", "user host interfaces target group words")

# An atom of a flat list: a member that is no defined alias, and its sign with all `!` counted.
Placed = namedtuple("Placed", "member allow")
# A member that is undecided, as the library returns it.
Undecided = namedtuple("Undecided", "line start kind part reason alias")

# The users with their numbers and groups; the first is who asks. A group has a number too.
PEOPLE = {"ann": ("1001", ("ann", "ops")), "bob": ("1002", ("bob",)), "root": ("0", ("root",))}
GROUPS = {"root": "0", "ops": "50", "ann": "1001", "bob": "1002"}
HOST, INTERFACE = "www1", "10.0.0.7/8"
MOMENT, PAST, FUTURE = "20260131120000Z", "20250101000000Z", "20270101000000Z"
COMMAND = "/bin/ls"
DIGEST = "sha224:" + "0" * 56

# The forms of members in the lists of each kind: how often they come, and the texts.
FORMS = {
    "user": ((2, "all", ("ALL",)), (4, "name", ("ann", "bob", "eve")), (2, "group", ("%ops", "%bob")),
             (6, "netgroup", ("+u1", "+u2")), (2, "nonunix", ("%:x",)), (5, "alias", ("UA", "UB", "UC", "ZZ"))),
    "runas": ((2, "all", ("ALL",)), (4, "name", ("root", "bob", "ops")), (2, "group", ("%ops", "%root")),
              (6, "netgroup", ("+r1", "+r2")), (2, "nonunix", ("%:y",)), (5, "alias", ("RA", "RB", "RC", "ZZ"))),
    "host": ((2, "all", ("ALL",)), (4, "name", ("www1", "db")), (5, "netgroup", ("+h1", "+h2")),
             (4, "network", ("10.0.0.0/8", "11.0.0.0/8")), (5, "alias", ("HA", "HB", "HC", "ZZ"))),
    "cmnd": ((2, "all", ("ALL",)), (5, "path", ("/bin/ls", "/bin/ls -l", "/bin/cat", '/bin/ls ""')),
             (6, "path", ("/usr/bin/ls", "/usr/bin/ls -l", "/sbin/ls")), (5, "alias", ("CA", "CB", "CC", "ZZ"))),
}
NAMES = {"user": ("UA", "UB", "UC"), "runas": ("RA", "RB", "RC"), "host": ("HA", "HB", "HC"), "cmnd": ("CA", "CB", "CC")}
WORDS = {"user": "User_Alias", "runas": "Runas_Alias", "host": "Host_Alias", "cmnd": "Cmnd_Alias"}


# ---- policies


class Writer:
    """Writes a policy, and notes at which line and byte each member begins."""

    forms = FORMS
    negates = 0.3

    def __init__(self, chance):
        self.chance = chance
        self.lines = [""]
        self.alias = None

    def write(self, text):
        """Writes text on the last line."""
        self.lines[-1] += text

    def end_line(self):
        """Ends the last line."""
        self.lines.append("")

    def member(self, kind, names):
        """Writes a member that names no alias but these and ZZ, which is never defined."""
        forms = [(form, [text for text in texts if form != "alias" or text in names + ("ZZ",)]) for _, form, texts in self.forms[kind]]
        form, texts = self.chance.choices(forms, [often for often, _, _ in self.forms[kind]])[0]
        text = self.chance.choice(texts)
        digest = kind == "cmnd" and form == "path" and self.chance.random() < 0.25
        negated = not digest and self.chance.random() < self.negates
        start = len(self.lines[-1])
        self.write((DIGEST + " " if digest else "") + ("!" if negated else "") + text)
        return Member(form, text, negated, digest, len(self.lines) - 1, start, self.alias)

    def list(self, kind, most, names=None):
        """Writes a list."""
        members = []
        for at in range(self.chance.randint(1, most)):
            self.write(", " if at else "")
            members.append(self.member(kind, NAMES[kind] if names is None else names))
        return List(kind, members)

    def definitions(self):
        """Writes definitions of aliases. Each mentions those of its kind behind it alone, so none is cyclic."""
        found = []
        for kind, names in NAMES.items():
            for at, name in enumerate(names):
                if self.chance.random() < 0.7:
                    self.write(f"{WORDS[kind]} {name} = ")
                    self.alias = name
                    found.append(Definition(kind, name, self.list(kind, 3, names[at + 1 :]).members))
                    self.alias = None
                    self.end_line()
        return found

    def setting(self):
        """Writes a setting of runas_default."""
        kind = self.chance.choice((None, "user", "host", "runas"))
        self.write("Defaults" + {None: "", "user": ":", "host": "@", "runas": ">"}[kind])
        scope = kind and self.list(kind, 2)
        value = self.chance.choice(("root", "bob"))
        self.write(f" runas_default={value}")
        self.end_line()
        return Setting(scope, value)

    def runas(self):
        """Writes a Runas_Spec, and returns its two lists."""
        self.write("(")
        users = self.list("runas", 2) if self.chance.random() < 0.7 else List("runas", [])
        groups = List("runas", [])
        if self.chance.random() < 0.5:
            self.write(":")
            groups = self.list("runas", 2)
        self.write(") ")
        return users, groups

    def command(self):
        """Writes a command with what stands before it."""
        runas = self.runas() if self.chance.random() < 0.4 else None
        ends = self.chance.choice((PAST, FUTURE)) if self.chance.random() < 0.15 else None
        self.write(f"NOTAFTER={ends} " if ends else "")
        return Command(runas, ends, self.member("cmnd", NAMES["cmnd"]))

    def host_group(self):
        """Writes hosts and commands."""
        hosts = self.list("host", 2)
        self.write(" = ")
        commands = []
        for at in range(self.chance.randint(1, 3)):
            self.write(", " if at else "")
            commands.append(self.command())
        return HostGroup(hosts, commands)

    def spec(self):
        """Writes a user specification."""
        users = self.list("user", 3)
        groups = []
        for at in range(self.chance.randint(1, 2)):
            self.write(" : " if at else " ")
            groups.append(self.host_group())
        self.end_line()
        return Spec(users, groups)

    def policy(self):
        """Writes a policy."""
        definitions = self.definitions()
        settings = [self.setting() for _ in range(self.chance.choice((0, 0, 1, 2, 3)))]
        specs = [self.spec() for _ in range(self.chance.randint(1, 4))]
        return Policy("\n".join(self.lines), definitions, settings, specs)


# ---- what matches


def reason_of_user(member):
    """Returns why it is not known whether a member of users or groups matches, or None."""
    return {"netgroup": "Netgroup", "nonunix": "NonUnixGroup"}.get(member.form)


def user_matches(member, name):
    """Returns whether a member of users matches the user."""
    if member.form == "group":
        return member.text[1:] in PEOPLE[name][1]
    return member.form == "all" or (member.form in ("name", "alias") and member.text == name)


def group_matches(member, name):
    """Returns whether a member of groups matches the group."""
    return member.form == "all" or (member.form in ("name", "alias", "group") and member.text.lstrip("%") == name)


def host_matches(member, request):
    """Returns whether a member of hosts matches the host."""
    if member.form == "network":
        return bool(request.interfaces) and member.text.startswith("10.")
    return member.form == "all" or (member.form in ("name", "alias") and member.text == request.host)


def reason_of_host(member, request):
    """Returns why it is not known whether a member of hosts matches, or None."""
    if member.form == "network" and not request.interfaces:
        return "Network"
    return "Netgroup" if member.form == "netgroup" else None


def args_match(member, request):
    """Returns whether the arguments of a path match those of the request."""
    _, _, args = member.text.partition(" ")
    return not args or " ".join(request.words[1:]) == {'""': ""}.get(args, args)


def path_matches(member, request):
    """Returns whether a member of commands matches the command, its digest aside."""
    path = member.text.split(" ")[0]
    return member.form == "all" or (member.form == "path" and path == request.words[0] and args_match(member, request))


def command_matches(member, request):
    """Returns whether a member of commands matches the command."""
    return path_matches(member, request) and not member.digest


def reason_of_command(member, request):
    """Returns why it is not known whether a member of commands matches, or None."""
    if path_matches(member, request):
        return "Digest" if member.digest else None
    name = member.text.split(" ")[0].rpartition("/")[2]
    is_elsewhere = member.form == "path" and name == request.words[0].rpartition("/")[2] and args_match(member, request)
    return "OtherPath" if is_elsewhere else None


# ---- lists


Test = namedtuple("Test", "matches reason")


def flat_list(policy, kind, members):
    """Returns the flat list of members."""
    flat = []
    for member in members:
        inner = [d for d in policy.definitions if member.form == "alias" and (d.kind, d.name) == (kind, member.text)]
        if inner:
            atoms = flat_list(policy, kind, inner[0].members)
            flat += [atom._replace(allow=atom.allow != member.negated) for atom in atoms]
        else:
            flat.append(Placed(member, not member.negated))
    return flat


def says(flat, test, own):
    """Returns whether the last atom that matches allows; `own` where none matches."""
    said = [atom.allow for atom in flat if test.matches(atom.member)]
    return said[-1] if said else own


def turning(flat, test, own):
    """Returns the atoms that could turn what the list says."""
    contrary = not says(flat, test, own)
    found = []
    for at, atom in enumerate(flat):
        is_last = not any(test.matches(other.member) for other in flat[at + 1 :])
        if test.reason(atom.member) and is_last and atom.allow == contrary:
            found.append(atom)
    return found


class Part:
    """A part of a row: whether it holds, and the members that could turn it."""

    def __init__(self, holds, turns=()):
        self.holds = holds
        self.turns = list(turns)

    def may_hold(self):
        """Returns whether it holds or could be turned."""
        return self.holds or bool(self.turns)


def part_of_list(policy, part, kind, members, test, own=False):
    """Returns the part that a list is."""
    flat = flat_list(policy, kind, members)
    turns = [
        Undecided(at.line, at.start, kind, part, test.reason(at), at.alias)
        for at in (atom.member for atom in turning(flat, test, own))
    ]
    return Part(says(flat, test, own), turns)


# ---- rows


class Model:
    """A policy and a request."""

    def __init__(self, policy, request):
        self.policy = policy
        self.request = request
        self.user = Test(lambda m: user_matches(m, request.user), reason_of_user)
        self.target = Test(lambda m: user_matches(m, request.target), reason_of_user)
        self.group = Test(lambda m: group_matches(m, request.group), reason_of_user)
        self.host = Test(lambda m: host_matches(m, request), lambda m: reason_of_host(m, request))

    def has_group(self, name):
        """Returns whether no group is asked for, or the user has it."""
        return not self.request.group or self.request.group in PEOPLE[name][1]

    def scope_part(self, scope):
        """Returns whether a setting of this scope counts."""
        if scope is None:
            return Part(True)
        if scope.kind == "runas":
            return Part(False)
        test = self.user if scope.kind == "user" else self.host
        return part_of_list(self.policy, "RunasUsers", scope.kind, scope.members, test)

    def default_part(self):
        """Returns whether the user who is asked for is runas_default."""
        parts = [self.scope_part(setting.scope) for setting in self.policy.settings]
        last = max((at for at, part in enumerate(parts) if part.holds), default=None)
        name = "root" if last is None else self.policy.settings[last].value
        turns = [member for part in parts[last or 0 :] for member in part.turns]
        return Part(name == self.request.target, turns)

    def runas_parts(self, runas):
        """Returns whether the command may run as the user, and as the group, who are asked for."""
        request = self.request
        if runas is None:
            return self.default_part(), Part(self.has_group(request.target))
        users, groups = (lists.members for lists in runas)
        as_user = Part(request.target == request.user)
        as_group = Part(self.has_group(request.target if users else request.user))
        if users:
            as_user = part_of_list(self.policy, "RunasUsers", "runas", users, self.target)
        if groups and request.group:
            own = self.has_group(request.target)
            as_group = part_of_list(self.policy, "RunasGroups", "runas", groups, self.group, own)
        elif groups:
            as_group = Part(True)
        return as_user, as_group

    def command_part(self, member):
        """Returns whether a command that is no defined alias matches."""
        reason = reason_of_command(member, self.request)
        turns = [Undecided(member.line, member.start, "cmnd", "Command", reason, member.alias)] if reason else []
        return Part(command_matches(member, self.request), turns)

    def rows(self):
        """Yields the rows, each as a list of its parts."""
        for spec in self.policy.specs:
            users = part_of_list(self.policy, "Users", "user", spec.users.members, self.user)
            for group in spec.groups:
                hosts = part_of_list(self.policy, "Hosts", "host", group.hosts.members, self.host)
                runas, ends = None, None
                for command in group.commands:
                    runas, ends = command.runas or runas, command.ends or ends
                    shared = [users, hosts, *self.runas_parts(runas), Part(ends != PAST)]
                    for atom in flat_list(self.policy, "cmnd", [command.member]):
                        yield [*shared, self.command_part(atom.member)]

    def undecided(self):
        """Returns the undecided members that could have changed the answer, in order."""
        rows = list(self.rows())
        last = max((at for at, parts in enumerate(rows) if all(part.holds for part in parts)), default=0)
        found = set()
        for parts in rows[last:]:
            fits = all(part.holds for part in parts)
            if all(part.may_hold() for part in parts):
                found.update(member for part in parts if fits or not part.holds for member in part.turns)
        return sorted(found, key=in_order)

    def undecided_in_rights(self):
        """Returns the undecided members that could have changed where the user has rules, or which Defaults lines hold of him."""
        found = set()
        for scope in (setting.scope for setting in self.policy.settings):
            if scope and scope.kind != "runas":
                part, test = {"user": ("Users", self.user), "host": ("Hosts", self.host)}[scope.kind]
                found.update(part_of_list(self.policy, part, scope.kind, scope.members, test).turns)
        for spec in self.policy.specs:
            users = part_of_list(self.policy, "Users", "user", spec.users.members, self.user)
            found.update(users.turns)
            if users.holds:
                for group in spec.groups:
                    found.update(part_of_list(self.policy, "Hosts", "host", group.hosts.members, self.host).turns)
        return sorted(found, key=in_order)


def in_order(member):
    """Returns the key by which members are sorted."""
    return member.line, member.start, PARTS.index(member.part)


PARTS = ("Users", "Hosts", "RunasUsers", "RunasGroups", "Moment", "Command")


def random_request(chance):
    """Returns a request."""
    return Request(
        user="ann",
        host=HOST,
        interfaces=chance.choice(("", INTERFACE)),
        target=chance.choice(("root", "root", "bob", "ann")),
        group=chance.choice(("", "", "ops", "bob")),
        words=chance.choice(((COMMAND,), (COMMAND, "-l"))),
    )


def random_case(chance):
    """Returns a policy, a request, and the members that are undecided, in its answer and where the user's rights are listed."""
    policy = Writer(chance).policy()
    request = random_request(chance)
    model = Model(policy, request)
    return policy, request, model.undecided(), model.undecided_in_rights()


def main():
    """Prints the case of a seed."""
    policy, request, found, in_rights = random_case(Random(int(sys.argv[1]) if len(sys.argv) > 1 else 0))
    print(policy.text, request, *found, "in rights:", *in_rights, sep="\n")


if __name__ == "__main__":
    main()
