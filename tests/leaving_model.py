"""Random policies that a user leaves, and a model of what they are then: lists of members, each with the bytes before it."""

SEED = 11
ALIASES = ("OPS", "DEV", "WEB", "SUP")
# Names that are no alias, BOB included: it is the name of a user as long as no line defines it.
USERS = ("bob", "BOB", "bob", '"bob"', "ann", "carol", "bobby")
WIDER = {"%adm": "may be in this group", "#7": "may have this ID", "+net": "may be in this netgroup", "ALL": "is one of all users"}
# visudo takes no line end within a scope, so the last is for rules and aliases alone.
GAPS = (", ", ",", " , ", ", \\\n    ")
GAPS_OF_SCOPE = GAPS[:-1]


def name_of(member):
    """What a member says, without signs and quotes."""
    return member.lstrip("!").strip('"')


def is_negated(member):
    """Whether an odd number of `!` stands before a member."""
    return (len(member) - len(member.lstrip("!"))) % 2 == 1


class List:
    """Members, with the bytes between them."""

    def __init__(self, draw, aliases, most, gaps=GAPS):
        self.members = [self.drawn(draw, aliases) for _ in range(draw.randint(1, most))]
        self.gaps = [draw.choice(gaps) for _ in self.members]

    @staticmethod
    def drawn(draw, aliases):
        """A member: a user, an alias, or now and then something wider."""
        kind = draw.random()
        if kind < 0.35 and aliases:
            member = draw.choice(aliases)
        else:
            member = draw.choice(USERS) if kind < 0.9 else draw.choice(list(WIDER))
        return draw.choice(("!", "!!")) + member if draw.random() < 0.06 else member

    def text(self):
        """The list as it is written: the first member has no bytes before it."""
        return "".join((gap if number else "") + member for number, (gap, member) in enumerate(zip(self.gaps, self.members)))

    def without(self, goes):
        """The list without the members that go."""
        left = List.__new__(List)
        stays = [(gap, member) for gap, member in zip(self.gaps, self.members) if not goes(member)]
        left.gaps, left.members = [gap for gap, _ in stays], [member for _, member in stays]
        return left


class Line:
    """A rule, a Defaults line for users, or definitions of aliases."""

    def __init__(self, form, lists, names):
        self.form, self.lists, self.names = form, lists, names

    def text(self):
        """The line as it is written, or nothing if no list is left."""
        if not self.lists:
            return ""
        if self.form == "alias":
            return "User_Alias " + " : ".join(f"{name} = {one.text()}" for name, one in zip(self.names, self.lists)) + " # c\n"
        return f"Defaults:{self.lists[0].text()} !lecture\n" if self.form == "scope" else f"{self.lists[0].text()} ALL = ALL\n"

    def places(self):
        """Yields each member with the offset at which it stands."""
        at = {"alias": len("User_Alias "), "scope": len("Defaults:"), "rule": 0}[self.form]
        for number, one in enumerate(self.lists):
            at += len(f"{self.names[number]} = ") if self.form == "alias" else 0
            for place, (gap, member) in enumerate(zip(one.gaps, one.members)):
                at += len(gap) if place else 0
                yield member, at
                at += len(member)
            at += len(" : ")


class RandomPolicy:
    """Lines of two files: those of `main` before an include line, those of `part`, and those of `main` after it."""

    def __init__(self, draw):
        names = list(draw.sample(ALIASES, draw.randint(1, 4)))
        lines, left = [], names[:]
        while left:
            count = draw.randint(1, 2)
            defined, left = left[:count], left[count:]
            lines.append(Line("alias", [List(draw, names[names.index(name) + 1 :], 3) for name in defined], defined))
        lines += [Line("rule", [List(draw, names, 4)], ()) for _ in range(draw.randint(1, 3))]
        lines += [Line("scope", [List(draw, names, 3, GAPS_OF_SCOPE)], ()) for _ in range(draw.randint(0, 2))]
        draw.shuffle(lines)
        cuts = sorted(draw.randint(0, len(lines)) for _ in range(2))
        self.names, self.parts = names, (lines[: cuts[0]], lines[cuts[0] : cuts[1]], lines[cuts[1] :])

    def files(self, change=lambda line: line):
        """The files, of which each line may be changed."""
        first, middle, last = ("".join(change(line).text() for line in lines) for lines in self.parts)
        return {"main": f"{first}@include part\n{last}", "part": middle}

    def placed_lines(self):
        """Yields each line with its file and the number of its first physical line."""
        row = 1
        for number, lines in enumerate(self.parts):
            begun, row = row, 1 if number == 1 else row
            for line in lines:
                yield line, "part" if number == 1 else "main", row
                row += line.text().count("\n")
            row = row + 1 if number == 0 else begun if number == 1 else row

    def has_wider_members(self):
        """Whether some member may be the user without his name."""
        return any(name_of(member) in WIDER for line, _, _ in self.placed_lines() for one in line.lists for member in one.members)

    def is_named(self, member, user):
        """Whether a member is the name of the user."""
        return name_of(member).lower() == user and name_of(member) not in self.names

    def aliases_of(self, user, which):
        """The aliases of which any member, or all, are the user or such an alias."""
        found, before = set(), None
        while before != found:
            before = set(found)
            for line, _, _ in self.placed_lines():
                for name, one in zip(line.names, line.lists):
                    if which(self.is_named(member, user) or name_of(member) in found for member in one.members):
                        found.add(name)
        return found

    def error_of(self, line, user, any_of, all_of, even_denials):
        """Why the user cannot go from a line, if he cannot."""
        members = [member for one in line.lists for member in one.members]
        is_scope = line.form == "scope"
        denied = [member for member in members if is_negated(member) and (name_of(member) in any_of or (not is_scope and self.is_named(member, user)))]
        if denied and not even_denials:
            return f"Denial: {{}}: this denies something to {user} or to an alias with {user}; --even-denials goes on"
        if is_scope and all(name_of(member) in all_of for member in members):
            return "EmptiedScope: {}: the Defaults line would be for all users; lacks-line takes it out"
        return None

    def notes_of(self, user):
        """The notes about the user."""
        notes = []
        for line, file, row in self.placed_lines():
            for member, at in line.places():
                before = line.text()[:at]
                place = f"{file}:{row + before.count(chr(10))}:{at - before.rfind(chr(10))}"
                if name_of(member) in WIDER:
                    notes.append(f"sudoers_tool: {place}: {member}: {user} {WIDER[name_of(member)]}\n")
                elif line.form == "scope" and self.is_named(member, user):
                    notes.append(f"sudoers_tool: {place}: {member}: {user} stays in the scope of a Defaults line\n")
        return "".join(notes)

    def left(self, user, even_denials):
        """The files without the user, the error and the notes."""
        any_of, all_of = self.aliases_of(user, any), self.aliases_of(user, all)
        for line, file, row in self.placed_lines():
            error = self.error_of(line, user, any_of, all_of, even_denials)
            if error is not None:
                return None, error.format(f"{file}:{row}"), None

        def goes(line):
            return lambda member: name_of(member) in all_of or (line.form != "scope" and self.is_named(member, user))

        def changed(line):
            lists = [one.without(goes(line)) for one in line.lists]
            names = [name for name, one in zip(line.names, lists) if one.members]
            return Line(line.form, [one for one in lists if one.members], names)

        return self.files(changed), None, self.notes_of(user)
