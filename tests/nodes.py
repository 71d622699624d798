"""Draws what a line says as a short text.

    defaults for KIND [MEMBERS]: PARAMETERS
    alias KIND: NAME [MEMBERS] : NAME [MEMBERS]
    spec [USERS] [HOSTS] = COMMANDS : [HOSTS] = COMMANDS

A member is its digests, `!` if it is negated, a word for its form and what is in it. A command has `none` after it
if it takes no arguments, or `args` and their pattern. With places, `START..STOP` comes before each member and
definition. A byte that cannot be seen has its picture, and any other byte that is no sign of ASCII is `⟨ff⟩`. So a
space comes only between two things.
"""

import said
from tables import drawn_text

KINDS = {"User": "user", "Runas": "runas", "Host": "host", "Cmnd": "cmnd"}
DIGESTS = {"Sha224": "sha224:", "Sha256": "sha256:", "Sha384": "sha384:", "Sha512": "sha512:"}
OPERATORS = {"Set": "=", "Add": "+=", "Remove": "-="}
SIGN = {True: "!", False: ""}
NO = {True: "", False: "NO"}
INCLUDE = {True: "includedir ", False: "include "}
OPTIONS = {
    "Role": "ROLE=",
    "Type": "TYPE=",
    "ApparmorProfile": "APPARMOR_PROFILE=",
    "Privs": "PRIVS=",
    "Limitprivs": "LIMITPRIVS=",
    "Notbefore": "NOTBEFORE=",
    "Notafter": "NOTAFTER=",
    "Timeout": "TIMEOUT=",
    "Cwd": "CWD=",
    "Chroot": "CHROOT=",
}
TAGS = {
    "Exec": "EXEC: ",
    "Follow": "FOLLOW: ",
    "Intercept": "INTERCEPT: ",
    "LogInput": "LOG_INPUT: ",
    "LogOutput": "LOG_OUTPUT: ",
    "Mail": "MAIL: ",
    "Passwd": "PASSWD: ",
    "Setenv": "SETENV: ",
}
# The words of members that are a name.
NAMED = {
    "Alias": "alias",
    "Name": "name",
    "Group": "group",
    "NonUnix": "nonunix",
    "Netgroup": "netgroup",
    "Host": "host",
}


def drawn_syntax(line):
    """The error of a line: a `^` below its byte, and its cause. None if the line is read."""
    if not line.startswith("Err("):
        return None
    _, fault = said.read(line)
    if isinstance(fault, dict) and fault[""] == "Syntax":
        return " " * fault["at"] + "^ " + fault["why"]
    return line


def held_in(form, value):
    """What a variant with this name and one part holds."""
    word, held = value
    if word != form:
        raise ValueError(word)
    return held


def items(listed):
    """The items of a list, or of the type `Items`."""
    if isinstance(listed, dict) and listed[""] == "Items":
        return listed["items"]
    if not isinstance(listed, list):
        raise ValueError(listed)
    return listed


def text(listed):
    """A list of bytes, drawn."""
    return drawn_text(items(listed))


def address(held):
    """An address: its number in four parts."""
    return ".".join(str(held["number"] >> shift & 255) for shift in (24, 16, 8, 0))


def mask(held):
    """A mask, as it was written."""
    if held[0] == "Bits":
        return f"/{held[1]}"
    return "/" + address(held_in("Dotted", held))


def args(held):
    """What is said of a command's arguments."""
    if isinstance(held, list):
        return " args " + text(held_in("Pattern", held))
    return {"Any": "", "Nothing": " none"}[held]


class Drawing:
    """A drawing with the places of members and definitions, or without."""

    def __init__(self, places):
        self.places = places

    def place(self, held):
        return f"{held['start']}..{held['stop']} " if self.places else ""

    def atom(self, held):
        if isinstance(held, dict):
            if held[""] == "Path":
                return "path " + text(held["path"]) + args(held["args"])
            return {"Sudoedit": "sudoedit"}[held[""]] + args(held["args"])
        if isinstance(held, str):
            return {"All": "all", "Listing": "list"}[held]
        form, *parts = held
        if form in NAMED:
            return f"{NAMED[form]} {text(parts[0])}"
        if form in ("Id", "GroupId"):
            return f"{ {'Id': 'id', 'GroupId': 'gid'}[form] } {parts[0]}"
        if form == "Address":
            return "address " + address(parts[0])
        return {"Network": "network "}[form] + address(parts[0]) + mask(parts[1])

    def member(self, held):
        digests = "".join(DIGESTS[it["kind"]] + text(it["text"]) + " " for it in items(held["digests"]))
        return self.place(held) + digests + SIGN[held["negated"]] + self.atom(held["atom"])

    def members(self, listed):
        return "[" + ", ".join(self.member(held) for held in items(listed)) + "]"

    def runas(self, held):
        """Whom a command is run as. A list without members is left out."""
        users = self.members(held["users"]) if items(held["users"]) else ""
        groups = ":" + self.members(held["groups"]) if items(held["groups"]) else ""
        return f"({users}{groups}) "

    def command(self, held):
        runas = "" if held["runas"] == "None" else self.runas(held_in("Some", held["runas"]))
        options = "".join(OPTIONS[name] + text(value) + " " for name, value in items(held["options"]))
        tags = "".join(NO[on] + TAGS[tag] for tag, on in items(held["tags"]))
        return runas + options + tags + self.member(held["member"])

    def group(self, held):
        return self.members(held["hosts"]) + " = " + ", ".join(map(self.command, items(held["commands"])))

    def definition(self, held):
        return self.place(held) + text(held["name"]) + " " + self.members(held["members"])

    def param(self, held):
        drawn = SIGN[held["negated"]] + text(held["name"])
        if held["setting"] == "None":
            return drawn
        setting = held_in("Some", held["setting"])
        return drawn + OPERATORS[setting["operator"]] + text(setting["value"])

    def scope(self, held):
        if held == "None":
            return ""
        scope = held_in("Some", held)
        return f" for {KINDS[scope['kind']]} {self.members(scope['members'])}"

    def node(self, held):
        """What a line says."""
        if isinstance(held, str):
            return {"Blank": "blank", "Comment": "comment"}[held]
        form = held[""]
        if form == "Include":
            return INCLUDE[held["dir"]] + text(held["path"])
        if form == "Defaults":
            return "defaults" + self.scope(held["scope"]) + ": " + ", ".join(map(self.param, items(held["params"])))
        if form == "Alias":
            return f"alias {KINDS[held['kind']]}: " + " : ".join(map(self.definition, items(held["defs"])))
        groups = " : ".join(map(self.group, items(held["groups"])))
        return f"{ {'Spec': 'spec'}[form] } {self.members(held['users'])} {groups}"


def drawn_node(held, places):
    """What a line says, with places or without."""
    return Drawing(places).node(held)


def drawn_aliases(line):
    """The aliases that a line mentions, or its error. Of each: the kind of its list, its name and where it ends."""
    syntax = drawn_syntax(line)
    if syntax is not None:
        return syntax
    aliases = held_in("Ok", said.read(line))
    return " ".join(f"{it['kind']} {drawn_text(it['name'])} {it['stop']}" for it in aliases)
