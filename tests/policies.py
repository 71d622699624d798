"""Draws what the libraries of policies and editors answer, as the tables of `tree`, `check` and `edit` write it."""

import json
import re

import said
from nodes import items
from tables import drawn_text

KINDS = ("user", "runas", "host", "cmnd")


def bytes_of(line):
    """The bytes that a line writes as a list of numbers."""
    return bytes(json.loads(line))


def drawn_part(line, member):
    """The member as its part of the line."""
    return drawn_text(line[member["start"] : member["stop"]])


def drawn_members(line, members):
    """Members in brackets."""
    return "[" + ", ".join(drawn_part(line, member) for member in members) + "]"


def drawn_command(line, command):
    """A command, with the users and groups to run it as if there are some."""
    runas = ""
    if command["runas"] != "None":
        users, groups = (items(command["runas"][1][field]) for field in ("users", "groups"))
        runas = (drawn_members(line, users) if users else "") + (":" + drawn_members(line, groups) if groups else "")
        runas = f"({runas}) "
    return runas + drawn_part(line, command["member"])


def drawn_group(line, group):
    """A host group: its hosts, and its commands."""
    commands = ", ".join(drawn_command(line, command) for command in items(group["commands"]))
    return f"{drawn_members(line, items(group['hosts']))} = {commands}"


def drawn_node(line, node):
    """What a line says, each member as its part of the line. Options, tags and values are left out."""
    name = node if isinstance(node, str) else node[""]
    if name in ("Blank", "Comment"):
        return name.lower()
    if name == "Include":
        return ("includedir " if node["dir"] else "include ") + drawn_text(bytes(items(node["path"])))
    if name == "Defaults":
        scope = ""
        if node["scope"] != "None":
            held = node["scope"][1]
            scope = f" for {held['kind'].lower()} {drawn_members(line, items(held['members']))}"
        return f"defaults{scope}: " + ", ".join(
            drawn_text(bytes(items(param["name"]))) for param in items(node["params"])
        )
    if name == "Alias":
        return f"alias {node['kind'].lower()}: " + " : ".join(
            f"{drawn_text(bytes(items(one['name'])))} {drawn_members(line, items(one['members']))}"
            for one in items(node["defs"])
        )
    groups = " : ".join(drawn_group(line, group) for group in items(node["groups"]))
    return f"spec {drawn_members(line, items(node['users']))} {groups}"


# The errors of a line that includes a file.
INCLUDE_FAULTS = ("NotLoaded", "Twice", "TooDeep")


def drawn_fault(fault):
    """The error in a file that is no policy."""
    if isinstance(fault, list) and fault[0] == "Text":
        (_, held) = fault
        if isinstance(held, str):
            return held
        return f"Nul {held['at']}" if held[""] == "Nul" else f"{held['']} {held['line']}"
    name = fault[""]
    if name == "Syntax":
        return f"{fault['line']}:{fault['col']} {fault['why']}"
    if name == "TooMany":
        return f"too many {fault['kind'].lower()}"
    ends = {"Reserved": "is reserved", "Duplicate": "is defined twice"}
    return f"{fault['kind'].lower()} {drawn_text(bytes(items(fault['name'])))} {ends[name]}"


def some(line):
    """What an option holds, or None."""
    if line.startswith("Some([") and line[6:7].isdigit():
        return json.loads(line[5:-1])  # bytes, of which there may be many
    value = said.read(line)
    if value == "None":
        return None
    word, held = value
    if word != "Some":
        raise ValueError(line)
    return held


class Line:
    """A line of a policy: its text, its kind and what it says; each None if there is no such line."""

    def __init__(self, text, kind, node):
        text = some(text)
        self.text = None if text is None else bytes(text)
        self.kind = some(kind)
        self.node = some(node)

    @staticmethod
    def drawn(line):
        """The line that an answer writes."""
        return Line(*line.split("\t"))

    def drawn_kind(self):
        """Its kind."""
        return "none" if self.kind is None else self.kind.lower()

    def drawn_node(self):
        """What it says."""
        return "none" if self.node is None else drawn_node(self.text, self.node)


def lines_of(line):
    """The lines of a policy."""
    fields = line.split("\t")
    if fields.pop() or len(fields) % 3:
        raise ValueError(line)
    return [Line(*fields[i : i + 3]) for i in range(0, len(fields), 3)]


def drawn_says(text, line):
    """What a text says as one line, or `none`."""
    node = some(line)
    return "none" if node is None else drawn_node(text, node)


def drawn_lead(line):
    """Where a line leads: to a file, to the files of a folder, or nowhere."""
    lead = some(line)
    if lead is None:
        return "nowhere"
    sort, name = lead
    return {"File": "file ", "Dir": "folder "}[sort] + (drawn_text(bytes(items(name))) or "⟨⟩")


def drawn_leads(line):
    """Where a line leads by `leads`, and what `lead_of_include_node` answers of what it says if that differs."""
    by_line, by_node = line.split("\t")
    lead = drawn_lead(by_line)
    if by_node == "unread":
        return "says nothing" if lead == "nowhere" else f"{lead}, but it says nothing"
    of_node = drawn_lead(by_node)
    return lead if lead == of_node else f"{lead}, but what it says leads: {of_node}"


def drawn_name(name):
    """The name of a file."""
    return drawn_text(name) or "⟨⟩"


def drawn_spot(files, spot):
    """A line of the walk as its file and its number there, and the physical line of the file on which it begins if that is another."""
    number, row = spot["line"] + 1, spot["row"]
    return f"{drawn_name(files[spot['file']][0])} {number}" + f" on {row}" * (row != number)


def drawn_walk(files, line):
    """The lines of the walk over files, each as its file and its number there, and the files on it."""
    on, spots, *texts = line.split("\t")
    on, spots, texts = json.loads(on), said.read(spots), [bytes_of(text) for text in texts]
    if len(texts) != len(spots):
        return f"{len(texts)} lines in {len(spots)} places"
    for number in on:
        name, whole = files[number]
        if b"".join(text for spot, text in zip(spots, texts) if spot["file"] == number) != whole:
            return f"the lines of {drawn_name(name)} are not its text"
    lines = ", ".join(drawn_spot(files, spot) for spot in spots)
    return f"{lines or 'no line'} | {', '.join(drawn_name(files[number][0]) for number in on)}"


def drawn_load(files, line):
    """What comes of files, each a name and a text: their walk, or their error."""
    return drawn_walk(files, line) if line.startswith("[") else drawn_load_fault(line)


def drawn_files(line):
    """The names and texts of files. The lines of each have to be its text."""
    fields = line.split("\t")
    if fields.pop() or len(fields) % 3:
        raise ValueError(line)
    files = []
    for name, text, lines in (fields[i : i + 3] for i in range(0, len(fields), 3)):
        name, text = bytes_of(name), bytes_of(text)
        if b"".join(map(bytes_of, re.findall(r"\[.*?\]", lines))) != text:
            return f"the lines of {drawn_name(name)} are not its text"
        files.append((name, text))
    return files


def drawn_load_fault(line):
    """The error of files that are no policy."""
    return drawn_fault_of_files(said.read(line))


def drawn_fault_of_files(fault):
    """The same, of a value that is read."""
    if isinstance(fault, str):
        return fault
    file = drawn_name(bytes(items(fault["file"])))
    if fault[""] == "SameName":
        return f"SameName {file}"
    inner = fault["fault"]
    if isinstance(inner, list) or inner[""] not in INCLUDE_FAULTS:
        return f"{file}: {drawn_fault(inner)}"
    name = [drawn_name(bytes(items(inner["name"])))] if "name" in inner else []
    return " ".join([inner[""], file, str(inner["line"]), *name])


def is_fault(line):
    """Whether a line is the error of files that are no policy."""
    return line.startswith(("TooManyFiles", "SameName {", "InFile {"))


def drawn_fault_of_text(fault):
    """The error of files that are no policy, without the name `policy` if it is in the text of this file."""
    return drawn_fault_of_files(fault).removeprefix("policy: ")


def drawn_line_fault(line):
    """The error that a line writes, or None if it writes none: without the name `policy` if it is in the text of this file."""
    return drawn_fault_of_text(said.read(line)) if is_fault(line) else None


def drawn_in_file(place, drawn):
    """What is drawn of a place in the first file. In another its number comes before it."""
    return f"file {place['file']} {drawn}" if place["file"] else drawn


def drawn_report(line):
    """The text of a report, or the error of the files that have none."""
    return drawn_load_fault(line) if is_fault(line) else drawn_bytes(line)


def drawn_calls(outcome, count):
    """An outcome, and how often the files were asked for it."""
    return f"{outcome} | {count} call{'s' * (count > 1)}"


def drawn_gather(files, line):
    """The names of the files that are gathered, or an error. A file that has not all bytes that it was given is shown with their number."""
    *found, count = line.split("\t")
    if not all(re.search(r":\d+$", one) for one in found):
        return drawn_calls(" ".join(found), int(count))
    sizes = {name: len(text) for name, text in reversed(files)}
    drawn = []
    for one in found:
        name, _, size = one.rpartition(":")
        name = bytes_of(name)
        drawn.append(drawn_name(name) + f" ({size} bytes)" * (sizes.get(name) != int(size)))
    return drawn_calls(", ".join(drawn), int(count))


def drawn_policy(line):
    """What the lines of a policy say, or its error."""
    if not line:
        return ""
    return drawn_line_fault(line) or " | ".join(one.drawn_node() for one in lines_of(line))


def drawn_definition(line):
    """The line and the place of a definition, and its members; `none` if there is none."""
    if is_fault(line):
        return drawn_line_fault(line)
    place, members, text = map(some, line.split("\t"))
    if (place, members, text) == (None, None, None):
        return "none"
    return drawn_in_file(place, f"{place['line']}.{place['def']} {drawn_members(bytes(text), members)}")


def drawn_spans(line):
    """The lines and bytes of mentions."""
    if is_fault(line):
        return drawn_line_fault(line)
    spans = [drawn_in_file(span, f"{span['line']}:{span['start']}-{span['stop']}") for span in said.read(line)]
    return " ".join(spans) or "none"


def drawn_unused(line):
    """The kinds and places of unused definitions."""
    found = [drawn_in_file(place, f"{kind} {place['line']}.{place['def']}") for kind, place in said.read(line)]
    return ", ".join(found) or "none"


def drawn_notes(line):
    """The notes of a report, each sort by itself."""
    report, sorts = said.read(line), []
    for sort in ("undefined", "cyclic", "unused"):
        notes = [
            f"{note['kind']} {drawn_text(bytes(items(note['name'])))} {note['line']}:{note['col']}"
            for note in items(report[sort])
        ]
        sorts.append(f"{sort}: {', '.join(notes) or 'none'}")
    return "; ".join(sorts)


def drawn_refusal(fault):
    """Why an edit is refused."""
    return fault if isinstance(fault, str) else f"{fault[0]}, {drawn_fault_of_files(fault[1])}"


def drawn_change(line):
    """What comes of a changed line: `ok`, why it is refused, or `not allowed`."""
    if is_fault(line):
        return drawn_line_fault(line)
    outcome = some(line)
    if outcome is None:
        return "not allowed"
    word, held = outcome
    return {"Ok": lambda: "ok", "Err": lambda: drawn_fault_of_text(held)}[word]()


def drawn_outcome(line):
    """What comes of edits: `ok`, `yes` or `no`, or why one is refused, with its number if there may be several."""
    if is_fault(line):
        return drawn_load_fault(line)
    word, held = said.read(line)
    if word == "Ok":
        return {"[]": "ok", "True": "yes", "False": "no"}[str(held)]
    if word != "Err":
        raise ValueError(line)
    if isinstance(held, list) and isinstance(held[0], int):
        return f"{held[0] + 1}: {drawn_refusal(held[1])}"
    return drawn_refusal(held)


def drawn_bytes(line):
    """Bytes, or what is said in their place."""
    return bytes_of(line) if line.startswith("[") else drawn_line_fault(line) or line
