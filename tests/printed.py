"""What the built program prints, made of what the libraries answer by the program `cases`: an error, or the lines of `show`."""

import functools
import re

import faults
import said
from nodes import items
from policies import lines_of
from program import NAME, Wanted

# The text of each error of a policy behind the name of its file.
FAULTS = {
    "TooLarge": ": TooLarge",
    "LineTooLong": ":{line}:1: line too long",
    "Nul": ": NUL at byte {at}",
    "OpenContinuation": ": OpenContinuation",
    "Syntax": ":{line}:{col}: syntax error: {why}",
    "Reserved": ": {kind}_Alias {name} reserved",
    "Duplicate": ": {kind}_Alias {name} defined twice",
    "TooMany": ": too many {kind}_Alias",
    "NotLoaded": ":{line}:1: include {name} not loaded",
    "Twice": ":{line}:1: include {name} twice",
    "TooDeep": ":{line}:1: includes nested too deep",
}
CAUSES = {why for *_, why in faults.SYNTAX}
NOT_LOADED = re.compile(rb": include (.*) not loaded$", re.S)
ESCAPE = re.compile(rb"\\([0-9a-f]{2})")


def text_of(name):
    """Returns a name as text, with a sign for each byte."""
    return bytes(items(name)).decode("latin-1")


def fault_of(value):
    """Returns the error of files that are no policy, as text: `value` is read of what the library writes."""
    if value == "TooManyFiles":
        return value
    if value[""] == "SameName":
        return "SameName"
    file = text_of(value["file"])
    inner = value["fault"]
    held = inner[1] if isinstance(inner, list) else inner
    fields = {"": held} if isinstance(held, str) else dict(held)
    if fields[""] == "Syntax" and fields["why"] not in CAUSES:
        raise ValueError(f"a syntax error without a known cause: {value}")
    if "name" in fields:
        fields["name"] = text_of(fields["name"])
    return file + FAULTS[fields.pop("")].format(**fields)


@functools.cache
def printed_fault(line):
    """Returns the bytes that the program prints of this error; None if it is none that has a name."""
    try:
        return fault_of(said.read(line)).encode("latin-1")
    except (LookupError, TypeError, ValueError):
        return None


def printed_error(text):
    """What a run has to answer that ends in the error with this text."""
    return Wanted(stderr=NAME + text + b"\n", status=1)


def error_in_empty_root(command, text):
    """What a command has to answer to a policy with this error, which is alone below `--root`. An include line may name the folder."""
    found = NOT_LOADED.search(text)
    if found and set(found[1].split(b"/")) <= {b"", b".", b".."}:
        return printed_error(b"Failed")
    return Wanted(text + b"\n", status=1) if command == "check" else printed_error(text)


def printed_text(line):
    """Returns the bytes of a text that the library writes with escapes."""
    return ESCAPE.sub(lambda found: bytes.fromhex(found[1].decode()), line.encode())


def printed_refusal(line):
    """Returns the bytes that `edit` prints of the edit of a script that is refused, with its number from 1 and its cause."""
    _, (number, cause) = said.read(line)
    text = cause if isinstance(cause, str) else f"{cause[0]}: {fault_of(cause[1])}"
    return f"edit {number + 1}: {text}".encode("latin-1")


def printed_lines(lines, rows):
    """Returns what `show` prints of the lines of the one file of a policy, of which the library says these rows."""
    printed = ""
    for number, (line, row) in enumerate(zip(lines_of(lines), rows.split()), 1):
        printed += f"{number} {line.drawn_kind()} {row}\n"
        if line.drawn_kind() == "alias":
            for place, one in enumerate(items(line.node["defs"]), 1):
                count = len(items(one["members"]))
                printed += f"{number}.{place} {line.node['kind']}_Alias {text_of(one['name'])} {count}\n"
    return printed.encode("latin-1")
