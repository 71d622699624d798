"""Tests the manual page: mandoc accepts it, its examples run, and its lists are complete.

A display of EXAMPLES is a session: a line that begins with `$ ` is a command, up
to the end of its here-document, and the lines after it are its output. All
sessions run in order in one shell and one folder. The folder /etc/sudoers.d of
the page is a scratch folder.

DIAGNOSTICS has to list each error that the program can print: each variant of
the fault types, with the text that FaultText.antt states for it. Its errors of
`place` and `apply` are the words that their sources print. Those of a wish are
the texts of `PlanFault` and the errors of edits. The advices of an item are those
that scripts/diagnostics puts there: the words of the hints that the item names.
Each hint is named, and an item names just the hints that the tables of
explanations show below its error.
"""

import glob
import os
import re
import shutil
import subprocess
import tempfile
from collections import Counter
from importlib.machinery import SourceFileLoader

import explaining
import explaining_edits
import tables
from program import run
from tally import difference

TOP = os.path.dirname(os.path.dirname(os.path.abspath(__file__)))
PAGE = os.path.join(TOP, "man/sudoers_tool.8")
SECONDS = 60
SUDOERS_D = "/etc/sudoers.d"

ESCAPES = {"-": "-", "e": "\\", "&": "", "(aq": "'", "(dq": '"', "(ha": "^", "(ti": "~", "(ga": "`"}

# The fault types, and what DIAGNOSTICS writes for each term of their texts.
FAULTS = (
    "TextFault",
    "Why",
    "ReadFault",
    "ScriptFault",
    "EditFault",
    "CvtFault",
    "FilterFault",
    "PeopleFault",
    "WhoFault",
    "AskFault",
    "FileFault",
    "GatherFault",
    "LoadFault",
    "LayerFault",
    "ToolFault",
)
TERMS = (
    (r'codes "(.*)"', r"\1"),
    (r"file", "FILE"),
    (r"decimal line", "LINE"),
    (r"decimal col", "COL"),
    (r"decimal at", "N"),
    (r"alias_line_keyword k", "KIND"),
    (r"alias_name_in_file_text file k name", "FILE: KIND NAME"),
    (r"include_line_text file line name", "FILE:LINE:1: include NAME"),
    (r"syntax_reason_name why", "CAUSE"),
    (r'script_line_message line \(codes "(.*)"\)', r"script:LINE: \1"),
    (r'numbered_edit_message place \(codes "(.*)"\)', r"edit N: \1"),
    (r"people_file_name f", "PEOPLE"),
    (r"\w+_fault_(?:message|name) .*", "ERROR"),
)
CARRIED = "ERROR"

# The sources with the words of the errors of `place` and `apply`, their list, and the errors of a bundle, which `place` prints of OUTPUT.
SOURCES_OF_PLACE = ("crates/sudoers_tool/src/place*.rt", "crates/sudoers_tool/src/apply_command.rt")
LIST_OF_PLACE = ".Ss Errors of place and apply\n"
OF_BUNDLE = ("BadBundle", "SameName")

# The source with the errors of a wish, their list, and the errors of edits that it has too.
SOURCE_OF_WISHES = "crates/sudoers_plan/src/fault.rt"
LIST_OF_WISHES = ".Ss Errors of a wish\n"
OF_EDITS = ("OnlyOne", "ERROR")

# The files that PEOPLE stands for in a text.
PEOPLE = ("passwd", "group")

# What mandoc says about the other pages of the machine, and not about this one.
OF_THE_MACHINE = ("referenced manual not found", "outdated mandoc.db")


def read(path):
    """Returns the text of a file of the repository."""
    with open(os.path.join(TOP, path), encoding="utf-8") as file:
        return file.read()


def section(name):
    """Returns the lines of a section of the page."""
    match = re.search(rf"^\.Sh {name}\n(.*?)(?=^\.Sh |\Z)", read(PAGE), re.M | re.S)
    return match[1].splitlines() if match else []


def plain(line):
    """Returns a line of the page without its escapes."""
    return re.sub(r"\\(\(..|.)", lambda match: ESCAPES[match[1]], line)


# ---- the form


def run_lint(tally):
    """mandoc says nothing about the page."""
    mandoc = shutil.which("mandoc")
    if mandoc is None:
        tally.skip("manual page, form", "mandoc is missing")
        return
    words = [mandoc, "-T", "lint", "-W", "all", PAGE]
    done = subprocess.run(words, stdout=subprocess.PIPE, stderr=subprocess.STDOUT, timeout=SECONDS, check=False)
    lines = done.stdout.decode().splitlines()
    tally.note("manual page, form", [line for line in lines if not any(words in line for words in OF_THE_MACHINE)])


# ---- the examples


def displays(lines):
    """Returns the displays of a section, each a list of lines."""
    found, inside = [], False
    for line in lines:
        if line.startswith(".Bd -literal"):
            found, inside = [*found, []], True
        elif line == ".Ed":
            inside = False
        elif inside:
            found[-1].append(plain(line))
    return found


def commands_of(display):
    """Returns the commands of a session, each with its output."""
    commands, end = [], None
    for line in display:
        if end is None and line.startswith("$ "):
            commands.append([line[2:] + "\n", ""])
        elif not commands:
            raise ValueError(f"{line!r} comes before a command")
        else:
            commands[-1][0 if end is not None else 1] += line + "\n"
        if end is not None:
            end = None if line == end else end
        elif line.startswith("$ "):
            match = re.search(r"<<'(\w+)'", line)
            end = match and match[1]
    return commands


def environment(program, folder):
    """Returns the environment of the shell: the program is on the PATH, and so is a visudo."""
    os.mkdir(os.path.join(folder, "bin"))
    os.symlink(program, os.path.join(folder, "bin/sudoers_tool"))
    path = f"{folder}/bin:{os.environ['PATH']}:/usr/sbin:/sbin"
    if shutil.which("visudo", path=path) is None:
        os.symlink(shutil.which("true"), os.path.join(folder, "bin/visudo"))
    return {"PATH": path, "HOME": folder, "LC_ALL": "C"}


def session(commands, folder):
    """Returns a script that runs the commands, with NUL after the output of each."""
    lines = ["exec 2>&1 </dev/null", "after() { status=$?; printf '\\000'; return $status; }"]
    for command, _ in commands:
        lines += [command.replace(SUDOERS_D, folder) + "after"]
    return "\n".join(lines) + "\n"


def run_examples(program, tally):
    """Runs the commands of EXAMPLES in order, and compares what each prints."""
    commands = [command for display in displays(section("EXAMPLES")) for command in commands_of(display)]
    with tempfile.TemporaryDirectory() as scratch:
        room, sudoers_d = os.path.join(scratch, "room"), os.path.join(scratch, "sudoers_d")
        os.mkdir(room)
        os.mkdir(sudoers_d)
        variables = environment(program, scratch)
        if os.path.exists(os.path.join(scratch, "bin/visudo")):
            tally.skip("manual page, visudo of EXAMPLES", "visudo is missing")
        done = subprocess.run(
            ["sh", "-c", session(commands, sudoers_d)],
            stdout=subprocess.PIPE,
            env=variables,
            cwd=room,
            timeout=SECONDS,
            check=False,
        )
        left = {name: oct(os.stat(os.path.join(sudoers_d, name)).st_mode & 0o7777) for name in os.listdir(sudoers_d)}
    outputs = done.stdout.replace(sudoers_d.encode(), SUDOERS_D.encode()).decode().split("\0")
    for (command, wanted), output in zip(commands, outputs + ["no output"] * len(commands)):
        tally.note(f"manual page, {command!r}", difference("output", wanted, output))
    tally.note("manual page, installed policy", difference("files", {"web": "0o440"}, left))
    tally.note("manual page, EXAMPLES", [] if commands else ["there is no command"])


# ---- the errors


def variants():
    """Returns the variants of each fault type, by its name, as the sources declare them."""
    found = {}
    for path in glob.glob(os.path.join(TOP, "crates/sudoers_*/src/*.rt")):
        for name, body in re.findall(r"^pub enum (\w+) \{\n(.*?)^\}", read(path), re.M | re.S):
            if name in FAULTS:
                found[name] = re.findall(r"^    ([A-Z]\w*)", body, re.M)
    return found


def text_of(term):
    """Returns what DIAGNOSTICS writes for a term of a text."""
    for pattern, text in TERMS:
        match = re.fullmatch(pattern, term)
        if match:
            return match.expand(text)
    raise ValueError(f"no text for the term {term!r}")


def texts():
    """Returns the text of each variant, as FaultText.antt states it: (type, variant) -> text.

    A variant that holds another, which has a text of its own, carries that text.
    """
    source = read("crates/sudoers_run/specs/FaultText.antt")
    types = {short: name for name, short in re.findall(r"declared\.\w+\.(\w+)\.TheVariants as (\w+)", source)}
    found = {}
    for row in re.sub(r"\n +", " ", source).splitlines():
        match = re.match(r"(?:\w+_fault_(?:message|name)|syntax_reason_name) ([^=]*\.[^=]*)= (.*)", row)
        if match is None:
            continue
        *outer, inner = [(types[type_], variant) for type_, variant in re.findall(r"\b(\w+)\.(\w+)", match[1])]
        found.update({variant: CARRIED for variant in outer})
        found[inner] = "".join(map(text_of, match[2].split(" ++ ")))
    return found


def notes():
    """Returns the texts of the notes and of the last line of `check`, as Report.antt states them."""
    source = read("crates/sudoers_check/specs/Report.antt")
    words = re.findall(r'note_text policy \(codes "(\w+)"\)', source)
    verdicts = re.findall(r'^parsed_ok_or_faults_found_ending \w+ = codes "(.*)\\n"', source, re.M)
    return [f"FILE:LINE:COL: {word} KIND NAME" for word in words] + ["FILE" + verdict for verdict in verdicts]


def errors_of_place():
    """Returns the words of the errors of `place` and `apply`."""
    paths = [path for form in SOURCES_OF_PLACE for path in sorted(glob.glob(os.path.join(TOP, form)))]
    return {*re.findall(r'\bb"([A-Z][a-z]\w*)"', "".join(map(read, paths))), *OF_BUNDLE}


def errors_of_wishes():
    """Returns the errors of a wish."""
    words = set(re.findall(r'#\[error\("([A-Z]\w*)"\)\]', read(SOURCE_OF_WISHES))) - {"NoMemory"}
    return {f"WISH: {word}" for word in (*words, *OF_EDITS)}


def items_of(lines):
    """Returns the items of some lines of DIAGNOSTICS."""
    return [line[len(".It ") :].replace('"', "") for line in lines if line.startswith(".It ")]


def items_below(head, lines):
    """Returns the items of the first list after a line of DIAGNOSTICS."""
    return items_of("\n".join(lines).partition(head)[2].partition("\n.El")[0].splitlines())


def run_errors(tally):
    """DIAGNOSTICS lists each error and each note, and nothing else; an error of several types at most once for each."""
    declared = variants()
    tally.note("manual page, fault types", difference("types", sorted(FAULTS), sorted(declared)))
    known = texts()
    named = sorted((name, variant) for name, names in declared.items() for variant in names)
    tally.note("manual page, variants", difference("variants", named, sorted(known)))
    printed = Counter(text.replace("PEOPLE", file) for text in known.values() for file in PEOPLE[: 1 + ("PEOPLE" in text)])
    printed.update(errors_of_place())
    printed.update(errors_of_wishes())
    wanted = set(printed) - {CARRIED} | set(notes())
    lines = section("DIAGNOSTICS")
    items = items_of(lines)
    problems = [f"{item!r} is missing" for item in sorted(wanted - set(items))]
    problems += [f"nothing prints {item!r}" for item in sorted(set(items) - wanted)]
    twice = sorted(item for item in wanted if items.count(item) > max(printed[item], 1))
    problems += [f"{item!r} is there too often" for item in twice]
    tally.note("manual page, DIAGNOSTICS", problems)
    below = items_below(LIST_OF_PLACE, lines)
    tally.note("manual page, errors of place", difference("items", sorted(errors_of_place()), sorted(below)))
    below = items_below(LIST_OF_WISHES, lines)
    tally.note("manual page, errors of a wish", difference("items", sorted(errors_of_wishes()), sorted(below)))
    refusals = [item for item in items if item.startswith("edit N: ")]
    order = [known.get(("EditFault", variant)) for variant in declared["EditFault"]]
    order = [item for item in order if item in refusals]
    tally.note("manual page, order of the refusals", difference("items", order, refusals))


# ---- the advices


def explanations():
    """The errors of the tables of explanations, each with the rows below it."""
    for folder, first in ((explaining.TABLES, {"policy": 1, "files": 1}), (explaining_edits.TABLES, {"edit": 2, "files": 2, "input": 1})):
        for path in sorted(glob.glob(os.path.join(folder, "*.table"))):
            for group in tables.groups_of(path):
                error, *rows = [tables.text_of(row).decode(errors="replace") for _, row in group.rows[first[group.words[0]] :]]
                yield error, rows
    for row in explaining_edits.ROWS:
        yield row[-2], row[-1].splitlines()


def is_item_of(item, error):
    """Whether an error has the form of an item, with or without the name of a file before it."""
    form = re.sub(r"\b(?:FILE|NAME)\b", ".+", re.sub(r"\b(?:LINE|COL|N)\b", r"\\d+", re.escape(item).replace(r"\ ", " ")))
    return re.fullmatch(rf"(?:.+: )?{form}", error, re.S) is not None


def shown_advices(items, known):
    """The pairs of an item and a hint that the tables show. A line that does not parse has the item of its cause."""
    pairs = set()
    for error, rows in explanations():
        error = re.sub(r"^edit \d+: NotPolicy: ", "", error)
        error, is_syntax = re.sub(r"^.*: syntax error: ", "", error), ": syntax error: " in error
        for row in rows:
            _, is_help, words = row.partition(explaining.HELP.decode())
            fitting = [name for name, (text, is_edit) in known.items() if is_help and is_edit != is_syntax and f"{words} ".startswith(f"{text} ")]
            if fitting:
                name = max(fitting, key=lambda name: len(known[name][0]))
                pairs |= {(item, name) for item in items if is_item_of(item, error)}
    return pairs


def run_advices(tally):
    """The page has the advices of its items, and names each hint where the tables show it."""
    script = os.path.join(TOP, "scripts", "diagnostics")
    module = SourceFileLoader("diagnostics", script).load_module()
    tally.note("manual page, advices", difference("page", module.page(), read(PAGE)))
    words, edits = module.words_of_hints(), module.names_of_hints(*module.HINTS[1])
    known = {name: (text, name in edits) for name, text in words.items()}
    listed, item = set(), None
    for line in section("DIAGNOSTICS"):
        if line.startswith(".It "):
            item = line[len(".It ") :].replace('"', "")
        elif line.startswith(module.HEAD):
            listed |= {(item, name) for name in line[len(module.HEAD) :].split()}
    problems = [f"no item names {name}" for name in known if name not in {name for _, name in listed}]
    shown = shown_advices({item for item, _ in listed}, known)
    problems += [f"{item!r} does not name {name}, which a table shows" for item, name in sorted(shown - listed)]
    problems += [f"{item!r} names {name}, which no table shows" for item, name in sorted(listed - shown)]
    tally.note("manual page, hints", problems)


# ---- the command line


def options_of_help(text):
    """Returns the options that a help text lists. What stands between backquotes is of another program."""
    return set(re.findall(r"(?<![\w-])(--?[A-Za-z][\w-]*)", re.sub(r"`[^`\n]*`", "", text)))


def commands_of_help(text):
    """Returns the commands that a help text lists."""
    match = re.search(r"^Commands:\n((?: +.*\n)+)", text, re.M)
    return set(re.findall(r"^  (\w+)", match[1], re.M)) if match else set()


def helps(program):
    """Returns the help text of the program, and those of its commands, by name."""
    whole = run(program, ("--help",)).stdout.decode()
    names = commands_of_help(whole) - {"help"}
    return whole, {name: run(program, (name, "--help")).stdout.decode() for name in sorted(names)}


def run_synopsis(program, tally):
    """SYNOPSIS has the commands and options of the help texts."""
    whole, each = helps(program)
    lines = section("SYNOPSIS")
    options = {"-" + name for name in re.findall(r"\bFl (-?\w[\w-]*)", "\n".join(map(plain, lines)))}
    wanted = options_of_help("".join([whole, *each.values()]))
    tally.note("manual page, options", difference("options", wanted, options))
    commands = set(re.findall(r"\bCm (\w+)", "\n".join(lines)))
    tally.note("manual page, commands", difference("commands", commands_of_help(whole), commands))


def run_all(program, tally):
    """Runs the tests of the page."""
    run_lint(tally)
    run_examples(program, tally)
    run_errors(tally)
    run_advices(tally)
    run_synopsis(program, tally)
