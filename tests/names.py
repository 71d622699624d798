"""The names of the code and its calls of laws: three rules over crates/*/src.

type: no public type has the name of a public type that another crate defines. A `pub use` defines none.

function: the name of a function says what it does, or what it returns of its parameters. So the name

- begins with a verb of VERBS; or with one of SAYING, if the function returns a `bool`
- or is in WHOLE, or begins with one of BEGINNINGS
- or has one of ENDINGS: a preposition, whose object is a parameter, or a measure
- or has `_of_` inside, as `alias_kind_of_keyword`
- or is that of a method with `&self` alone, which may be named by what it returns

The rule is not for laws, and not for functions of an `impl` of a trait, which the trait names. A law is a function of a
module `laws`, or a function without parameters whose body is empty or calls laws alone.

law: running code calls no law without parameters. A proof file cites the lemma of the law. Laws may call laws, and so may
the crates laws_* and wrong_*, which hold nothing else. A law about one value is a method of it, as `Policy::is_loaded`.
The code may call it, since proofs learn from no other what its type keeps.

names.known has the names that break a rule today. A name that breaks a rule and is not there fails, and so does a line
that no name needs. So the list only shrinks.
"""

import glob
import os
import re
from collections import Counter, defaultdict, namedtuple

from tally import difference

TOP = os.path.dirname(os.path.dirname(os.path.abspath(__file__)))
KNOWN = "tests/names.known"
RULES = ("type", "function", "law")
FEWEST = 1500

# A word that is a noun as often stands here with the word behind it.
VERBS = tuple(
    """
    adapt add advance answer append apply ask bring bump carry change check choose clear close collect compare convert copy
    count create cut decide drop edit enter expand expect explain extend filter_policy find finish flatten flip fold
    follow forget gather get go guard include inherit insert join keep leave list load locate lock look make mark_all mark_changed
    mark_cyclic mark_reached mark_used match move note open parse pass place plan prepare print prune pull push put
    read record redo remove rename renew replace report_fault resolve respell restart rewrite run search select set settle
    show skip sort spell spend split start store strip swap sync take tell turn undo visit walk write
    """.split()
)
SAYING = tuple(
    """
    allows applies begins belongs brings comes continues covers ends fits follows has hits includes keeps leads leaves loses
    matches names owns permits reads says sets speaks suits takes
    """.split()
)
WHOLE = ("new", "of", "from", "into", "len", "main")
BEGINNINGS = ("from_", "into_", "as_", "to_", "without_", "is_", "has_", "may_", "can_", "are_", "does_")
PREPOSITIONS = "of at in behind after before within below for as with without over by up_to"
ENDINGS = tuple(f"_{word}" for word in f"{PREPOSITIONS} len count".split())

LITERAL = re.compile(r'//[^\n]*|b?"(?:\\.|[^"\\])*"|b?\'(?:\\.|[^\'\\\n])\'', re.DOTALL)
TYPE = re.compile(r"^ *pub (?:struct|enum|trait|type) (\w+)", re.MULTILINE)
# The head of an `impl` or of a trait, the end of one, or a function up to its result.
ITEM = re.compile(
    r"^(?:impl\b(?:<[^{]*?>)? (?P<impl>[^{]*)\{|(?:pub )?trait (?P<trait>\w+)|(?P<end>\})"
    r"| *(?:pub(?:\(\w+\))? )?(?:const )?fn (?P<name>\w+)(?:<[^()]*>)?"
    r"\((?P<parameters>[^()]*(?:\([^()]*\)[^()]*)*)\)(?: -> (?P<result>.*))?)",
    re.MULTILINE,
)
# The name of a function, or a statement that is a call without arguments.
HEAD_OR_CALL = re.compile(r"\bfn (\w+)|^ +(?:\w+::)*(\w+)\(\);$", re.MULTILINE)
# A function without parameters and result, and its calls, if there is nothing else in its body.
CALLS = re.compile(
    r"^(?:pub(?:\(\w+\))? )?fn (\w+)\(\)\n(?: +.*\n)*\{(?:\}|\n((?: +[\w:]+\(\);\n)*)\})$", re.MULTILINE
)
SELF_ALONE = re.compile(r"&(?:'\w+ )?self")
BOOL = re.compile(r"(?:Result<)?bool\b")

Source = namedtuple("Source", "crate is_of_laws text")
Function = namedtuple("Function", "path name parameters result")


def sources():
    """Yields the files of the code, without comments and literals."""
    for path in sorted(glob.glob(os.path.join(TOP, "crates/*/src/**/*.rt"), recursive=True)):
        crate, _, *modules = os.path.relpath(path, os.path.join(TOP, "crates")).removesuffix(".rt").split(os.sep)
        with open(path, encoding="utf-8") as file:
            yield Source(crate, "laws" in modules, LITERAL.sub("", file.read()))


def owner_of(head):
    """Returns what stands in a path before the functions behind a head, or None if a trait names them."""
    if head["trait"]:
        return head["trait"] + "::"
    return None if " for " in head["impl"] else re.match(r"\w+", head["impl"])[0] + "::"


def functions_in(text):
    """Yields the functions, but for those that an `impl` of a trait has."""
    owner = ""
    for item in ITEM.finditer(text):
        if item["name"] is None:
            owner = "" if item["end"] else owner_of(item)
        elif owner is not None:
            yield Function(owner + item["name"], item["name"], item["parameters"].strip(), item["result"] or "")


def laws_of(code):
    """Returns the names of the laws."""
    laws = {function.name for source in code if source.is_of_laws for function in functions_in(source.text)}
    calls = {name: set(re.findall(r"\w+(?=\()", body)) for source in code for name, body in CALLS.findall(source.text)}
    while True:
        more = {name for name, called in calls.items() if called <= laws} - laws
        if not more:
            return laws
        laws |= more


def begins_with(words, name):
    """Returns whether the name begins with one of these words."""
    return any(f"{name}_".startswith(f"{word}_") for word in words)


def says_enough(function):
    """Returns whether the name of a function says what it does, or what it returns of its parameters."""
    name = function.name
    return (
        begins_with(VERBS, name)
        or (begins_with(SAYING, name) and BOOL.match(function.result))
        or name in WHOLE
        or name.startswith(BEGINNINGS)
        or name.endswith(ENDINGS)
        or "_of_" in name
        or SELF_ALONE.fullmatch(function.parameters)
    )


def functions_that_break(code):
    """Yields a line for each function that is no law and whose name does not say enough."""
    laws = laws_of(code)
    for source in code:
        for function in functions_in(source.text):
            is_law = source.is_of_laws or (function.name in laws and not function.parameters)
            if not is_law and not says_enough(function):
                yield f"function {source.crate} {function.path}"


def types_that_break(code):
    """Yields a line for each public type of each crate, if another crate defines one of the same name."""
    crates = defaultdict(set)
    for source in code:
        for name in TYPE.findall(source.text):
            crates[name].add(source.crate)
    for name, definers in crates.items():
        if len(definers) > 1:
            yield from (f"type {crate} {name}" for crate in definers)


def law_calls(code):
    """Yields a line for each call of a law in a function of running code."""
    laws = laws_of(code)
    for source in code:
        if source.is_of_laws or source.crate.startswith(("laws_", "wrong_")):
            continue
        caller = ""
        for head in HEAD_OR_CALL.finditer(source.text):
            if head[1]:
                caller = head[1]
            if head[2] in laws and caller not in laws:
                yield f"law {source.crate} {caller} {head[2]}"


def known_lines():
    """Returns the lines of names.known."""
    with open(os.path.join(TOP, KNOWN), encoding="utf-8") as file:
        return [line for line in file.read().splitlines() if line and not line.startswith("#")]


def of_rule(rule, lines):
    """Returns those of the lines that are of this rule."""
    return [line for line in lines if line.startswith(f"{rule} ")]


def reading_problems(code):
    """Returns a problem for each file with a function in a form that ITEM does not know, and one for a small count."""
    there = [re.findall(r"\bfn (\w+)", source.text) for source in code]
    read = [[item["name"] for item in ITEM.finditer(source.text) if item["name"]] for source in code]
    pairs = zip(code, there, read)
    unread = [f"{source.crate}: not each function is read" for source, names, own in pairs if names != own]
    return unread + difference("enough functions", True, sum(map(len, read)) >= FEWEST)


def run_all(_program, tally):
    """Compares what breaks a rule with the lines of names.known, and prints how many lines each rule has."""
    code = list(sources())
    known = known_lines()
    broken = Counter([*types_that_break(code), *functions_that_break(code), *law_calls(code)])
    new = sorted((broken - Counter(known)).elements())
    for rule in RULES:
        tally.note(f"names, the rule {rule} of names.py", [f"breaks the rule: {line}" for line in of_rule(rule, new)])
    unneeded = sorted((Counter(known) - broken).elements())
    tally.note(f"lines of {KNOWN}", [f"nothing needs the line: {line}" for line in unneeded])
    tally.note("names that are read", reading_problems(code))
    print(f"{KNOWN}: " + ", ".join(f"{len(of_rule(rule, known))} lines of the rule {rule}" for rule in RULES))
