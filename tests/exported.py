"""What a library exports says nothing by the devices of its proofs.

The files of crates/CRATE/specs/internal/ describe the state of the code. No contract of an exported function, method or
trait names a definition of them, and no other file of specs/ does. A function is exported if lib.rt has it in a
`pub use`, or if it stands in a module that lib.rt has as `pub mod`. The methods of an exported type and of an exported
trait are exported too.
"""

import glob
import os
import re

TOP = os.path.dirname(os.path.dirname(os.path.abspath(__file__)))

INTERNAL = re.compile(r"^\s*(?:ghost )?use Rattle\.\w+\.specs\.internal\.\w+(?:\.\{(.*)\}| as (\w+));?$", re.MULTILINE)
EXPORT = re.compile(r"^pub use ([\w:]+)::(?:\{([^}]*)\}|(\w+))(?: as \w+)?;", re.MULTILINE)
MODULE = re.compile(r"^pub mod (\w+);", re.MULTILINE)
FUNCTION = re.compile(r"^pub fn (\w+)\b.*?\n(?=[{}])", re.MULTILINE | re.DOTALL)
TRAIT = re.compile(r"^pub trait (\w+).*?^\}", re.MULTILINE | re.DOTALL)
IMPL = re.compile(r"^impl(?:<[^{]*?>)? (?:[\w:<>', ]+ for )?(\w+)[^{;]*\{\n.*?^\}", re.MULTILINE | re.DOTALL)
METHOD = re.compile(r"^    pub fn (\w+)\b.*?\n(?=    [{}])", re.MULTILINE | re.DOTALL)


def read(path):
    """Returns the text of a file."""
    with open(path, encoding="utf-8") as file:
        return file.read()


def names_in(text):
    """Returns the names by which a text has definitions of specs/internal."""
    found = set()
    for names, whole in INTERNAL.findall(text):
        for name in names.split(",") if names else [whole]:
            found.add(name.rpartition(" as ")[2].strip().replace("◌", ""))
    return found


def exports_of(lib):
    """Returns the names that a library exports, and the modules all of whose functions it exports."""
    names = set()
    for _, many, one in EXPORT.findall(lib):
        names |= {name.strip().partition(" as ")[0] for name in (many or one).split(",")}
    return names, MODULE.findall(lib)


def contracts_in(path, names, modules):
    """Returns the contracts of what is exported of a file of code, each with its name."""
    text = read(path)
    is_open = os.path.basename(path)[: -len(".rt")] in modules
    found = [(it[1], it[0]) for it in FUNCTION.finditer(text) if is_open or it[1] in names]
    found += [(it[1], it[0]) for it in TRAIT.finditer(text) if it[1] in names]
    for block in IMPL.finditer(text):
        if block[1] in names:
            found += [(f"{block[1]}::{it[1]}", it[0]) for it in METHOD.finditer(block[0])]
    return found


def devices_of(path, names, modules):
    """Returns a problem for each contract of what is exported of a file that names a definition of specs/internal."""
    devices = names_in(read(path))
    problems = []
    for name, contract in contracts_in(path, names, modules):
        words = set(re.findall(r"(?<![\w.])\w+", re.sub(r"//.*", "", contract)))
        problems += [f"the contract of {name} names {device}" for device in sorted(devices & words)]
    return problems


def run_all(tally):
    """Looks through all libraries."""
    for lib in sorted(glob.glob(os.path.join(TOP, "crates", "*", "src", "lib.rt"))):
        crate = os.path.dirname(os.path.dirname(lib))
        names, modules = exports_of(read(lib))
        problems = []
        for path in sorted(glob.glob(os.path.join(crate, "src", "**", "*.rt"), recursive=True)):
            problems += devices_of(path, names, modules)
        for path in sorted(glob.glob(os.path.join(crate, "specs", "*.antt"))):
            problems += [f"{os.path.basename(path)} names {device}" for device in sorted(names_in(read(path)))]
        tally.note(f"{os.path.basename(crate)}, what it exports", problems)
