"""The public calls of the libraries that take memory, as the sources of crates/sudoers_* have them.

A call takes memory if its error may say that memory ran out: it is `AllocError` or a fault. A call that another crate
hands on is that of its own crate.
"""

import glob
import os
import re

from names import ITEM, LITERAL, TOP, owner_of

EXPORTED = re.compile(r"pub use (?!sudoers_)([^;]*);")
NAME = re.compile(r"\w+(?=[,}\s]|$)")
MAY_RUN_OUT = re.compile(r"Result<.*(?:AllocError|Fault)")


def text_in(path):
    """Returns the code of a file, without comments and literals."""
    with open(path, encoding="utf-8") as file:
        return LITERAL.sub("", file.read())


def calls_in(path, exported):
    """Yields those public calls of a file that take memory and have an exported name, or that of an exported type before them."""
    owner = ""
    for item in ITEM.finditer(text_in(path)):
        if item["name"] is None:
            owner = "" if item["end"] else owner_of(item)
        elif owner is not None and "pub fn" in item[0] and MAY_RUN_OUT.search(item["result"] or ""):
            if (owner.removesuffix("::") or item["name"]) in exported:
                yield owner + item["name"]


def public_calls():
    """Yields the names of the public calls that take memory, behind their crates: `text::cut`, `tree::Policy::read`."""
    for lib in sorted(glob.glob(os.path.join(TOP, "crates", "sudoers_*", "src", "lib.rt"))):
        folder = os.path.dirname(lib)
        crate = os.path.basename(os.path.dirname(folder)).removeprefix("sudoers_")
        exported = {name for used in EXPORTED.findall(text_in(lib)) for name in NAME.findall(used)}
        for path in sorted(glob.glob(os.path.join(folder, "**", "*.rt"), recursive=True)):
            yield from (f"{crate}::{name}" for name in calls_in(path, exported))
