"""JSON of each policy of the cases of `convert`, and of what `convert` prints of that policy.

The texts of the JSON are those of the printed policy. So the printed policy has the same JSON, and it has none exactly if
the printed policy is no UTF-8. Each policy is converted as it is, with `-e`, and with the options of its own cases.
Python reads each JSON text, and has to print it in the same way: compact, with its keys in byte order, and LF at its end.
"""

import os

import cases
import converting
import listing
import rows
from program import Wanted, fault, run
from tally import difference

AGAIN = ("convert", "-f", "json", "-")
NO_UTF_8 = fault("NotUtf8")
# Less than this many policies, printed or with a JSON, would show that cases got lost.
FEWEST = 300


def options_of(words):
    """The options of a case but for the form; None if it names no FILE, or no form in two words."""
    words = [os.fsdecode(word) for word in words]
    files = [word for word in words if word in ("-", "policy")]
    if words[:1] != ["convert"] or not files:
        return None
    for place, word in enumerate(words[:-1]):
        if word in ("-f", "--form") and words[place + 1] in converting.FORMS:
            return tuple(word for word in words[1:place] + words[place + 2 :] if word != files[0])
    return None


def conversions():
    """The names of all policies with options: as they are, with `-e`, and as the cases of `convert` have them."""
    found = {}
    for policy, name in listing.policies().items():
        found[policy, ()] = f"{name}, as it is"
        found[policy, ("-e",)] = f"{name}, expanded"
    for case in rows.load_every().values():
        options = options_of(case.words)
        if options is not None and case.wanted.status != 2:
            in_folder = case.folder and cases.read_file(case.folder, "policy")
            found.setdefault((case.stdin if not in_folder else in_folder, options), case.name)
    return found


def is_utf_8(text):
    """Whether the bytes are UTF-8."""
    try:
        text.decode()
    except UnicodeDecodeError:
        return False
    return True


class Counts:
    """How many policies were printed, and how many of these have a JSON, have none, or were not printed for an error."""

    def __init__(self):
        self.json = 0
        self.no_utf_8 = 0
        self.refused = 0


def problems(program, policy, options, counts):
    """Where the JSON of a policy is no JSON, or another than that of the printed policy."""
    printed = run(program, ("convert", "-f", "sudoers", *options, "-"), policy)
    here = run(program, ("convert", "-f", "json", *options, "-"), policy)
    if printed.status != 0:
        counts.refused += 1
        return Wanted(b"", printed.stderr, 1).problems(here)
    lines = []
    if is_utf_8(printed.stdout):
        counts.json += 1
        lines += Wanted(None).problems(here) + converting.problems_of_json(here.stdout)
    else:
        counts.no_utf_8 += 1
        lines += NO_UTF_8.problems(here)
    return lines + Wanted(here.stdout, here.stderr, here.status).problems(run(program, AGAIN, printed.stdout))


def run_all(program, tally):
    """Compares all policies. Many of them have a JSON, and some have none or are refused."""
    counts = Counts()
    for (policy, options), name in conversions().items():
        tally.note(f"printed in json: {name}", problems(program, policy, options, counts))
    found = (counts.json >= FEWEST, counts.no_utf_8 > 0, counts.refused > 0)
    tally.note("policies in json, of no UTF-8, refused", difference("enough", (True, True, True), found))
