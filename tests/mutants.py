"""Reads mutants of the worked policies with `check --for sudo` and with `visudo -c -f`, which have to agree.

The policies are those that worked_policies.py gathers, the examples among them. A mutant has one or more changes, mostly
of whole words, with pieces that sudo and this toolkit may read otherwise. It depends on its policy and a seed alone, so
that a new policy leaves the mutants of the others as they are. Beside it lie a file and a folder that pieces name, and
those that the include lines of the policy name. Policies with include lines are mutated by each seed, the others by the
first one.

Both read it, or both refuse it: this toolkit by an error or by a note `refused by visudo -c`. A note `read otherwise by
sudo` or `not decided` goes with both answers of visudo. A mutant that visudo refuses may never pass without a note. Any
other one has to fall under a predicate, which holds of its text or of our error. Each predicate has words of a page that
describes it, and the test looks them up. Where visudo of sudo 1.9.13p3 is not installed, all that is skipped.
"""

import hashlib
import os
import random
import re
import subprocess
from collections import Counter
from concurrent.futures import ThreadPoolExecutor
from dataclasses import dataclass

import documents
import worked_policies
from documents import SUDO, visudo
from program import SECONDS
from stand import Folder, Stand
from tally import shown

PART = "mutants"
SEEDS = (20_261_130, 20_261_131, 20_261_132)
SEED = SEEDS[0]
MUTANTS, MOST = 3_000, 2_000
WORKERS = 4

# Less than this would show that mutants got lost: read by both, refused by both, with a note that says so.
FEWEST = {"both read": 400, "both refuse": 800, "noted": 100}

PIECES = (
    *("\\\n", "\\\r\n", "\r\n", "\\\n ", " \\\n", "#", "#1", "#-1", "#-", " # x", "!", "! ", " ", "\t", '"', "%", "+", ">", "\\", "\\ "),
    *("\\*", "\\x41", "\\x00", "\\\t", "=", ":", ",", "(", ")", "/", "^", "$", "*", "~", "@", ".", "\n", "\\,", "\\=", "\\:"),
    *("ALL", "sudoedit", "CWD=/tmp ", "CWD", "TIMEOUT=1h ", "TIMEOUT=x ", "ROLE=r ", "NOPASSWD: ", "NOPASSWD", "MAIL:", "10.0.0.1"),
    *("sha224", "A", "a", "0", "1", "-", "_"),
    *("@include web\n", "#include web", "@includedir parts\n", "@include", "#include ", " Defaults", "User_Alias", "%h", '"web"', "web\\\n"),
)
BYTES = " \t\\\"#%+!,:=()/>azAZ09-_.*?[]^$~@'|{};&\x7f\x01"
WORDS = re.compile(r"[A-Za-z0-9_./-]+|\s+|.", re.S)


@dataclass(frozen=True)
class Reading:
    """A mutant, our error if there is one, our notes, and whether visudo reads it."""

    text: str
    error: str
    notes: tuple
    is_read: bool

    def has(self, pattern):
        """Returns whether the text has this pattern."""
        return re.search(pattern, self.text, re.M) is not None

    def bytes_at_error(self):
        """Returns the bytes around the place of our error."""
        place = re.match(r"p:(\d+):(\d+): ", self.error)
        rows = self.text.split("\n")
        if not place or int(place[1]) > len(rows):
            return ""
        row, at = rows[int(place[1]) - 1], int(place[2]) - 1
        return row[:at].rstrip()[-1:] + row[at : at + 1]

    def is_noted(self, words):
        """Returns whether a note has these words."""
        return any(words in note for note in self.notes)


@dataclass(frozen=True)
class Predicate:
    """Words of a page, and the readings of which it speaks."""

    page: str
    words: str
    holds: object


def has(page, words, pattern):
    """Returns the predicate of texts with this pattern."""
    return Predicate(page, words, lambda reading: reading.has(pattern))


def error(page, words, name):
    """Returns the predicate of errors of this name."""
    return Predicate(page, words, lambda reading: reading.error.endswith(name))


DIFFERENCES, CHECKS = "docs/differences.md", "docs/checks.md"
GAP = r"(?:\s|\\\r?\n)*"
TAGS = r"(?:NO)?(?:EXEC|FOLLOW|INTERCEPT|LOG_INPUT|LOG_OUTPUT|MAIL|PASSWD|SETENV)"

# We refuse it, and visudo reads it.
REFUSED_HERE = (
    error(DIFFERENCES, "Here no alias may have the name of a", "reserved"),
    error(DIFFERENCES, "must be a network", "BadAddress"),
    error(DIFFERENCES, "is at most 4,294,967,295", "BadId"),
    error(DIFFERENCES, "Here a time stamp is in UTC", "BadStamp"),
    error(DIFFERENCES, "Here a quote among arguments must be closed", "OpenQuote"),
    error(DIFFERENCES, "one file included twice", " twice"),
    has(DIFFERENCES, "`#include` and `#includedir` make them comments for sudo", r"^[ \t]+#include(?:dir)?[ \t]"),
    has(DIFFERENCES, "`\\x00` in a path", r"include.*\\x00"),
    has(DIFFERENCES, "`#` at the beginning of a path", rf"include(?:dir)?{GAP}#"),
    error(DIFFERENCES, "A continuation needs a line behind it", "OpenContinuation"),
    error(DIFFERENCES, "`#` in quotes with nothing behind it", "EmptyName"),
    error(DIFFERENCES, "This tool has no regular expressions", "Regex"),
    Predicate(DIFFERENCES, "a quote ends a path", lambda reading: reading.error.endswith("UnexpectedByte") and '"' in reading.text),
    Predicate(DIFFERENCES, "a quote ends a path", lambda reading: '"' in reading.bytes_at_error() and reading.has(r'/[^\s,:=]*"')),
    has(DIFFERENCES, "sudo begins a comment at a", r"\"[^\"\n]*#"),
    Predicate(DIFFERENCES, "Write a backslash before each `=` among arguments", lambda reading: "=" in reading.bytes_at_error()),
    has(DIFFERENCES, "colon alone, which sudo reads as `()`", rf"\({GAP}:{GAP}\)"),
    has(DIFFERENCES, "blanks come between the backslash and the line end", r"\\[ \t]+\r?(?:\n|\Z)"),
    has(DIFFERENCES, "parentheses in a folder", r"C(?:WD|HROOT)\s*=\S*[!()]"),
    has(DIFFERENCES, "something directly behind `sudoedit`", r"sudoedit[^\s,:=#\\]"),
    has(DIFFERENCES, "tag as a command", TAGS + r"\s*(?:[,:#]|$)"),
    has(DIFFERENCES, "A user or group number has digits alone", r"#-\d"),
    has(DIFFERENCES, "number as a host", r"#\d"),
    has(DIFFERENCES, "This tool has no IPv6 addresses", r":[0-9a-f]*:"),
    has(DIFFERENCES, "Here a digest may come only before a path or `ALL`", r"sha(?:224|256|384|512)"),
    has(DIFFERENCES, "CR that no LF follows", r"\r(?!\n)"),
    has(DIFFERENCES, "name directly behind a keyword", r"^[ \t]+(?:User|Runas|Host|Cmnd|Cmd)_Alias\S"),
    has(DIFFERENCES, "two `!` behind a member", r"!!"),
    has(DIFFERENCES, "`list` in quotes, or with a backslash", r"\"list\"|l\\?i\\?s\\?t"),
)

# A note says that visudo refuses it, and visudo reads it.
NOTED_ALONE = (
    has(CHECKS, "a folder with `!`, `(` or `)`", r"C(?:WD|HROOT)\s*=.*[!()]"),
    has(CHECKS, "`!` directly behind Defaults or its scope, with a blank behind it", r"!\s"),
    has(CHECKS, "a backslash and CR LF directly behind a keyword with blanks before it", r"^[ \t]+@?\w+\\\r\n"),
    has(CHECKS, "a continuation alone behind `!` in a scope", r"!(?:\\\r?\n)"),
)

# An include line with the name of a file or a folder, perhaps a path from the root.
INCLUDED = re.compile(r'(include(?:dir)?[ \t]+"?)(/(?:etc/)?)?([\w.-]+)')
RULE = "bob h = ALL\n"


def beside(text):
    """Returns the files that lie beside the mutants of a text."""
    tree = {"web": RULE, "parts/a": RULE}
    for words, _, name in INCLUDED.findall(text):
        if name.strip(".") and name not in ("p", "parts") and f"{name}/a" not in tree:
            tree[f"{name}/a" if words.startswith("includedir") and name not in tree else name] = RULE
    return tree


def has_include(text):
    """Returns whether a text may have an include line."""
    return "include" in text


def is_run(text):
    """Returns whether a text has no NUL."""
    return "\0" not in text


def order_of(text):
    """Returns where a text stands among the others: its place has nothing to do with what it says."""
    return hashlib.sha256(f"{SEED} {text}".encode()).digest()


def policies():
    """Returns the texts that are changed: those without include lines, and those with such lines, in relative paths."""
    texts = [text.decode("latin-1") for text in worked_policies.texts(MOST) if is_run(text.decode("latin-1"))]
    alone = sorted((text for text in texts if not has_include(text)), key=order_of)[:MUTANTS]
    return alone, [INCLUDED.sub(r"\1\3", text) for text in texts if has_include(text)]


def mutants():
    """Yields each mutant, with the files beside it."""
    alone, including = policies()
    for text in alone:
        yield mutant(text), beside("")
    for seed in SEEDS:
        for text in including:
            yield mutant(text, seed), beside(text)


def change_words(draw, text):
    """Returns a text with one of its words added, left out, replaced or moved."""
    words = WORDS.findall(text) or [" "]
    at, other = draw.randrange(len(words)), draw.randrange(len(words))
    sort = draw.randrange(5)
    if sort == 0:
        words.insert(at, draw.choice(PIECES))
    elif sort == 1:
        del words[at]
    elif sort == 2:
        words[at] = draw.choice(PIECES)
    elif sort == 3:
        words[at], words[other] = words[other], words[at]
    else:
        words[at] = words[other]
    return "".join(words)


def change_bytes(draw, text):
    """Returns a text with a piece within a word, without a byte, or with another byte."""
    at = draw.randrange(len(text) + 1)
    sort = draw.randrange(4)
    if sort < 2:
        return text[:at] + draw.choice(PIECES) + text[at:]
    if sort == 2:
        return text[:at] + text[at + 1 :]
    return text[:at] + draw.choice(BYTES) + text[at + 1 :]


def mutant(text, seed=SEED):
    """Returns a mutant of a policy."""
    draw = random.Random(f"{seed} {text}")
    while True:
        text = draw.choice((change_words, change_bytes))(draw, text)
        if draw.random() < 0.85 and text:
            return text


def read_by_both(stand, folder, text):
    """Returns what both programs make of a text in a folder."""
    with open(os.path.join(folder, "p"), "w", encoding="latin-1", newline="") as file:
        file.write(text)
    ours = stand.run("check --for sudo p", folder)
    words = [visudo(), "-c", "-f", "p"]
    theirs = subprocess.run(words, capture_output=True, cwd=folder, env={"LC_ALL": "C"}, timeout=SECONDS, check=False)
    lines = ours.stdout.decode("latin-1").split("\n")
    notes = tuple(line for line in lines if re.search(r": (?:refused by visudo -c|read otherwise by sudo|not decided): ", line))
    error_line = lines[0] or ours.stderr.decode("latin-1").strip()
    return Reading(text, error_line if ours.status else "", notes, theirs.returncode == 0)


def outcome_of(reading):
    """Returns how both answers go together, and the predicates that may explain it."""
    if reading.error:
        return ("refused here", REFUSED_HERE) if reading.is_read else ("both refuse", ())
    if reading.is_noted(": refused by visudo -c: "):
        return ("noted alone", NOTED_ALONE) if reading.is_read else ("noted", ())
    if reading.notes:
        return "read otherwise or not decided", ()
    return ("both read", ()) if reading.is_read else ("passed alone", ())


def problems_of(reading, counts):
    """Counts a reading, and returns what is wrong with it."""
    outcome, predicates = outcome_of(reading)
    counts[outcome] += 1
    if outcome not in ("refused here", "noted alone", "passed alone"):
        return []
    if any(predicate.holds(reading) for predicate in predicates):
        return []
    return [f"{outcome}: {shown(reading.text)}, {reading.error or reading.notes}"]


def run_pages(tally):
    """Looks up the words of each predicate on its page."""
    for predicate in (*REFUSED_HERE, *NOTED_ALONE):
        page = " ".join(documents.read(predicate.page).split())
        tally.note(f"{PART}: {predicate.words}", [] if predicate.words in page else [f"not on {predicate.page}"])


def run_all(program, tally):
    """Runs all of it."""
    run_pages(tally)
    if not visudo():
        tally.skip(f"{PART}: beside visudo", f"visudo of sudo {SUDO.decode()} is not installed")
        return
    stand, counts = Stand(PART, program, tally), Counter()

    def read_mutant(one):
        with Folder(one[1]) as folder:
            return read_by_both(stand, folder, one[0])

    with ThreadPoolExecutor(WORKERS) as pool:
        for reading in pool.map(read_mutant, (one for one in mutants() if is_run(one[0]))):
            tally.note(f"{PART}: {shown(reading.text)}", problems_of(reading, counts))
    print(f"{PART}: {dict(counts)}")
    too_few = [f"{outcome}: {counts[outcome]} of {least}" for outcome, least in FEWEST.items() if counts[outcome] < least]
    tally.note(f"{PART}: enough of each", too_few)
