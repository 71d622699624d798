"""Runs each command that the documents show, and compares what it prints with what they show.

In a document a fenced block `sh` is run, and the block `text` that follows it is
what it prints on both streams; without such a block it prints nothing. The
blocks of one document run in order in one shell, in a folder of their own that
holds a copy of examples/. A block `sh visudo` is skipped where visudo of the
version SUDO is not installed. A block `console` shows commands that prove, build
or install, each after `$ `: it may hold only those of ELSEWHERE, which other
tests or the gate run. Any other block is a picture.

A table whose first header cell is `Policy` and whose last is `` `check` prints ``,
`` `show` prints `` or one like `` `convert -f sudoers -e` prints `` is run row by
row: the first cell holds the file `policy`, and the last one what the command
prints of it. A column `Options` has further words of the command, or an empty
cell. An output of `convert` has to be right by itself too (converting.py).
In a column `sudo` the cells `reads` and `refuses` are compared with the answer of
visudo, if it is of that version. A row that says `write this` is compared with those above it (written_instead.py).

So is one whose last header cell is `` `list` answers ``, with `allowed`, `not allowed`
or an error in that column. Its column `Request` has what bob asks on the host h1:
options of `list` and a command. PEOPLE are the users and groups.

CHANGELOG.md has a section of the version that the program prints. docs/TRUST.md has a link to each library.
The tables of docs/AUDIT.md are what scripts/audit prints. The table of the crates in docs/ARCHITECTURE.md and the page
crates/README.md are what scripts/crates prints. exported.py looks for devices of proofs in what is exported.
parameter_pages.py compares the table of Defaults parameters with the files that scripts/parameters makes of it, and with docs/checks.md.
"""

import functools
import glob
import os
import re
import shlex
import shutil
import subprocess
import sys
import tempfile
from dataclasses import dataclass, field

import converting
import exported
import named_cases
import parameter_pages
import written_instead
from program import Wanted, run
from tally import difference

TOP = os.path.dirname(os.path.dirname(os.path.abspath(__file__)))
PATTERNS = ("*.md", "docs/*.md", "crates/README.md", "crates/*/README.md")
PATTERNS += ("tests/README.md", "bench/README.md", "examples/README.md")
SECONDS = 60

# How many lines a document has at most, where it is short on purpose.
LIMITS = {
    "README.md": 160,
    "CONTRIBUTING.md": 90,
    "SECURITY.md": 60,
    "docs/ARCHITECTURE.md": 154,
    "docs/AUDIT.md": 104,
    "docs/BENCHMARK.md": 120,
    "docs/DECISIONS.md": 480,
    "docs/GATE.md": 40,
    "docs/PROOFS.md": 180,
}

# Commands of `console` blocks, and what runs them: a word of each command line, in order, has to be its beginning.
ELSEWHERE = (
    "bash scripts/try",  # examples.py
    "bash scripts/build",  # installing.py; the gate proves and builds with the same words of rt
    "bash scripts/test",  # these tests are a part of it
    "bench/run",  # benchmarks.py runs its quick rows
    "bash scripts/package",  # installing.py
    "sudo bash scripts/install",  # installing.py
    "sudo bash scripts/uninstall",  # installing.py
    "sudo dpkg -i",  # installing.py unpacks the package
    "cd crates/",  # before a word of rt
    "(cd crates/",
    "crates/bench_",  # bench/run
    "rt ",  # the gate
    "tests/run",  # these tests
    "scripts/try_edit",  # the gate tries all edits
    "scripts/audit ",  # run_audit
    "git clone",
)

SYSTEM_PATH = "/usr/local/bin:/usr/bin:/bin:/usr/sbin:/sbin"

# The version of sudo that the documents speak of.
SUDO = b"1.9.13p3"

ANSWERS = "`list` answers"
PEOPLE = (
    ("passwd", b"root:x:0:0:::\nbob:x:1000:1000:::\noper:x:9:9:::\n"),
    ("group", b"root:x:0:\nbob:x:1000:\noper:x:9:\nadm:x:4:bob\nops:x:7:\nwheel:x:10:\ncrew:x:10:bob\n"),
)
LIST_WORDS = ("list", "--passwd", "passwd", "--group-file", "group", "--moment", "2026010100Z")
BOB_ON_H1 = ("-U", "bob", "--host", "h1", "--interfaces", "10.0.0.1/8,127.0.0.1/8")

# The page that has a link to each library, what the names of libraries begin with, and the program, which begins so too.
TRUST = "docs/TRUST.md"
LIBRARIES = ("sudoers_", "laws_")
PROGRAM = "sudoers_tool"

# The pages that hold what a script prints, and the lines around that in two of them.
AUDIT, MAP, CRATES = "docs/AUDIT.md", "docs/ARCHITECTURE.md", "crates/README.md"
MARKS = ("<!-- what scripts/{} prints -->\n", "<!-- its end -->\n")

PRINTS = re.compile(r"`(check|show|convert -f (?:json|sudoers)(?: [^`]+)?)` prints")
ESCAPES = {"n": b"\n", "r": b"\r", "t": b"\t", "0": b"\0", "\\": b"\\", "|": b"|"}


@dataclass
class Block:
    """A fenced block of a document."""

    line: int
    kind: str
    text: str = ""


@dataclass
class Row:
    """A row of a table that is run."""

    line: int
    command: str
    policy: bytes
    printed: bytes
    sudo: str = ""
    request: tuple = ()
    what: str = ""
    note: str = ""


@dataclass
class Document:
    """What the tests read of a document."""

    name: str
    blocks: list = field(default_factory=list)
    rows: list = field(default_factory=list)
    links: list = field(default_factory=list)
    lines: int = 0


@functools.cache
def visudo():
    """Returns the path of visudo, or None where its version is not SUDO."""
    path = shutil.which("visudo", path=SYSTEM_PATH)
    if path is None:
        return None
    done = subprocess.run([path, "-V"], stdout=subprocess.PIPE, check=False)
    return path if SUDO in done.stdout.split() else None


def unescaped(text):
    """Returns the bytes of a policy as a cell spells it."""
    return re.sub(rb"\\(.)", lambda match: ESCAPES[match[1].decode()], text.encode())


def code_span(cell):
    """Returns the text of a cell that is one code span, or None."""
    match = re.fullmatch(r"`([^`]+)`|`` (.+) ``", cell)
    return match and (match[1] or match[2])


def cells_of(line):
    """Returns the cells of a table's line."""
    return [cell.strip() for cell in re.split(r"(?<!\\)\|", line.strip())[1:-1]]


def is_run(header):
    """Whether the rows of a table with this header are run."""
    return header[0] == "Policy" and (PRINTS.fullmatch(header[-1]) is not None or header[-1] == ANSWERS)


def read_answer(number, header, cells):
    """Returns the row of a request to `list`."""
    policy, request = code_span(cells[0]), code_span(cells[header.index("Request")])
    if policy is None or request is None:
        raise ValueError(f"line {number}: a row of a request needs code spans for policy and request")
    words = shlex.split(request)
    options = next((at for at in range(0, len(words), 2) if not words[at].startswith("-")), len(words))
    asked = (*LIST_WORDS, *BOB_ON_H1, *words[:options], "policy", "--", *words[options:])
    answer = b" ".join(word.encode() for word in words[options:]) + b"\n"
    error = code_span(cells[-1])
    if error is not None:
        answer = b"sudoers_tool: " + error.encode() + b"\n"
    elif cells[-1] not in ("allowed", "not allowed"):
        raise ValueError(f"line {number}: {cells[-1]!r} is no answer")
    note = cells[header.index("Note")] if "Note" in header else ""
    return Row(number, "list", unescaped(policy), answer if cells[-1] != "not allowed" else b"", request=asked, note=note)


def read_row(number, header, cells):
    """Returns the row that these cells make in a table with this header."""
    if len(cells) != len(header):
        raise ValueError(f"line {number}: a row of {len(cells)} cells in a table of {len(header)}")
    if header[-1] == ANSWERS:
        return read_answer(number, header, cells)
    command = PRINTS.fullmatch(header[-1])[1]
    options = cells[header.index("Options")] if "Options" in header else ""
    if options:
        command += f" {code_span(options)}"
    sudo = cells[header.index("sudo")] if "sudo" in header else ""
    policy = code_span(cells[0])
    printed = [code_span(part) for part in cells[-1].split("<br>")]
    if policy is None or None in printed:
        raise ValueError(f"line {number}: a row that is run needs code spans in its first and last cell")
    lines = [line.replace("\\|", "|").encode() + b"\n" for line in printed if line]
    what = cells[header.index("What")] if "What" in header else ""
    return Row(number, command, unescaped(policy), b"".join(lines), sudo, what=what)


def read(name):
    """Returns the text of a file of the repository."""
    with open(os.path.join(TOP, name), encoding="utf-8") as file:
        return file.read()


def read_document(name):
    """Reads the blocks, the rows and the links of a document."""
    document = Document(name)
    block = header = None
    lines = read(name).split("\n")
    document.lines = len(lines) - 1
    for number, line in enumerate(lines, 1):
        if line.startswith("```"):
            if block is None:
                block = Block(number, line[3:].strip())
                document.blocks.append(block)
            else:
                block = None
        elif block is not None:
            block.text += line + "\n"
        else:
            document.links += [(number, link) for link in re.findall(r"\]\(([^)#:\s]+)(?:#[^)]*)?\)", line)]
            cells = cells_of(line) if line.startswith("|") else []
            if not cells:
                header = None
            elif is_run(cells):
                header = cells
            elif header and not set(cells[0]) <= set("-: "):
                document.rows.append(read_row(number, header, cells))
    return document


def environment(program, folder):
    """Returns the environment of a document's shell: the program is on the PATH."""
    commands = os.path.join(folder, ".commands")
    os.mkdir(commands)
    os.symlink(program, os.path.join(commands, "sudoers_tool"))
    return {"PATH": f"{commands}:{SYSTEM_PATH}", "HOME": folder, "LC_ALL": "C"}


def run_blocks(document, program):
    """Runs the `sh` blocks of a document in one shell, and returns what each printed."""
    kinds = ("sh", "sh visudo") if visudo() else ("sh",)
    blocks = [block for block in document.blocks if block.kind in kinds]
    if not blocks:
        return []
    script = "umask 022\nexec 2>&1 </dev/null\n"
    for block in blocks:
        script += block.text + "printf '\\000'\n"
    with tempfile.TemporaryDirectory() as folder:
        shutil.copytree(os.path.join(TOP, "examples"), os.path.join(folder, "examples"))
        done = subprocess.run(
            ["sh", "-c", script],
            stdout=subprocess.PIPE,
            cwd=folder,
            env=environment(program, folder),
            timeout=SECONDS,
            check=False,
        )
    printed = done.stdout.split(b"\0")
    return list(zip(blocks, printed + [None] * len(blocks)))


def wanted_of(document, block):
    """Returns what a block has to print: the block `text` that follows it."""
    at = document.blocks.index(block) + 1
    after = document.blocks[at] if at < len(document.blocks) else None
    return after.text.encode() if after is not None and after.kind == "text" else b""


def run_commands(document, program, tally):
    """Runs the commands of a document."""
    for block, printed in run_blocks(document, program):
        problems = difference("output", wanted_of(document, block), printed)
        tally.note(f"{document.name}:{block.line}, a command", problems)


def wanted_of_row(row):
    """Returns what a row has to answer: only `check` prints an error on standard output."""
    if row.command != "check" and row.printed.startswith(b"sudoers_tool: "):
        return Wanted(stderr=row.printed, status=1)
    accepted = row.printed.endswith(b": parsed OK\n") if row.command == "check" else row.printed or row.command != "list"
    return Wanted(row.printed, status=0 if accepted else 1)


def sudo_problems(row, folder):
    """Returns where the cell of a column `sudo` is not what visudo answers."""
    if row.sudo not in ("reads", "refuses") or not visudo():
        return []
    words = [visudo(), "-q", "-c", "-f", os.path.join(folder, "policy")]
    done = subprocess.run(words, capture_output=True, check=False, env={"LC_ALL": "C"}, timeout=SECONDS)
    return difference("visudo", row.sudo, "reads" if done.returncode == 0 else "refuses")


def run_rows(document, program, tally):
    """Runs the rows of a document's tables."""
    for row in document.rows:
        with tempfile.TemporaryDirectory() as folder:
            with open(os.path.join(folder, "policy"), "wb") as file:
                file.write(row.policy)
            for name, text in PEOPLE:
                with open(os.path.join(folder, name), "wb") as file:
                    file.write(text)
            words, wanted = row.request or (*row.command.split(" "), "policy"), wanted_of_row(row)
            problems = wanted.problems(run(program, words, folder=folder))
            problems = problems or converting.problems(program, words, wanted)
            problems += sudo_problems(row, folder)
        tally.note(f"{document.name}:{row.line}, a row", problems)


def console_problems(block):
    """Returns the commands of a `console` block that nothing runs."""
    commands = [line[2:] for line in block.text.split("\n") if line.startswith("$ ")]
    wrong = [command for command in commands if not command.startswith(ELSEWHERE)]
    return [f"nothing runs {command!r}" for command in wrong]


def run_forms(document, tally):
    """Each output follows its command, each other command is run elsewhere, and each link leads to a file."""
    for before, block in zip([None, *document.blocks], document.blocks):
        if block.kind == "text":
            alone = before is None or before.kind not in ("sh", "sh visudo")
            tally.note(f"{document.name}:{block.line}, an output", ["no command prints it"] if alone else [])
        if block.kind == "console":
            tally.note(f"{document.name}:{block.line}, commands", console_problems(block))
    folder = os.path.dirname(os.path.join(TOP, document.name))
    broken = [f"line {number}: {link}" for number, link in document.links if not os.path.exists(os.path.join(folder, link))]
    tally.note(f"{document.name}, links", broken)
    most = LIMITS.get(document.name, document.lines)
    tally.note(f"{document.name}, length", [f"more than {most} lines"] if document.lines > most else [])


def printed_by(script, *words):
    """Returns what a script prints, or why it stopped."""
    path = os.path.join(TOP, "scripts", script)
    done = subprocess.run([sys.executable, path, *words], capture_output=True, timeout=SECONDS, check=False)
    return (done.stdout if done.returncode == 0 else done.stderr).decode()


def marked(name, script):
    """Returns what a page has between the marks of a script."""
    return read(name).partition(MARKS[0].format(script))[2].partition(MARKS[1])[0]


def stale(printed, shown, script):
    """Returns where a page shows something else than a script printed."""
    problems = [f"the page lacks {line}" for line in printed.split("\n") if line not in shown.split("\n")]
    problems += ["the page has other lines"] if not problems and printed != shown else []
    return problems and [*problems, f"scripts/{script} --write puts them into the page"]


def run_crates(tally):
    """ARCHITECTURE and the page of the crates show what scripts/crates prints, and TRUST has a link to each library."""
    tally.note(f"{MAP}, table of the crates", stale(printed_by("crates"), marked(MAP, "crates"), "crates"))
    tally.note(f"{CRATES}, all lines", stale(printed_by("crates", "--page"), read(CRATES), "crates"))
    crates = [line.split(":")[0] for line in read("crates.txt").split("\n") if line]
    linked = {os.path.basename(os.path.dirname(link)) for _, link in read_document(TRUST).links}
    wanted = [crate for crate in crates if crate.startswith(LIBRARIES) and crate != PROGRAM]
    tally.note(f"{TRUST}, crates", [f"there is no link to {crate}" for crate in wanted if crate not in linked])


def run_changelog(program, tally):
    """CHANGELOG.md has a section of the program's version, with a date, or `unreleased` if it is the first section."""
    version = run(program, ("--version",)).stdout.decode().split()[-1]
    sections = re.findall(r"^## (\d\S*) - (\d{4}-\d\d-\d\d|unreleased)$", read("CHANGELOG.md"), re.MULTILINE)
    problems = [f"there is no section {version}"] if version not in dict(sections) else []
    problems += [f"{name} is unreleased" for name, date in sections[1:] if date == "unreleased"]
    tally.note("CHANGELOG.md, versions", problems)


def run_audit(tally):
    """AUDIT shows what scripts/audit prints; the files of each column have as many lines; what has contracts is there."""
    printed = printed_by("audit")
    tally.note(f"{AUDIT}, tables", stale(printed, marked(AUDIT, "audit"), "audit"))
    rows = [cells_of(line) for line in printed.split("\n")]
    sums = next((row for row in rows if row[:1] == ["**sum**"]), [])
    for command, total in list(zip(rows[0], sums))[1:-1]:
        lines = re.findall(r"^ *(\d+)  crates/", printed_by("audit", *command.split()), re.MULTILINE)
        tally.note(f"{AUDIT}, files of {command}", difference("lines", int(total), sum(map(int, lines))))
    code = ""
    for crates in ("sudoers_*", "laws_*"):
        for path in glob.glob(os.path.join(TOP, "crates", crates, "src", "*.rt")):
            with open(path, encoding="utf-8") as file:
                code += file.read()
    cells = [cell for line in read(AUDIT).split("\n") if line.startswith("| ") for cell in cells_of(line)[1:]]
    cited = sorted(set(re.findall(r"`(?:\w+::)?(\w+)`", " ".join(cells))))
    form = r"^ *(?:pub fn|pub trait|ensures) {}\b"
    missing = [name for name in cited if not re.search(form.format(name), code, re.MULTILINE)]
    tally.note(f"{AUDIT}, contracts", [f"nothing has the contract or the clause {name}" for name in missing])


def names():
    """Returns the names of all documents."""
    paths = [path for pattern in PATTERNS for path in sorted(glob.glob(os.path.join(TOP, pattern)))]
    return [os.path.relpath(path, TOP) for path in paths]


def run_all(program, tally):
    """Runs what all documents show, and looks for the tests that they name."""
    named_cases.run_all(tally)
    run_crates(tally)
    run_changelog(program, tally)
    run_audit(tally)
    exported.run_all(tally)
    parameter_pages.run_all(tally)
    if not visudo():
        tally.skip("documents, what sudo answers", f"visudo of sudo {SUDO.decode()} is not installed")
    for name in names():
        document = read_document(name)
        run_commands(document, program, tally)
        run_rows(document, program, tally)
        written_instead.run_all(document, SUDO, tally)
        run_forms(document, tally)
