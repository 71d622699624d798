"""Gathers the worked policies: those of the tables, the rows, the folders of cases, the examples and the documents.

The readers of the tables make frames for the program `cases`, and the frames have the policies. So a new row of a table
is gathered without a further word. The order is fixed: that of the names of the folders and files, and of their rows.
"""

import functools
import glob
import os
import re

import cases
import documents
import examples
import rows
import tables_edit
import tables_line
import tables_list
import tables_match
import way_back
from bundles import files_of_output
from table_calls import is_error
from table_pairs import files_of
from tables import FOLDERS, TABLES, NoRow, groups_of

POLICY = b"policy"

# The readers of the folders of tables that make frames, the folders whose groups begin with files, and those without a policy.
READERS = {
    "line": tables_line.cases_of,
    "match": tables_match.cases_of,
    "list": tables_list.cases_of,
    "tree": tables_edit.cases_of,
    "check": tables_edit.cases_of,
    "edit": tables_edit.cases_of,
}
OF_FILES = ("files", "edited")
WITHOUT = ("text", "hits")

# The places of those whose row says that they are refused begin so; and places of definitions and mentions.
REFUSED = "refused: "
PLACE = re.compile(r"\d+(?:\.\d+ |:\d+-)")

# The code span with which a cell of a document begins.
SPAN = re.compile("`` (.+?) ``|`([^`]+)`")


def parts_of(data):
    """Returns the parts of a body."""
    parts = []
    while len(data) >= 8:
        size = int.from_bytes(data[:8], "big")
        parts.append(data[8 : 8 + size])
        data = data[8 + size :]
    return parts


def alone(text):
    """Returns the files of a policy of one file."""
    return ((POLICY, text),)


def files_of_parts(parts):
    """Returns the files that parts are, a name and a text each."""
    return tuple(zip(parts[::2], parts[1::2]))


def policy_of_edit_frame(sort, body):
    """Returns the files of a frame of policies, editors and texts; none if its text is a script."""
    size = int.from_bytes(body[:8], "big")
    text, calls = body[8 : 8 + size], body[8 + size :]
    if sort in b"pe" or sort in b"t" and calls[:1] == b"l":
        return alone(text)
    return files_of_parts(parts_of(text)) if sort in b"fg" or calls[:1] in (b"f", b"n", b"p", b"g") else ()


def policy_of_frame(frame):
    """Returns the files of the policy that a frame holds; none if it holds none."""
    subject, asked, body = frame[:1], frame[1:2], frame[10:]
    if subject == b"e":
        return policy_of_edit_frame(asked, body)
    if subject == b"l" and asked == b"P":
        return alone(body)
    if subject == b"m" and asked in b"URGHCKDAE":
        return alone(parts_of(body)[0])
    return alone(parts_of(body)[5]) if subject == b"p" and asked in b"LDA" else ()


def is_refused(wanted):
    """Whether an answer of a table is the error of a policy or of a line, and no place."""
    if not isinstance(wanted, str) or PLACE.match(wanted):
        return False
    return is_error(wanted) or tables_line.ERROR.fullmatch(wanted) is not None


def policies_of_tables():
    """Yields the policies of the tables, each with its place."""
    if set(FOLDERS) != {*READERS, *OF_FILES, *WITHOUT}:
        raise NoRow("a folder of tests/tables whose policies are not gathered")
    for folder in (*READERS, *OF_FILES):
        for path in sorted(glob.glob(os.path.join(TABLES, folder, "*.table"))):
            groups = groups_of(path)
            if folder in READERS:
                for case in READERS[folder](groups):
                    if case.frame:
                        yield REFUSED * is_refused(case.wanted) + case.name, policy_of_frame(case.frame)
                continue
            for group in groups:
                first = group.rows if "changes" not in group.words and "calls" not in group.words else group.rows[:1]
                yield f"{group.where}: {group.title}", tuple(files_of(first[0][1])[0])


def policy_of_case(case):
    """Returns the files of the policy of a case of the built program; none if it has none."""
    words = [os.fsdecode(word) for word in case.words]
    if words[:1] in ([], ["edit"]):
        try:
            return tuple(files_of_output(case.stdin)) or alone(way_back.policy_of(case.stdin)) * (b"%%\n" in case.stdin)
        except ValueError:
            return ()  # a bundle that is broken
    if "-" in words:
        return alone(case.stdin)
    text = case.folder and "policy" in words and cases.read_file(case.folder, "policy")
    return alone(text) if text else ()


def policies_of_examples():
    """Yields the policies of the examples, each with its place."""
    for name in sorted(os.listdir(examples.FOLDER)):
        if not os.path.isdir(os.path.join(examples.FOLDER, name)):
            continue
        if name != examples.SITE:
            yield from ((f"examples/{name}/{file}", alone(examples.read(name, file))) for file in ("policy", "edited"))
            continue
        inner = sorted(os.listdir(os.path.join(examples.FOLDER, name, "sudoers.d")))
        files = ["sudoers", *(f"sudoers.d/{file}" for file in inner)]
        yield f"examples/{name}", tuple((file.encode(), examples.read(name, file)) for file in files)


def policies_of_page(name):
    """Yields the policies of the tables of a document whose first header cell is `Policy`, each with its place."""
    header = None
    for number, line in enumerate(documents.read(name).split("\n"), 1):
        cells = documents.cells_of(line) if line.startswith("|") else []
        if not cells:
            header = None
        elif header is None:
            header = cells
        elif header[0] == "Policy" and not set(cells[0]) <= set("-: "):
            span = SPAN.match(cells[0])
            yield f"{name}:{number}", alone(documents.unescaped(span[1] or span[2]))


@functools.cache
def policies():
    """Returns all worked policies, each once: its files, a name and a text each, and the place that has it first."""
    found = {}
    try:
        gathered = [*policies_of_tables()]
    except NoRow as error:
        raise ValueError(f"the policies of the tables: {error}") from None
    gathered += ((f"{case.table or 'tests/cases'}: {case.name}", policy_of_case(case)) for case in rows.load_every().values())
    gathered += policies_of_examples()
    for name in documents.names():
        gathered += policies_of_page(name)
    for where, files in gathered:
        if files:
            found.setdefault(files, where)
    return found


def texts(most):
    """Returns the texts of the files of all worked policies, each once with its place: those of at most so many bytes."""
    found = {}
    for files, where in policies().items():
        for _, text in files:
            if len(text) <= most:
                found.setdefault(text, where)
    return found
