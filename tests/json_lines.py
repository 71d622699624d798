"""Spells the lines of `diff`, `check --overruled` and `check --lint` from their JSON documents.

A `SpellingStand` runs each case of these commands again with `--json`. The lines that its documents say have to be those that are
printed without the option, byte for byte, with the same exit status and the same first line on standard error.
"""

import json_compared as compared
from program import NAME
from stand import Stand
from tally import difference

SIGNS = {"went": b"-", "came": b"+"}
HEADINGS = {
    "rules": b"",
    "left": b"Changed rules that may be of other users or hosts:\n",
    "others": b"Defaults that this program does not weigh:\n",
}
# The words of `check` that print lines which a document has, and those that do not go with one.
LINES, NO_DOCUMENT = {"--overruled", "--lint"}, {"--installed", "--for"}
USAGE_STATUS = 2


def change_text(change):
    """Returns the line on a change."""
    parts = [SIGNS[change["change"]], *(compared.bytes_of(change[key]) for key in ("user", "rule") if change[key] is not None)]
    text = b" ".join(parts)
    if change["place"] is None:
        return text + b"\n"
    if change["user"] is not None:
        example = change["example"]
        text += b"  no example found" if example is None else b"  e.g. " + compared.bytes_of(example)
    return text + b"  " + compared.spot_text(change["place"]) + b"\n"


def diff_text(document):
    """Returns what `diff` prints for its document."""
    return b"".join(heading + b"".join(map(change_text, document[key])) for key, heading in HEADINGS.items() if document[key])


def problems_of_diff(plain, document):
    """What is wrong with the document of `diff`."""
    problems = difference("differ", plain.status == 1, document["differ"])
    return problems + difference("lines", plain.stdout, diff_text(document))


def problems_of_check(words, plain, documents):
    """What is wrong with the documents of `check`, one for each policy."""
    problems = difference("passed", plain.status == 0, all(document["passed"] for document in documents))
    for key in ("lint", "overruled"):
        asked = {document[key] is not None for document in documents if document["read"]}
        problems += [] if asked <= {f"--{key}" in words} else [f"{key} is there: {asked}"]
    return problems + difference("report", compared.without_command(plain.stdout), b"".join(map(compared.check_text, documents)))


def problems_of_documents(words, plain, came):
    """What is wrong with the documents that came for these words, where `plain` is printed without them."""
    problems = difference("status", plain.status, came.status) + compared.stderr_problems(plain, came)
    if "-q" in words:
        return problems + difference("stdout", b"", came.stdout)
    documents = []
    for line in came.stdout.splitlines(keepends=True) or [b""]:
        document, wrong = compared.document_of(line)
        documents.append(document)
        problems += wrong
    if not all(documents):
        return problems
    if plain.stderr:
        said = NAME + b"".join(map(compared.errors_text, documents))
        return problems + difference("error", plain.stderr.splitlines(keepends=True)[0], said)
    if words[0] == "check":
        return problems + problems_of_check(words, plain, documents)
    return problems + problems_of_diff(plain, *documents)


def has_document(words):
    """Whether these words print lines that a document has."""
    return words[0] == "diff" or words[0] == "check" and bool(LINES & set(words)) and not NO_DOCUMENT & set(words)


class SpellingStand(Stand):
    """A stand that runs each case of these commands again with `--json`."""

    def note(self, name, words, wanted, folder, stdin=b"", **how):
        """Runs these words, and counts the run and the documents."""
        plain = self.run(words, folder, stdin, **how)
        self.tally.note(f"{self.part}: {name}, {words}", wanted.problems(plain))
        self.note_documents(name, words, plain, folder, stdin, **how)

    def note_documents(self, name, words, plain, folder, stdin=b"", **how):
        """Counts whether the documents for these words say what they printed without them, `plain`."""
        command, *rest = [word for word in words.split(" ") if word]
        if has_document([command, *rest]) and plain.status != USAGE_STATUS:
            came = self.run([command, "--json", *rest], folder, stdin, **how)
            self.tally.note(f"{self.part}: {name}, {words}, as JSON", problems_of_documents([command, *rest], plain, came))
