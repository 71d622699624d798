"""Compares the forms that a page tells to write with the refused ones, as cvtsudoers reads both.

A row whose cell `What` begins with `write this` answers the rows above it in its table, up to the last row that tells to
write or remove something. Where sudo reads such a row, `cvtsudoers -f json` has to print the same rules of both. So a form that is to be written
changes no rule. A row that tells to write another rule has other words, as `write what you mean`, and is not compared.
"""

import functools
import os
import shutil
import subprocess
import tempfile

from tally import difference

SECONDS = 60
SAME = "write this"
OTHER = ("write ", "remove ")
ENVIRONMENT = {"LC_ALL": "C", "TZ": "UTC"}


@functools.cache
def cvtsudoers(version):
    """Returns the path of cvtsudoers, or None where its version is another."""
    path = shutil.which("cvtsudoers", path="/usr/local/bin:/usr/bin:/usr/sbin")
    if path is None:
        return None
    done = subprocess.run([path, "-V"], stdout=subprocess.PIPE, check=False, timeout=SECONDS)
    return path if version in done.stdout.split() else None


def rules(program, policy):
    """Returns the rules of a policy as cvtsudoers prints them, or its error."""
    with tempfile.TemporaryDirectory() as folder:
        path = os.path.join(folder, "policy")
        with open(path, "wb") as file:
            file.write(policy)
        done = subprocess.run([program, "-f", "json", path], capture_output=True, check=False, env=ENVIRONMENT, timeout=SECONDS)
    return done.stdout if done.returncode == 0 else done.stderr


def answers(rows):
    """Returns the rows `write this`, each with the rows above it that sudo reads."""
    found, above, last = [], [], 0
    for row in rows:
        if row.line != last + 1:
            above = []
        last = row.line
        if row.what.startswith(SAME):
            found.append((row, above))
        above = [] if row.what.startswith(OTHER) else above + [row] * (row.sudo == "reads")
    return found


def run_all(document, version, tally):
    """Compares the answers of a document."""
    found = answers(document.rows)
    program = cvtsudoers(version)
    if found and program is None:
        tally.skip(f"{document.name}, forms to write", f"cvtsudoers of sudo {version.decode()} is not installed")
        return
    for row, above in found:
        written = rules(program, row.policy)
        for refused in above:
            problems = difference("rules", rules(program, refused.policy), written)
            tally.note(f"{document.name}:{row.line}, the form to write for line {refused.line}", problems)
