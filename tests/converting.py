"""What `convert` prints, looked at again: each output has to be right by itself, whatever its policy was.

A printed policy is converted once more, and has to stay as it is. It is read as a policy too: `check` has to pass it.
A printed JSON text is read by Python. It has to be compact, with its keys in byte order, and to end in LF.
"""

import json
import os

from program import Wanted, run

AGAIN = ("convert", "-f", "sudoers", "-")
FORMS = ("json", "sudoers")


def form_of(words, wanted):
    """The form in which a case of these words is printed; None if it prints none."""
    words = [os.fsdecode(word) for word in words]
    if words[:1] != ["convert"] or wanted.status != 0 or wanted.stdout is None:
        return None
    return next((form for name, form in zip(words, words[1:]) if name in ("-f", "--form") and form in FORMS), None)


def problems_of_sudoers(program, text):
    """The lines that say what is wrong with a printed policy."""
    again = Wanted(text).problems(run(program, AGAIN, text))
    checked = Wanted(None, stdout_has=(b"-: parsed OK\n",)).problems(run(program, ("check", "-"), text))
    return (["printed again:", *again] if again else []) + (["checked:", *checked] if checked else [])


def problems_of_json(text):
    """The lines that say what is wrong with a printed JSON text."""
    try:
        value = json.loads(text)
    except ValueError as error:
        return [f"no JSON: {error}"]
    same = json.dumps(value, ensure_ascii=False, sort_keys=True, separators=(",", ":")) + "\n"
    return [] if same.encode() == text else [f"wanted as Python prints it: {same!r}"]


def problems(program, words, wanted):
    """The lines that say what is wrong with the output of a case, none if it prints neither a policy nor JSON."""
    form = form_of(words, wanted)
    if form is None:
        return []
    return problems_of_json(wanted.stdout) if form == "json" else problems_of_sudoers(program, wanted.stdout)
