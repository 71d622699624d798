"""The groups of tables that are policies and their reports."""

import said
from policies import INCLUDE_FAULTS, drawn_report
from table_calls import cases_of_calls, name_of, wanted_row
from table_pairs import files_of
from tables import NoRow, call, text_of

VERDICTS = (": parsed OK", ": faults found")
CHECKS = {"notes": b"k", "unused": b"u", "is fine": b"F"}  # what is asked of a policy beside its report


def is_load_error(row):
    """Whether a row is the error of files that a line includes."""
    return row.startswith(INCLUDE_FAULTS)


def wanted_report(report):
    """The text of a report that has these rows, or the error that is in its place."""
    if is_load_error(report[0]):
        return wanted_row(report[0])
    return b"".join(text_of(row) + b"\n" for row in report)


def cases_of_report(name, row, strict, report):
    """The report of a policy, and that of an editor of it."""
    text, wanted = text_of(row), wanted_report(report)
    asking = call(b"p", b"s" if strict else b"")
    is_fine = report[-1].endswith(VERDICTS[0])

    def fine(line):
        """The two verdicts, and the length of the text; those that the case does not say are as wanted."""
        loose_is_fine, strict_is_fine, size = said.read(line)
        return loose_is_fine, strict_is_fine if strict else is_fine, len(wanted) if strict else size

    calls = [("report", asking, wanted, drawn_report)]
    if is_load_error(report[0]):
        calls += [(what, call(byte), wanted, drawn_report) for what, byte in CHECKS.items()]
    else:
        calls.append(("is fine", call(b"F"), (True, is_fine, len(wanted)), fine))
    yield from cases_of_calls(name, b"p", text, calls)
    yield from cases_of_calls(name, b"e", text, [("of an editor", asking, wanted, drawn_report)])


def cases_of_report_of_files(name, row, strict, report):
    """The report of the policy of files."""
    _, parts = files_of(row)
    asking = call(b"p", b"s" if strict else b"")
    yield from cases_of_calls(name, b"t", parts, [("report", asking, wanted_report(report), drawn_report)])


def is_of_files(group):
    """Whether a group of reports is one of files."""
    return group.words[-2:] == ("of", "files")


def sorts_of_report(group):
    """The sorts of report that a group asks for; none if it is no group of reports."""
    words = group.words[:-2] if is_of_files(group) else group.words
    return words if set(words) <= {"report", "strict"} else ()


def cases_of_reports(group):
    """The cases of a group of policies and their reports."""
    cases_of_one = cases_of_report_of_files if is_of_files(group) else cases_of_report
    policy, report = None, []
    for at, row in group.rows:
        if policy is None:
            policy = at, row
            continue
        report.append(row)
        if row.endswith(VERDICTS) or is_load_error(report[0]):
            for sort in sorts_of_report(group):
                name = f"{name_of(group, *policy)}: {sort}"
                yield from cases_of_one(name, policy[1], sort == "strict", report)
            policy, report = None, []
    if policy is not None:
        raise NoRow(f"row {policy[0]}: a report without its last row")
