"""The rows of `list` and of `who`, with `check` beside them, and whether their reaches are met."""

import asked as asking
import people
import policies
from reaches import reach_times
from rows_read import SIZES
from table import KIB, memory_reach, reach
from timing import spoken

# how many times as long as `check` of the same policy they may take
LIST_SHARES = {"list": 1.5, "list COMMAND": 1.3, "list --why COMMAND": 1.3}
LIST_BYTES = 32 * KIB * KIB
# how many times as long as `check` of the same policy `who` may take for 1,000 users, and of a hostile policy
WHO_SHARE = 8
HOSTILE_WHO_SHARE = 80
WHO_RUNS = 3
ORDINARY = "an ordinary policy"
ALLOWING = (ORDINARY, "rules for all")


def measure_listings(table, size):
    """The runs of `list` on the ordinary policy of a size, and of `check`, by turns: by what is asked."""
    lines = policies.policy(size)
    user = policies.member_of_a_team(lines)
    path = table.file(b"".join(lines))
    files = ("--passwd", table.file(people.passwd(user)), "--group-file", table.file(people.group(user)))
    rows = {"check": table.row("`check`, beside `list`", size, ("check", path))}
    for name, (before, command) in people.questions(lines).items():
        rows[name] = table.row(f"`{name}`", size, ("list", *files, *before, path, *command))
    return table.by_turns(rows)


def measure_who(table):
    """The runs of `who` for 1,000 users, and of `check`, by turns: by what the policy is."""
    files = ("--passwd", table.file(asking.passwd()), "--group-file", table.file(asking.GROUP))
    measured = {}
    for name, policy in {ORDINARY: asking.ordinary(), **asking.hostile()}.items():
        path = table.file(policy)
        words = ("who", "--no-same", "--policy", path, *files, "--host", "h", asking.COMMAND)
        status = 0 if name in ALLOWING else 1
        rows = {
            "who": table.row(f"`who`, {name}", len(policy), words, status=status),
            "check": table.row(f"`check`, {name}, beside `who`", len(policy), ("check", path)),
        }
        measured[name] = table.by_turns(rows, WHO_RUNS)
    return measured


def measure(table):
    """Measures all rows of questions."""
    return {size: measure_listings(table, size) for size in SIZES}, measure_who(table)


def reaches(measured):
    """Prints whether each reach of `list`, on the greatest policy, and of `who` is met, beside `check` of the same policy."""
    by_size, questioned = measured
    great = by_size[SIZES[-1]]
    for name, share in LIST_SHARES.items():
        what = f"`{name}` on {SIZES[-1]:,} bytes"
        reach_times(what, great[name], share, great["check"], "`check`")
        memory_reach(what, great[name], LIST_BYTES)
    for name, runs in questioned.items():
        share = WHO_SHARE if name == ORDINARY else HOSTILE_WHO_SHARE
        what = f"`who` for 1,000 users on {asking.SIZE:,} bytes, {name}, within {share} times the time of `check`"
        who, check = runs["who"].least, runs["check"].least
        reach(what, who <= share * check, f"{spoken(who, 0)}, {spoken(check, 0)}")
