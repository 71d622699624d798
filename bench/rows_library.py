"""What cutting, tokens, parsing and questions cost alone, by the program `cases`, and whether their reaches are met."""

from itertools import product

import policies
import questions
from rows_read import SIZES
from table import SECONDS, TIMES, reach
from timing import Command, spoken

CUTS = 200
CUT_MB_A_SECOND = 200
TOKEN_MB_A_SECOND = 100
HOSTILE_LINES = ((b"", b'"'), (b"", b"\\"), (b"", b"#1"), (b"", b"%:"), (b"", b"\r%"), (b"Defaults ", b"\\%"))
# how a line begins, what stands in it again and again, and how it ends
HOSTILE_READINGS = (
    (b"bob,", b"ann,", b"cho ALL=ALL"),
    (b"bob ", b"h,", b"h=ALL"),
    (b"bob ALL=", b"!", b"ALL"),
    (b"bob ALL=/bin/a ", b"\\,", b""),
    (b"bob ALL=/bin/a", b" x", b""),
    (b"bob h=/b", b":h=/b", b""),
    (b"bob h=", b"sha224:a,", b"sha224:a /b"),
    (b"bob h=", b"(a)/b,", b"/b"),
    (b"Defaults a", b",a", b""),
    (b"User_Alias A=a", b":A=a", b""),
    (b"bob ", b"\\\n", b"ALL=ALL"),
    (b'"', b"a", b'" ALL=ALL'),
)
HOSTILE_BYTES = 65_536
HOSTILE_READS = 400
READS = 50
ASKED_CHAINS = (1_024, 2_048, 4_096)
ASKED_MEMBERS = 16
QUESTION_MEMORY_SHARE = 10
STARS = 1_000
STARRED_BYTES = 65_536
STARS_MS = 200
DOUBLED_TIMES = 2
GROWTH_NOISE = 1.3
TOKEN_NOISE = 1.1
# what `cases` answers: nothing is said of bob; the first command of the first rule allows; a text with a last byte matches or not
NONE = b"none\n"
ALLOWED = b"allow 0.0.0\n"
STARRED = ((b"a", b"true\n"), (b"b", b"false\n"))


def asked(table, inputs):
    """The runs of `cases` on each of these inputs, by turns and by its name; each has its answer, or None where any will do."""
    commands = {}
    for name, (content, answer) in inputs.items():
        commands[name] = Command(f"cases, {name}", (table.cases,), table.file(content), output=answer)
    return table.spawner.by_turns(commands, TIMES, SECONDS)


def more_of_work(table, work, times, text, lines):
    """How much longer a work on a text of so many lines takes that is done so many times more than once, by the least times."""
    answer = None if work == questions.TOKENS else b"%d\n" % lines
    runs = asked(table, {f"work {work!r}, {often} times": (questions.work(work, often, text), answer) for often in (1, 1 + times)})
    one, many = (found.least for found in runs.values())
    return many - one


def speeds(table):
    """How many MB a second of ordinary lines are cut; are read into tokens, and parsed, cutting aside."""
    lines = policies.policy(SIZES[-1])
    text = b"".join(lines)
    cut, tokens = (more_of_work(table, work, CUTS, text, len(lines)) for work in (questions.CUT, questions.TOKENS))
    read = more_of_work(table, questions.PARSE, READS, text, len(lines))
    bytes_a_ms = len(text) / 1000
    return bytes_a_ms * CUTS / cut, bytes_a_ms * CUTS / (tokens - cut), bytes_a_ms * READS / read


def doubled_tokens(table):
    """For each hostile line, by how it begins and what stands in it again and again, the times of half of it and of it."""
    answers = {}
    for begin, piece in HOSTILE_LINES:
        times = []
        for size in (HOSTILE_BYTES // 2, HOSTILE_BYTES):
            # An even number of bytes of the pieces, so that no backslash stands before the LF: the line would be open.
            text = begin + (piece * size)[: (size - 1 - len(begin)) // 2 * 2] + b"\n"
            times.append(more_of_work(table, questions.TOKENS, HOSTILE_READS, text, 1) / HOSTILE_READS)
        answers[repr((begin + piece).decode())] = times
    return answers


def doubled_readings(table):
    """For each hostile line, the times of reading half of it and all of it, cutting aside."""
    answers = {}
    for begin, piece, end in HOSTILE_READINGS:
        times = []
        for size in (HOSTILE_BYTES // 2, HOSTILE_BYTES):
            count = (size - len(begin) - len(end) - 1) // len(piece)
            text = begin + piece * count + end + b"\n"
            times.append(more_of_work(table, questions.PARSE, READS, text, 1) / READS)
        answers[(begin + piece + end).decode()] = times
    return answers


def measure_questions(table):
    """The runs that read and that ask: of the greatest policy, of chains of aliases, and of a pattern of many stars."""
    text = b"".join(policies.policy(SIZES[-1]))
    inputs = {"empty": (questions.question(questions.ANSWER, b""), NONE)}
    for members, count in product((1, ASKED_MEMBERS), ASKED_CHAINS):
        inputs[members, count] = (questions.question(questions.ANSWER, questions.chain(count, members)), ALLOWED)
    runs = asked(table, inputs)
    empty = runs["empty"].least
    chains = {members: [runs[members, count].least - empty for count in ASKED_CHAINS] for members in (1, ASKED_MEMBERS)}
    stars = asked(table, {last: (questions.pattern(STARS, STARRED_BYTES, last), answer) for last, answer in STARRED})
    answers = ((questions.READ, b"read\n"), (questions.ANSWER, NONE), (questions.GROUPS, NONE))
    great = asked(table, {work: (questions.question(work, text), answer) for work, answer in answers})
    return great, chains, stars.values()


def measure(table):
    """Measures all that the program `cases` is asked, or returns None where it is not given."""
    if table.cases is None:
        return None
    return speeds(table), doubled_tokens(table), doubled_readings(table), measure_questions(table)


def question_reaches(great, chains, stars):
    """Prints whether each reach of a question is met."""
    read = great[questions.READ]
    for work, name in ((questions.ANSWER, "`answer`"), (questions.GROUPS, "`host_groups`")):
        more = great[work].median - read.median
        what = f"{name} on {SIZES[-1]:,} bytes takes at most as long as reading them"
        reach(what, more <= read.median, f"{spoken(more)}, {spoken(read.median)}")
        more = great[work].memory - read.memory
        what = f"{name} on {SIZES[-1]:,} bytes takes at most 1/{QUESTION_MEMORY_SHARE} of the memory of reading them"
        reach(what, more * QUESTION_MEMORY_SHARE <= read.memory, f"{more:,} KiB, {read.memory:,} KiB")
    for members, times in chains.items():
        met = all(after <= 2 * before * GROWTH_NOISE for before, after in zip(times, times[1:]))
        measured = ", ".join(f"{count:,}: {spoken(time)}" for count, time in zip(ASKED_CHAINS, times))
        reach(f"reading a chain of aliases of {members} members and `answer` grow at most in proportion with it", met, measured)
    for what, runs in zip(("that match", "that do not match"), stars):
        what = f"a pattern of {STARS:,} `*a` against {STARRED_BYTES:,} bytes {what} below {STARS_MS} ms"
        reach(what, runs.median < STARS_MS, spoken(runs.median))


def doubled_reach(what, times, noise, end=""):
    """Prints whether a line takes at most twice the time of half of it."""
    half, whole = times
    what = f"{what}, within {DOUBLED_TIMES} times half of it"
    reach(what, whole <= DOUBLED_TIMES * half * noise, f"{whole * 1000:.0f} µs, {half * 1000:.0f} µs{end}")


def reaches(measured):
    """Prints whether each reach of what is done alone is met."""
    if measured is None:
        return
    (cut, tokens, read), token_times, read_times, answers = measured
    what = f"cutting {SIZES[-1]:,} bytes into lines at {CUT_MB_A_SECOND} MB a second or more"
    reach(what, cut >= CUT_MB_A_SECOND, f"{cut:.0f} MB a second")
    what = f"tokens of the lines of {SIZES[-1]:,} bytes at {TOKEN_MB_A_SECOND} MB a second or more, cutting aside"
    reach(what, tokens >= TOKEN_MB_A_SECOND, f"{tokens:.0f} MB a second")
    for piece, times in token_times.items():
        what = f"tokens of a line of {HOSTILE_BYTES:,} bytes, {piece} and so on"
        doubled_reach(what, times, TOKEN_NOISE, ", cutting included")
    print(f"- reading the lines of {SIZES[-1]:,} bytes, cutting aside: {read:.0f} MB a second")
    for line, times in read_times.items():
        doubled_reach(f"reading a line of {HOSTILE_BYTES:,} bytes, {line!r} with its middle again and again", times, GROWTH_NOISE)
    question_reaches(*answers)
