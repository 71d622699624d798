"""The groups of tables that are no lists of cases: times are measured, or edits are drawn and undone."""

import resource

from policies import KINDS, bytes_of, drawn_outcome
from table_calls import first_and_rest, frame_of, name_of, named
from tables import asked, call, text_of
from tally import difference

PARTS = 16  # how many smaller policies are as much as the large one
TIMES = 4  # how many times as long as its parts a policy may take
ENOUGH = 0.2  # so many seconds can be compared


def is_run_alone(group):
    """Whether a group is no list of cases: its times are measured, or its edits are drawn."""
    return group.words == ("time",) or group.words[0] == "run" and group.words[-1].isdigit() and len(group.words) == 2


def seconds_of(program, text, count):
    """The seconds of processor that a program takes to read and to check a policy so many times."""
    before = resource.getrusage(resource.RUSAGE_CHILDREN)
    asked(program, [frame_of(b"p", text, [call(b"F")])] * count)
    after = resource.getrusage(resource.RUSAGE_CHILDREN)
    return after.ru_utime - before.ru_utime + after.ru_stime - before.ru_stime


def run_times(program, group, tally):
    """Notes the pieces of which very many take many times as long to check as few."""
    for at, row, after in group.pairs():
        whole, smaller = (text_of(f"⟨{count}×{row}⟩{after}") for count in (4096, 4096 // PARTS))
        often = 1
        while True:
            of_parts = seconds_of(program, smaller, PARTS * often)
            if of_parts > ENOUGH or often > 4096:
                break
            often *= 2
        of_whole = seconds_of(program, whole, often)
        slow = of_whole >= TIMES * of_parts
        problems = [f"{of_whole:.2f} s, its parts {of_parts:.2f} s"] if slow else []
        tally.note(f"{name_of(group, at, row)}: time", problems)


class Run:
    """A run of edits: what is done in turn, the answers, and what is wrong."""

    def __init__(self, program, policy, scripts):
        self.program = program
        self.policy = policy
        self.scripts = scripts
        self.number = 1
        self.problems = []
        names = sorted({word for word in (policy + b" ".join(scripts)).decode().split() if word.isupper()})
        queries = [call(byte, named(kind, name.encode())) for byte in (b"d", b"m") for kind in KINDS for name in names]
        # What is asked in each turn: the text, how many edits were made, and all that a policy is asked.
        self.asks = [call(b"t"), call(b"s")]
        self.queries = [call(b"a"), call(b"f"), *queries]

    def draw(self, limit):
        """The next number that is drawn, below a limit."""
        self.number = (self.number * 1664525 + 1013904223) % 2**32
        return (self.number >> 16) % limit

    def turns(self, count):
        """So many turns: a script, or None to undo an edit, one time in five."""
        return [None if self.draw(5) == 0 else self.scripts[self.draw(len(self.scripts))] for _ in range(count)]

    def check(self, what, wanted, came):
        """Adds what is wrong."""
        self.problems += difference(what, wanted, came)

    def answers(self, text, calls, sort=b"e"):
        """The answers to calls of an editor."""
        lines = asked(self.program, [frame_of(sort, text, calls)])
        self.check("answers", len(calls), len(lines))
        return lines

    def follow(self, turns, answers):
        """Follows the answers to turns; returns the texts, and the scripts that were made."""
        size = 1 + len(self.asks) + len(self.queries)
        text, before, texts, made = self.policy, [], [], []
        for i, script in enumerate(turns):
            outcome, found, steps, *queried = answers[size * i : size * (i + 1)]
            outcome, found = drawn_outcome(outcome), bytes_of(found)
            what = f"turn {i + 1}, {script or 'undo'}"
            if script is None:
                self.check(what, "yes" if before else "no", outcome)
                text = before.pop() if before else text
                self.check(f"{what}: text", text, found)
            elif outcome == "ok":
                before.append(text)
                made.append(script)
                text = found
            else:
                self.check(f"{what}: the text of a refused edit", text, found)
            self.check(f"{what}: steps", str(len(before)), steps)
            texts.append((what, text, queried))
        return texts, before, made

    def compare_anew(self, texts):
        """Each policy on the way is the one that its text is, read anew."""
        frames = [frame_of(b"e", text, self.queries) for _, text, _ in texts]
        lines = asked(self.program, frames)
        self.check("answers of texts", len(frames) * len(self.queries), len(lines))
        for i, (what, _, queried) in enumerate(texts):
            self.check(f"{what}: read anew", lines[len(self.queries) * i : len(self.queries) * (i + 1)], queried)

    def go(self, count):
        """Edits are made until there are so many; then the inverse leads back, and each is undone."""
        turns = self.turns(4 * count)
        edits = [call(b"-") if script is None else call(b"1", script) for script in turns]
        made, upto = 0, 0
        for script, line in zip(turns, self.answers(self.policy, edits)):
            upto += 1
            made += script is not None and line == "Ok(())"
            if made == count:
                break
        self.check("edits made", count, made)
        turns, edits = turns[:upto], edits[:upto]
        answers = self.answers(self.policy, [one for edit in edits for one in (edit, *self.asks, *self.queries)])
        texts, before, made = self.follow(turns, answers)
        self.compare_anew(texts)
        commands = {script.split()[0] for script in self.scripts}
        self.check("commands made", commands, {script.split()[0] for script in made})
        self.come_back(edits, texts[-1][1], before)

    def come_back(self, calls, text, before):
        """The inverse leads back to the policy, and each edit is undone."""
        undos = [call(b"-"), call(b"t")] * len(before)
        answers = self.answers(self.policy, [*calls, call(b"<"), *undos, call(b"s"), call(b"-")])
        inverse, *undone, steps, more = answers[len(calls) :]
        back = self.answers(text, [call(b"+", bytes_of(inverse)), call(b"t")])
        self.check("inverse", ["ok", self.policy], [drawn_outcome(back[0]), bytes_of(back[1])])
        for outcome, found, wanted in zip(undone[::2], undone[1::2], reversed(before)):
            self.check("undo", ("yes", wanted), (drawn_outcome(outcome), bytes_of(found)))
        self.check("the first text", self.policy, bytes_of(undone[-1]))
        self.check("steps and one undo more", ("0", "no"), (steps, drawn_outcome(more)))


def run_edits(program, group, tally):
    """Notes whether a run of edits is undone."""
    policy, scripts = first_and_rest(group)
    run = Run(program, policy, [text_of(row) for _, row in scripts])
    try:
        run.go(int(group.words[1]))
    except (LookupError, TypeError, ValueError) as error:
        run.problems.append(f"{type(error).__name__}: {error}")
    tally.note(name_of(group, scripts[0][0], "run"), run.problems[:8])
