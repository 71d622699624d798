"""Refused growths and failing devices, on the built program.

Each growth, each read and each byte of the output is refused or failed in turn,
the number counted up until nothing was met any more; the run in which nothing
was met has to answer as the program does with ample memory and honest devices.
"""

import cases
import real_devices
from chosen import (
    GROUP,
    PASSWD,
    Chosen,
    command_of,
    inputs_at_the_limit,
    many_definitions_case,
    many_files_cases,
    many_lines_case,
    many_listed_lines_case,
    many_moves_case,
    many_notes_case,
    many_people_case,
    many_printed_lines_case,
    many_rewritten_lines_case,
    read_fault,
)
from preload import with_library
from program import Wanted, fault

READ_CALLS = 4_194_304
NAMES = {PASSWD: "passwd", GROUP: "group"}
PIECES = (1, 2, 3, 7)


class Stand:
    """The program, the library that is preloaded into it and the count of cases."""

    def __init__(self, program, library, tally):
        self.program = program
        self.library = library
        self.tally = tally

    def run(self, case, **settings):
        """One run of a case under these settings: the answer and the counts."""
        return self.library.run(self.program, case, input=case.device, **settings)

    def run_each(self, case, setting, **settings):
        """Runs of a case for each value of a setting from 1 up, until one meets nothing."""
        return self.library.run_each(self.program, case, setting, input=case.device, **settings)

    def note(self, case, what, problems):
        """Counts one run, named after its case, the file that fails if it is not standard input, and what was done."""
        name = f"{case.name}, file {case.device}" if case.device else case.name
        self.tally.note(f"{name}, {what}", problems)

    def until_none_is_met(self, case, what, setting, wanted_of, **settings):
        """Counts `setting` up from 1 until a run meets nothing.

        If a run met something, it has to answer what `wanted_of` makes of its
        counts. The last run has to answer as the case says.
        """
        for number, (answer, report) in enumerate(self.run_each(case, setting, **settings), 1):
            wanted = wanted_of(report) if report.met else case.wanted
            self.note(case, f"{what} {number}", wanted.problems(answer))


# ---- memory --------------------------------------------------------------------

NO_MEMORY = (fault("NoMemory").stderr, b"")


def memory_problems(answer, ample, report):
    """What a run may answer whose growths were refused.

    It answers as ever. Or it reports NoMemory, or nothing if that text found no
    memory either, and has written nothing. Or its device failed as ever, and the
    text of that error found no memory.
    """
    reported = answer.status == 1 and answer.stdout == b"" and answer.stderr in NO_MEMORY
    silent = answer.status == 1 == ample.status and answer.stdout == ample.stdout and answer.stderr == b""
    if answer == ample or report.refused and (reported or silent):
        return []
    return ["wanted NoMemory or nothing with status 1, or the answer of ample memory", f"came {answer}"]


def refuse_growths(stand, case, wanted, **settings):
    """Refuses growth 1, 2, 3 and so on, alone and with all after it, until none is met.

    `wanted` is what the run has to answer under these settings with ample memory.
    """
    ample, _ = stand.run(case, **settings)
    how = "".join(f"{name} {value}, " for name, value in settings.items())
    stand.note(case, f"{how}ample memory", wanted.problems(ample))
    for refusal in ("refuse_growth", "refuse_from"):
        for number, (answer, report) in enumerate(stand.run_each(case, refusal, **settings), 1):
            stand.note(case, f"{how}{refusal} {number}", memory_problems(answer, ample, report))


def refuse_growths_and_more(stand, case, given):
    """Every growth of runs whose devices fail too."""
    refuse_growths(stand, case, case.wanted, interrupt_read=1)
    refuse_growths(stand, case, read_fault(case), fail_read=2)
    refuse_growths(stand, case, given.too_large, endless=1)
    for room in (0, 5):
        failed = Wanted(case.wanted.stdout[:room], fault("Write").stderr, 1)
        refuse_growths(stand, case, failed if case.wanted.stdout else case.wanted, write_room=room)


def check_memory(stand, all_cases):
    """Every growth of every case."""
    for case in all_cases:
        refuse_growths(stand, case, case.wanted)


def check_memory_and_devices(stand, given):
    """Every growth of runs whose devices fail too."""
    for case, input_given in given:
        refuse_growths_and_more(stand, case, input_given)


# ---- the input ---------------------------------------------------------------------


def fail_reads(stand, case, piece):
    """Each read, of at most so many bytes, fails in turn; each read is interrupted in turn."""
    how = f"reads of {piece or 'any'} bytes, "
    stand.until_none_is_met(case, how + "failed read", "fail_read", lambda _: read_fault(case), short_read=piece)
    stand.until_none_is_met(case, how + "interrupted read", "interrupt_read", lambda _: case.wanted, short_read=piece)


def interrupt_for_ever(stand, case):
    """An input that never comes is given up after the reads that are allowed."""
    answer, report = stand.run(case, interrupt_reads=2 * READ_CALLS)
    problems = fault("NoEnd").problems(answer)
    if report.reads != READ_CALLS:
        problems.append(f"reads: wanted {READ_CALLS}, came {report.reads}")
    stand.note(case, "interrupted for ever", problems)


def interrupt_up_to_the_last_read(stand, case):
    """The last allowed read may still give the end; one read more is too many."""
    _, honest = stand.run(case)
    spare = READ_CALLS - honest.reads
    for interrupted, wanted in ((spare, case.wanted), (spare + 1, fault("NoEnd"))):
        answer, _ = stand.run(case, interrupt_reads=interrupted)
        stand.note(case, f"{interrupted} interrupted reads", wanted.problems(answer))


def last_allowed_read(stand, case, given):
    """What the last allowed read gives still counts; what one more would give does not."""
    last = {"interrupt_reads": READ_CALLS - 1, "fail_read": READ_CALLS}
    past = {"interrupt_reads": READ_CALLS, "fail_read": READ_CALLS + 1}
    spare = READ_CALLS - given.limit - 1
    for what, settings, wanted in (
        ("last read fails", last, read_fault(case)),
        ("the read after the last would fail", past, fault("NoEnd")),
        ("last read passes the limit", {"interrupt_reads": spare, "endless": 1, "short_read": 1}, given.too_large),
        ("last read meets the limit", {"interrupt_reads": spare + 1, "endless": 1, "short_read": 1}, fault("NoEnd")),
    ):
        answer, _ = stand.run(case, **settings)
        stand.note(case, what, wanted.problems(answer))


def endless_problems(answer, report, given):
    """An endless input is given up as soon as it has one byte more than may be read."""
    problems = given.too_large.problems(answer)
    before = report.read_bytes - report.last_read
    if not before <= given.limit < report.read_bytes:
        problems.append(f"reading stopped at byte {report.read_bytes}, the last read from {before} on")
    return problems


def endless_input(stand, given):
    """An input without end, in big reads and byte by byte."""
    name = "_".join(("endless_input_of", *given.words, str(given.limit)))
    case = cases.Case(name, given.words, b"", given.too_large, files=given.files, device=given.device)
    for piece in (0, 1, 7):
        answer, report = stand.run(case, endless=1, short_read=piece)
        stand.note(case, f"reads of {piece or 'any'} bytes", endless_problems(answer, report, given))


def read_byte_by_byte(stand, case):
    """The whole input is read though each read gives one byte alone."""
    answer, report = stand.run(case, short_read=1)
    problems = case.wanted.problems(answer)
    size = len(dict(case.files)[NAMES[case.device]]) if case.device else len(case.stdin)
    if report.read_bytes != size:
        problems.append(f"bytes read: wanted {size}, came {report.read_bytes}")
    stand.note(case, "reads of 1 byte", problems)


def check_reads(stand, read, some, given):
    """All that can go wrong with an input: the most with some of the cases."""
    for case in read:
        for piece in (0, 7):
            fail_reads(stand, case, piece)
    for case in some:
        interrupt_for_ever(stand, case)
        interrupt_up_to_the_last_read(stand, case)
    for case, input_given in given:
        fail_reads(stand, case, 1)
        last_allowed_read(stand, case, input_given)
        endless_input(stand, input_given)
    for case in inputs_at_the_limit():
        read_byte_by_byte(stand, case)
    for case in many_files_cases():
        for piece in (0, 7):
            fail_reads(stand, case, piece)


# ---- standard output -------------------------------------------------------------


def write_fault_after(case, report):
    """What is wanted after a write fault: just the bytes taken before it."""
    return Wanted(case.wanted.stdout[: report.write_bytes], fault("Write").stderr, 1)


def fail_writes(stand, case, piece):
    """The writer takes n bytes and then fails, for every n up to all of them."""
    output = case.wanted.stdout
    for room in range(len(output) + 1):
        answer, report = stand.run(case, write_room=room, short_write=piece)
        wanted = Wanted(output[:room], fault("Write").stderr, 1) if room < len(output) else case.wanted
        problems = wanted.problems(answer)
        if (report.write_faults > 0) != (room < len(output)):
            problems.append(f"write faults: came {report.write_faults}")
        stand.note(case, f"writes of {piece or 'any'} bytes, room for {room}", problems)


def check_writes(stand, written):
    """All that can go wrong with standard output."""
    for case in [case for case in written if case.wanted.stdout]:
        for piece in (0, 1, 3):
            fail_writes(stand, case, piece)
            how = f"writes of {piece or 'any'} bytes, "
            for setting in ("interrupt_write", "empty_write"):
                stand.until_none_is_met(
                    case, how + setting, setting, lambda report: write_fault_after(case, report), short_write=piece
                )


# ---- few bytes at a time -----------------------------------------------------------


def check_pieces(stand, all_cases):
    """Reads and writes of few bytes answer as whole ones do, in every case."""
    for case in all_cases:
        for piece in PIECES:
            answer, _ = stand.run(case, short_read=piece, short_write=piece)
            stand.note(case, f"reads and writes of {piece} bytes", case.wanted.problems(answer))


# ---- all -----------------------------------------------------------------------------


def check_library(stand, case):
    """The library is met at all: without it the runs above would show nothing."""
    answer, report = stand.run(case)
    problems = case.wanted.problems(answer)
    for name in ("loaded", "growths", "reads", "writes"):
        if getattr(report, name) == 0:
            problems.append(f"{name}: none was counted")
    if report.write_bytes != len(case.wanted.stdout):
        problems.append(f"bytes written: came {report.write_bytes}")
    stand.note(case, "with the library and nothing refused", problems)


def run_under_library(program, tally, check):
    """Builds the library and runs one of the checks above under it."""
    chosen = Chosen.load()
    with_library(tally, lambda library: check(Stand(program, library, tally), chosen))


def run_pieces(program, tally):
    """Runs the program with devices of the system that fail, and with devices that move few bytes at a time."""
    chosen = Chosen.load()
    for case, input_given in chosen.given:
        if case.device:
            continue
        if case.wanted.stdout:
            real_devices.run_writes(program, tally, case)
        real_devices.run_reads(program, tally, case, input_given.too_large)
        real_devices.run_closed(program, tally, case)
    real_devices.run_full_errors(program, tally)

    def check(stand, chosen):
        check_library(stand, chosen.given[0][0])
        check_pieces(stand, chosen.every)

    run_under_library(program, tally, check)


def run_reads(program, tally):
    """Runs the program with readers that fail, are interrupted or never end."""

    def check(stand, chosen):
        check_reads(stand, (*chosen.read, *chosen.people), chosen.some, chosen.given)

    run_under_library(program, tally, check)


def run_writes(program, tally):
    """Runs the program with writers that fail, are interrupted or take nothing."""
    run_under_library(program, tally, lambda stand, chosen: check_writes(stand, chosen.read))


def run_memory_of(program, tally, is_asked):
    """Runs the commands that `is_asked` names with growths of memory refused."""

    def check(stand, chosen):
        check_memory(stand, [case for case in (*chosen.read, *chosen.words) if is_asked(command_of(case))])

    run_under_library(program, tally, check)


def run_memory_of_edits(program, tally):
    """Runs `edit` with growths of memory refused."""
    run_memory_of(program, tally, lambda command: command == "edit")


def run_memory_of_lists(program, tally):
    """Runs `list` with growths of memory refused."""
    run_memory_of(program, tally, lambda command: command == "list")


def run_memory_of_files(program, tally):
    """Runs the other commands with growths of memory refused."""
    run_memory_of(program, tally, lambda command: command not in ("edit", "list"))


def run_memory_of_many(program, tally):
    """Runs the program on many lines, definitions, notes and files with growths of memory refused."""
    many = (many_lines_case(), many_moves_case(), many_definitions_case(), many_notes_case(), many_printed_lines_case())
    many += (many_rewritten_lines_case(), many_listed_lines_case(), many_people_case())
    many += many_files_cases()
    run_under_library(program, tally, lambda stand, _: check_memory(stand, many))


def run_memory_and_devices(program, tally):
    """Runs the program with growths of memory refused and devices that fail."""
    run_under_library(program, tally, lambda stand, chosen: check_memory_and_devices(stand, chosen.given))
