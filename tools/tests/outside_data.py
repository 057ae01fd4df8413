"""Compiles the files of cases to the data that crates/outside_cases reads, whose README has the form. Run as a
program, it writes them anew, with the `stdin` and `stdout` of that crate."""
import functools
import os
import re
import struct
import sys
from collections.abc import Iterable, Iterator
from dataclasses import dataclass, field

import case_files
import case_images
import case_programs
import command_cases
import gdb_cases
import trace_cases
from case_files import Content, Literal, Refusal, Repeated, Saved, Script, Suite

TOP = os.path.dirname(os.path.dirname(os.path.dirname(os.path.realpath(__file__))))
CASES = os.path.join(TOP, "tools", "tests", "cases")
CRATE = os.path.join(TOP, "crates", "outside_cases")
# The files of cases by the program that is asked, in the order of the numbers of these programs.
FOLDERS = ("command", "gdb", "trace")
COMMAND, DEBUGGER, LOG = range(3)

# The kinds of steps of a case, and of counts, by their numbers.
BEGIN, APPEND, REPEAT, NOISE, SAVED, COMPLETE, ASK = range(7)
COUNTS = ("reads", "trace", "entries", "taken", "moves", "came", "out bytes", "out sum")
# These are those of the last run of an ask.
OF_LAST_RUN = ("entries", "taken", "moves")

# What a save is to write, as an answer tells it.
SAVED_OUT = re.compile(r"out (\d+) bytes, sum 0x([0-9a-f]+)")

# In a string of this many bytes or more, what is repeated stands once.
LONG = 1024
REPEATED = re.compile(rb"(.{1,80}?)\1{15,}", re.DOTALL)

# Noise of this many bytes or more, from one of these seeds, is told by its seed.
NOISE_LENGTH = 4096
NOISE_SEEDS = 256

# How a talk or a log that is cut ends, as its status and what is on the stream of errors.
End = tuple[int, bytes]
DONE = 0, b""
READ_FAULT = 3, b"nesthv: read fault 0\n"
WRITE_FAULT = 4, b"nesthv: write fault\n"

# A count with its bounds.
Count = tuple[str, int, int | None]


# Numbers and strings


def number(value: int) -> bytes:
    """A number: how many bytes it has, and these in little endian."""
    length = (value.bit_length() + 7) // 8
    return bytes((length,)) + value.to_bytes(length, "little")


def bound(value: int | None) -> bytes:
    """One more than a bound, or 0 where there is none."""
    return number(0 if value is None else (value + 1) % (1 << 64))


def listed(items: Iterable[bytes]) -> bytes:
    """How many there are, and they."""
    made = list(items)
    return number(len(made)) + b"".join(made)


def sum_of(data: bytes) -> int:
    """The FNV-1a sum of 64 bits."""
    total = 0xCBF2_9CE4_8422_2325
    for byte in data:
        total = (total ^ byte) * 0x100_0000_01B3 & 0xFFFF_FFFF_FFFF_FFFF
    return total


def string_bytes(data: bytes) -> bytes:
    """A string in pieces, each with how many times it comes."""
    return listed(number(len(piece)) + piece + number(times) for piece, times in pieces(data))


def pieces(data: bytes) -> Iterator[tuple[bytes, int]]:
    """The pieces of a string. A long one has those that it repeats once."""
    place = 0
    for found in REPEATED.finditer(data) if len(data) >= LONG else ():
        if found.start() > place:
            yield data[place:found.start()], 1
        yield found.group(1), len(found.group()) // len(found.group(1))
        place = found.end()
    if place < len(data):
        yield data[place:], 1


@dataclass
class Table:
    """The strings of a file, each once."""
    strings: dict[bytes, int] = field(default_factory=dict)

    def string(self, data: bytes | str) -> bytes:
        """The number of a string."""
        data = data.encode() if isinstance(data, str) else data
        return number(self.strings.setdefault(data, len(self.strings)))

    def file(self, cases: list[bytes]) -> bytes:
        """A file of these cases: the sum of what follows, the strings, and the cases."""
        body = listed(map(string_bytes, self.strings)) + listed(cases)
        return struct.pack("<Q", sum_of(body)) + body


# Steps of a case


@dataclass(frozen=True)
class Wanted:
    """How a run must end, and what it must leave: a front of the bytes, with a length in these bounds, or where there
    are none, the same as in the first run. Each count has its bounds."""
    end: End
    out: bytes | None
    least: int = 0
    most: int = 0
    asked: str = ""
    counts: tuple[Count, ...] = ()


def exactly(end: End, out: bytes, asked: str = "", counts: Iterable[Count] = ()) -> Wanted:
    return Wanted(end, out, len(out), len(out), asked, tuple(counts))


@dataclass(frozen=True)
class Course:
    """How the streams of a run go: how many bytes come on a connection, whether each comes alone, whether the read
    behind them fails, and how many bytes are taken of what is put or sent."""
    coming: int | None = None
    is_bytewise: bool = False
    fails: bool = False
    room: int | None = None


WHOLE = Course()


@dataclass(frozen=True)
class Run:
    configuration: bytes
    course: Course
    wanted: Wanted


@dataclass(frozen=True)
class Talk:
    """What comes on a connection, the places up to which its pieces go, and how much is answered at least and at most
    once that many bytes have come."""
    coming: bytes = b""
    stops: tuple[int, ...] = ()
    stages: tuple[tuple[int, int, int], ...] = ()
    description: bytes = b""


@dataclass(frozen=True)
class Ask:
    program: int
    words: tuple[str, ...]
    script: Script
    runs: tuple[Run, ...]
    talk: Talk = Talk()
    is_kept: bool = False


@dataclass
class Steps:
    """The steps of a case, and what they have said so far: the files, and the place of each save among those kept."""
    table: Table
    steps: list[bytes] = field(default_factory=list)
    files: dict[str, Content] = field(default_factory=dict)
    saves: dict[int, int] = field(default_factory=dict)
    asks: int = 0
    runs: int = 0

    def add(self, kind: int, *parts: bytes) -> None:
        self.steps.append(number(kind) + b"".join(parts))

    def write(self, files: dict[str, Content]) -> None:
        """Writes the files that are not there with this content."""
        for name, content in files.items():
            if name != "k" and self.files.get(name) != content:
                self.files[name] = content
                self.add(BEGIN, self.table.string(name))
                for piece in content:
                    self.add_piece(piece)

    def add_piece(self, piece: case_files.Piece) -> None:
        match piece:
            case Repeated(byte, times):
                self.add(REPEAT, number(byte), number(times))
            case Saved(save, start, end):
                self.add(SAVED, number(self.saves[save]), number(start), bound(end))
            case Literal(data):
                seed = seed_of(data)
                if seed is None:
                    self.add(APPEND, self.table.string(data))
                else:
                    self.add(NOISE, number(seed), number(len(data)))

    def ask(self, ask: Ask, save: int | None = None) -> None:
        """Asks, and keeps what is written as the save of this index, if it has one."""
        if save is not None:
            self.saves[save] = len(self.saves)
        self.asks += 1
        self.runs += len(ask.runs)
        self.add(ASK, ask_bytes(self.table, ask))

    def case(self, name: str) -> bytes:
        return self.table.string(name) + listed(self.steps)


@functools.cache
def seeds() -> dict[bytes, int]:
    """The seeds that are looked for, by the first bytes of their noise."""
    return {case_images.noise(seed, 8): seed for seed in range(NOISE_SEEDS)}


@functools.cache
def seed_of(data: bytes) -> int | None:
    """The seed that long noise is drawn from, if it is that."""
    seed = seeds().get(data[:8]) if len(data) >= NOISE_LENGTH else None
    return seed if seed is not None and case_images.noise(seed, len(data)) == data else None


def stream_bytes(faults: case_files.StreamFaults) -> bytes:
    return number(faults.put) + number(faults.takes) + number(faults.is_full)


def store_bytes(table: Table, faults: case_files.Faults) -> bytes:
    return (number(faults.failing) + number(faults.wanting) + number(faults.giving) + table.string(faults.given)
            + number(faults.is_full))


def talk_bytes(table: Table, talk: Talk) -> bytes:
    stages = (b"".join(map(number, stage)) for stage in talk.stages)
    return table.string(talk.coming) + listed(map(number, talk.stops)) + listed(stages)


def ask_bytes(table: Table, ask: Ask) -> bytes:
    script = ask.script
    tail = tail_of([run.configuration for run in ask.runs])
    return b"".join((
        number(ask.program), number(not script.wants_words), listed(map(table.string, ask.words)),
        store_bytes(table, script.store), stream_bytes(script.out), stream_bytes(script.err),
        table.string(ask.talk.description), talk_bytes(table, ask.talk), table.string(tail), number(ask.is_kept),
        listed(run_bytes(table, run, len(tail)) for run in ask.runs)))


def tail_of(configurations: list[bytes]) -> bytes:
    """What these configurations end with, from their first guest on."""
    first = configurations[0]
    tail = first[first.find(b"[[guest]]"):] if b"[[guest]]" in first else b""
    return tail if all(each.endswith(tail) for each in configurations) else b""


def run_bytes(table: Table, run: Run, tail: int) -> bytes:
    course, wanted = run.course, run.wanted
    status, err = wanted.end
    head = run.configuration[:len(run.configuration) - tail]
    counts = (number(COUNTS.index(what)) + number(least) + bound(most) for what, least, most in wanted.counts)
    return b"".join((
        table.string(head), bound(course.coming), number(course.is_bytewise), number(course.fails),
        bound(course.room), number(status), table.string(err),
        number(wanted.out is not None), table.string(wanted.out or b""), number(wanted.least), number(wanted.most),
        table.string(wanted.asked), listed(counts)))


# Cases of the command


def stream(answer: command_cases.Answer, name: str) -> bytes:
    """The bytes of a stream of an answer: each line behind the name, one without an end behind the name and dots."""
    data = b""
    for text in answer.streams:
        word, _, rest = text.partition(" ")
        if word.rstrip(".") == name:
            data += case_files.unescaped(answer.at, rest) + (b"" if word.endswith("..") else b"\n")
    return data


def count_in(text: str, is_last: bool) -> Iterator[Count]:
    """The bounds of what a line of an answer tells: `WHAT N`, some of it of the last run alone, or `WHAT N or more`."""
    what, _, rest = text.partition(" ")
    told, _, more = rest.partition(" ")
    value = int(told, 0)
    if more:
        yield what, value, None
    elif is_last or what not in OF_LAST_RUN:
        yield what, value, value


def wanted_of(answer: command_cases.Answer, is_last: bool) -> Wanted:
    """What a run must leave so that the ask has this answer."""
    end = answer.status, stream(answer, "err")
    asks = [text for text in answer.inside if text.startswith("asked ")]
    counts = [count for text in answer.inside if text not in asks for count in count_in(text, is_last)]
    asked = "".join(f"{text}\n" for text in asks)
    for text in answer.streams:
        saved = SAVED_OUT.fullmatch(text)
        if saved:
            length, total = int(saved.group(1)), int(saved.group(2), 16)
            counts += [("out bytes", length, length), ("out sum", total, total)]
            return Wanted(end, None, 0, 0, asked, tuple(counts))
    return exactly(end, stream(answer, "out"), asked, counts)


def command_ask(ask: command_cases.Ask) -> Ask:
    last = len(ask.runs) - 1
    runs = (Run(case_files.bytes_of(run.configuration, {}), WHOLE, wanted_of(ask.wanted, index == last))
            for index, run in enumerate(ask.runs))
    return Ask(COMMAND, ask.words, ask.script, tuple(runs), Talk(), ask.wanted.saved() > 0)


def command_case(steps: Steps, case: command_cases.Case) -> None:
    for index, ask in enumerate(case.asks):
        steps.write(ask.files)
        made = command_ask(ask)
        steps.ask(made, index if made.is_kept else None)


def row_case(steps: Steps, row: command_cases.Row) -> None:
    """A row of a table: what the commands that read a configuration say of it, where all other files are empty."""
    steps.add(COMPLETE)
    configurations = [row.configuration] if row.changed is None else [row.configuration, row.changed]
    if row.wanted == "accepted":
        wanted = Wanted(DONE, None)
    else:
        line = b"nesthv: " + case_files.unescaped(row.at, row.wanted) + b"\n"
        wanted = exactly((2, line), b"", "", [("reads", 1, 1)])
    runs = tuple(Run(configuration, WHOLE, wanted) for configuration in configurations)
    steps.ask(Ask(COMMAND, ("nesthv", "check", "k"), Script(), runs))
    if row.wanted != "accepted":
        for words in (("nesthv", "run", "k"), ("nesthv", "replay", "k", "r")):
            steps.ask(Ask(COMMAND, words, Script(), runs[:1]))


# Cases of the debugger


def talk_of(case: gdb_cases.Case) -> Talk:
    """The talk of a case. Before the first byte of a row all that stands before it is answered. In the middle of a
    packet no more is, and in the middle of any other row a front of its answer may be."""
    came = answered = 0
    stops, stages = [], [(0, 0, 0)]
    for row in case.rows:
        if not row.is_packet and len(row.coming) > 1:
            stages.append((came + 1, answered, answered + len(row.answer)))
        came, answered = came + len(row.coming), answered + len(row.answer)
        stops.append(came)
        stages.append((came, answered, answered))
    return Talk(b"".join(row.coming for row in case.rows), tuple(stops), tuple(stages), case.description)


def answered_by(talk: Talk, came: int) -> tuple[int, int]:
    """How many bytes are answered at least and at most, once that many have come and no more."""
    least, most = 0, 0
    for stage, *bounds in talk.stages:
        if stage <= came:
            least, most = bounds
    return least, most


def middles(lengths: Iterable[int]) -> Iterator[int]:
    """The middle of each of some pieces that follow one another."""
    place = 0
    for length in lengths:
        yield place + length // 2
        place += length


def cuts(case: gdb_cases.Case, talk: Talk, answers: bytes) -> Iterator[tuple[Course, Wanted]]:
    """A talk that is cut in all ways: a read fails in the middle of each row, no more is taken in the middle of each
    answer, and the stream ends behind each byte."""
    leaves = None if case.leaves is None else sum(len(row.coming) for row in case.rows[:case.leaves])
    for place in middles(len(row.coming) for row in case.rows):
        end = DONE if leaves is not None and leaves <= place else READ_FAULT
        yield Course(place, fails=True), Wanted(end, answers, *answered_by(talk, place))
    for place in middles(len(row.answer) for row in case.rows):
        end = WRITE_FAULT if place < len(answers) else DONE
        yield Course(room=place), Wanted(end, answers, place, place)
    for place in range(len(talk.coming)):
        yield Course(place), Wanted(DONE, answers, *answered_by(talk, place))


def talks(case: gdb_cases.Case, talk: Talk) -> Iterator[tuple[Course, Wanted]]:
    """The talk in whole rows, and where it ends with status 0, byte by byte and cut."""
    answers = b"".join(row.answer for row in case.rows)
    end = case.end.status, case.end.err
    came = [] if case.leaves is None else [sum(len(row.coming) for row in case.rows[:case.leaves])]
    yield WHOLE, exactly(end, answers, "", [("came", count, count) for count in came])
    if end == DONE:
        yield Course(is_bytewise=True), exactly(end, answers)
        if case.is_cut:
            yield from cuts(case, talk, answers)


def gdb_case(steps: Steps, case: gdb_cases.Case) -> None:
    steps.write(case.files)
    talk = talk_of(case)
    configuration = case_files.bytes_of(case.files["k"], {})
    runs = tuple(Run(configuration, course, wanted) for course, wanted in talks(case, talk))
    steps.ask(Ask(DEBUGGER, case.words, case.script, runs, talk))


# Cases of the log


def logs(case: trace_cases.Case) -> Iterator[tuple[Course, Wanted]]:
    """The whole log, and where it is cut, one on a stream that closes behind each of its bytes."""
    end = case.end.status, case.end.err
    yield WHOLE, exactly(end, case.log)
    if case.is_cut and end == DONE:
        for room in range(len(case.log)):
            yield Course(room=room), Wanted(WRITE_FAULT, case.log, room, room)


def trace_case(steps: Steps, case: trace_cases.Case) -> None:
    for index, files in enumerate(case.saves):
        steps.write(files)
        run = Run(case_files.bytes_of(files["k"], {}), WHOLE, Wanted(DONE, None))
        steps.ask(Ask(COMMAND, ("nesthv", "save", "k", "0"), Script(), (run,), Talk(), True), index)
    steps.write(case.files)
    configuration = case_files.bytes_of(case.files["k"], {})
    runs = tuple(Run(configuration, course, wanted) for course, wanted in logs(case))
    steps.ask(Ask(LOG, case.words, case.script, runs))


# Files


@dataclass
class Compiled:
    """A file of data, and what it has."""
    data: bytes
    cases: int
    asks: int
    runs: int


def steps_of(folder: str, suite: Suite, table: Table) -> Iterator[tuple[str, Steps]]:
    """The cases of a file, with their names."""
    assemble = case_programs.assembler_of(case_programs.stored(suite.path))
    match folder:
        case "command":
            for block in command_cases.cases(suite, assemble):
                if isinstance(block, command_cases.Table):
                    for row in block.rows:
                        row_case(steps := Steps(table), row)
                        yield f"{block.name}: {row.text}", steps
                else:
                    command_case(steps := Steps(table), block)
                    yield block.name, steps
        case "gdb":
            for talk in gdb_cases.cases(suite, assemble):
                gdb_case(steps := Steps(table), talk)
                yield talk.name, steps
        case _:
            for log in trace_cases.cases(suite, assemble):
                trace_case(steps := Steps(table), log)
                yield log.name, steps


def compiled(folder: str, path: str) -> Compiled:
    """The data of a file of cases."""
    suite = case_files.read(path, command_cases.KINDS if folder == "command" else ("case",))
    table = Table()
    made = list(steps_of(folder, suite, table))
    cases = [steps.case(name) for name, steps in made]
    return Compiled(table.file(cases), len(cases), sum(steps.asks for _, steps in made),
                    sum(steps.runs for _, steps in made))


def all_compiled() -> Iterator[tuple[str, Compiled]]:
    """The data of all files of cases, each with its path in the folder `data` of the crate."""
    for folder in FOLDERS:
        for name in sorted(os.listdir(os.path.join(CASES, folder))):
            stem, extension = os.path.splitext(name)
            if extension == ".cases":
                yield f"{folder}/{stem}.data", compiled(folder, os.path.join(CASES, folder, name))


def files() -> dict[str, bytes]:
    """All files that are made, by their paths in the crate."""
    made = dict(all_compiled())
    lines = (f"{path}: {each.cases} cases, {each.asks} asks, {each.runs} runs, 0 differ\n"
             for path, each in made.items())
    return {"stdin": "".join(f"{path}\n" for path in made).encode(), "stdout": "".join(lines).encode(),
            **{f"data/{path}": each.data for path, each in made.items()}}


def write() -> None:
    for path, data in files().items():
        path = os.path.join(CRATE, path)
        os.makedirs(os.path.dirname(path), exist_ok=True)
        with open(path, "wb") as file:
            file.write(data)


if __name__ == "__main__":
    try:
        write()
    except (Refusal, OSError) as refusal:
        sys.exit(f"outside_data.py: {refusal}")
