"""Reads files of cases: their names, parts and blocks, and of a case the files, the configuration, and what fails.
cases/README.md has the grammar. Nothing is run here, and a case holds plain values alone."""
import itertools
import os
import re
from collections.abc import Callable, Iterable, Iterator
from dataclasses import dataclass, field, replace

from case_images import generated, noise

PART = "part"
# What tells a shorter run of one byte as it is costs no more than to tell it by its length.
SHORT_RUN = 32
RUNS = re.compile(rb"(.)\1{%d,}" % (SHORT_RUN - 1), re.DOTALL)


class Refusal(Exception):
    """Why a file of cases is not read, in one line."""


@dataclass(frozen=True)
class Line:
    """A line of a file: its text without the end, and where it stands."""
    file: str
    number: int
    text: str

    def refusal(self, why: str) -> Refusal:
        return Refusal(f"{self.file}:{self.number}: {why}")

    def split(self) -> tuple[str, str]:
        """Its first word, and what follows."""
        word, _, rest = self.text.partition(" ")
        return word, rest


@dataclass(frozen=True)
class Block:
    """The lines from one that begins a block to its end, with those of the parts that it takes."""
    kind: str
    name: str
    at: Line
    lines: tuple[Line, ...]


@dataclass(frozen=True)
class Suite:
    """What a file says: its names, and its blocks beside parts."""
    path: str
    names: dict[str, tuple[int, ...]]
    blocks: tuple[Block, ...]


# Bytes: some that stand for themselves, one that comes a number of times, or those that a save has written before.


@dataclass(frozen=True)
class Literal:
    data: bytes


@dataclass(frozen=True)
class Repeated:
    byte: int
    times: int


@dataclass(frozen=True)
class Saved:
    """The bytes from one place to another, or to the end, of what the save of this index in its case has written."""
    save: int
    start: int
    end: int | None


Piece = Literal | Repeated | Saved
Content = tuple[Piece, ...]

# The words of the instructions of a program, as bytes.
Assembler = Callable[[tuple[Line, ...]], bytes]


@dataclass(frozen=True)
class Faults:
    """What fails of the reads: one that fails, one that finds no memory, and one that gives another file than the one
    that is asked for; and whether the count of faults stands at its end. Read 0 is none."""
    failing: int = 0
    wanting: int = 0
    giving: int = 0
    given: str = ""
    is_full: bool = False


@dataclass(frozen=True)
class StreamFaults:
    """A put that fails once it has taken a number of bytes, and whether the stream takes nothing at all, with a count
    of faults that stands at its end. Put 0 is none."""
    put: int = 0
    takes: int = 0
    is_full: bool = False


@dataclass(frozen=True)
class Script:
    """What fails of the next ask, and whether there is no memory for its words."""
    wants_words: bool = False
    store: Faults = Faults()
    out: StreamFaults = StreamFaults()
    err: StreamFaults = StreamFaults()


@dataclass(frozen=True)
class End:
    """How a case ends: the status, and the line on the stream of errors, or none."""
    status: int = 0
    line: str = ""

    @property
    def err(self) -> bytes:
        return f"{self.line}\n".encode() if self.line else b""


@dataclass
class Configuration:
    """What the configuration says, and the runs that are made of it."""
    format: int = 1
    spare: int | None = None
    guests: list[list[str]] = field(default_factory=lambda: [table_of("a")])
    runs: list[str] = field(default_factory=lambda: ["10000x1", "1x10000"])
    spares: list[int] = field(default_factory=list)

    def text(self, run: str) -> str:
        """The text with the turns of this run, as it is written."""
        return self.text_in(self.format, self.spare, run)

    def text_with_spare(self, run: str, spare: int) -> str:
        """The text with the turns of this run, in format 2 with that many spare blocks."""
        return self.text_in(2, spare, run)

    def text_in(self, number: int, spare: int | None, run: str) -> str:
        lines = [f"format = {number}"]
        if spare is not None:
            lines.append(f"spare = {spare}")
        lines += turns_of(run)
        for guest in self.guests:
            lines += ["[[guest]]", *guest]
        return "\n".join(lines) + "\n"


@dataclass
class Guests:
    """What the lines of a case have said so far of its guests: their files, of which one is at hand, the
    configuration, and what fails."""
    names: dict[str, tuple[int, ...]]
    files: dict[str, Content] = field(default_factory=lambda: {"a.bin": ()})
    at_hand: str = "a.bin"
    configuration: Configuration = field(default_factory=Configuration)
    script: Script = field(default_factory=Script)

    def append(self, data: bytes) -> None:
        self.files[self.at_hand] = joined((*self.files[self.at_hand], *pieces_of(data)))

    def begin(self, name: str, content: Content = ()) -> None:
        """Makes this the file at hand, with this content."""
        self.files[name] = content
        self.at_hand = name

    def written(self, run: str) -> Content:
        """The configuration of a run: the file `k`, if there is one, else the text."""
        return self.files.get("k", pieces_of(self.configuration.text(run).encode()))


# What a case has: a line that it knows changes what has been said.
Obey = Callable[[Guests, Line, str], None]


# Content


def pieces_of(data: bytes) -> Content:
    """These bytes as pieces, with long runs of one byte told by their length."""
    pieces: list[Piece] = []
    place = 0
    for run in RUNS.finditer(data):
        if run.start() > place:
            pieces.append(Literal(data[place:run.start()]))
        pieces.append(Repeated(data[run.start()], run.end() - run.start()))
        place = run.end()
    if place < len(data):
        pieces.append(Literal(data[place:]))
    return tuple(pieces)


def joined(pieces: Iterable[Piece]) -> Content:
    """The same bytes, with neighbours of one kind as one piece."""
    made: list[Piece] = []
    for piece in pieces:
        match (made[-1] if made else None), piece:
            case Literal(before), Literal(data):
                made[-1] = Literal(before + data)
            case Repeated(byte, times), Repeated(other, more) if byte == other:
                made[-1] = Repeated(byte, times + more)
            case _:
                made.append(piece)
    return tuple(made)


def length(piece: Piece) -> int | None:
    """How many bytes a piece has, or none where that is not known."""
    match piece:
        case Literal(data):
            return len(data)
        case Repeated(_, times):
            return times
        case Saved(_, start, end):
            return None if end is None else end - start


def size(content: Content) -> int | None:
    """How many bytes there are, or none where that is not known."""
    lengths = [length(piece) for piece in content]
    return None if None in lengths else sum(each for each in lengths if each)


def cut(piece: Piece, start: int, end: int) -> Piece:
    """The bytes of a piece from one place to another."""
    match piece:
        case Literal(data):
            return Literal(data[start:end])
        case Repeated(byte, _):
            return Repeated(byte, end - start)
        case Saved(save, begin, _):
            return Saved(save, begin + start, begin + end)


def part(content: Content, start: int, end: int) -> Content:
    """The bytes from one place to another of content whose size is known."""
    made: list[Piece] = []
    place = 0
    for piece in content:
        after = place + (length(piece) or 0)
        first, last = max(start, place), min(end, after)
        if first < last:
            made.append(cut(piece, first - place, last - place))
        place = after
    return tuple(made)


def bytes_of(content: Content, saves: dict[int, bytes]) -> bytes:
    """The bytes, where the saves have written these."""
    made = bytearray()
    for piece in content:
        match piece:
            case Literal(data):
                made += data
            case Repeated(byte, times):
                made += bytes((byte,)) * times
            case Saved(save, start, end):
                made += saves[save][start:end]
    return bytes(made)


# Texts, numbers and names


def number(text: str) -> int | None:
    """The number that a text is: decimal, or hexadecimal behind `0x`, with `_` anywhere, below 2^64."""
    base, digits = (16, text[2:]) if text.startswith("0x") else (10, text)
    plain = digits.replace("_", "")
    if not re.fullmatch("[0-9a-fA-F]*" if base == 16 else "[0-9]*", plain, re.ASCII) or not digits:
        return None
    value = int(plain or "0", base)
    return value if value < 1 << 64 else None


def number_in(line: Line, text: str) -> int:
    value = number(text)
    if value is None:
        raise line.refusal(f"`{text}` is not a number")
    return value


def numbers_in(line: Line, text: str, count: int) -> list[int]:
    words = text.split()
    if len(words) != count:
        raise line.refusal(f"`{text}` is not {count} numbers")
    return [number_in(line, word) for word in words]


def quoted(line: Line, text: str) -> str:
    """What stands between the quotes of a text."""
    if len(text) < 2 or text[0] != '"' or text[-1] != '"':
        raise line.refusal(f"`{text}` is not a text in quotes")
    return text[1:-1]


def unescaped(line: Line, text: str) -> bytes:
    """The bytes of a text with the escapes `\\n` and `\\xHH`."""
    def byte(found: re.Match[bytes]) -> bytes:
        escape = found.group(1)
        if escape == b"n":
            return b"\n"
        if len(escape) == 3:
            return bytes((int(escape[1:], 16),))
        raise line.refusal(f"`{found.group().decode(errors='replace')}` is not an escape: \\n or \\xHH")
    return re.sub(rb"\\(n|x[0-9a-fA-F]{2}|.?)", byte, text.encode(), flags=re.DOTALL)


def words_in(text: str) -> tuple[str, ...]:
    """The words of a text, in which `""` is the empty one."""
    return tuple("" if word == '""' else word for word in text.split())


def end_in(line: Line, text: str) -> End:
    status, _, said = text.partition(" ")
    return End(number_in(line, status), said)


def values_of(names: dict[str, tuple[int, ...]], line: Line, terms: str) -> list[int]:
    """The values of these terms: numbers, names, and sums of both."""
    values: list[int] = []
    for term in terms.split():
        values += names[term] if term in names else [sum_of(names, line, term)]
    return values


def sum_of(names: dict[str, tuple[int, ...]], line: Line, term: str) -> int:
    total = 0
    for each in term.split("+"):
        value = number(each)
        if each in names:
            if len(names[each]) != 1:
                raise line.refusal(f"`{each}` stands for {len(names[each])} values, in a sum")
            value = names[each][0]
        if value is None:
            raise line.refusal(f"`{each}` is not a number, and stands for nothing")
        total += value
    return total % (1 << 64)


# Names, parts and blocks


def is_instruction(line: Line) -> bool:
    return line.text.startswith(" ")


@dataclass
class Reading:
    """What the lines of a file have said so far."""
    path: str
    kinds: tuple[str, ...]
    names: dict[str, tuple[int, ...]] = field(default_factory=dict)
    parts: dict[str, tuple[Line, ...]] = field(default_factory=dict)
    untaken: dict[str, Line] = field(default_factory=dict)
    blocks: list[Block] = field(default_factory=list)
    head: Line | None = None
    lines: list[Line] = field(default_factory=list)

    def take(self, line: Line) -> None:
        word, rest = line.split()
        if self.head is None:
            self.begin(line, word, rest)
        elif line.text == "end":
            self.close(self.head)
        elif word == "take":
            self.take_part(line, rest)
        elif word in (PART, "define", *self.kinds):
            raise line.refusal(f"`{line.text}` stands before the end of the {self.kind_of(self.head)}")
        else:
            self.lines.append(line)

    def begin(self, line: Line, word: str, rest: str) -> None:
        if word == "define":
            self.define(line, rest)
        elif word == "end":
            raise line.refusal("an `end` too many")
        elif word not in (PART, *self.kinds):
            raise line.refusal(f"`{line.text}` is not in a block: define, part, {' or '.join(self.kinds)}")
        elif not rest:
            raise line.refusal(f"a {word} without a name")
        else:
            self.head = line

    def define(self, line: Line, text: str) -> None:
        name, equals, terms = text.partition(" = ")
        if not equals:
            raise line.refusal("not `define NAME = TERM ..`")
        if name in self.names:
            raise line.refusal(f"`{name}` is defined twice")
        self.names[name] = tuple(values_of(self.names, line, terms))

    def take_part(self, line: Line, name: str) -> None:
        if name not in self.parts:
            raise line.refusal(f"there is no part `{name}` before this line")
        self.untaken.pop(name, None)
        self.lines += self.parts[name]

    def close(self, head: Line) -> None:
        kind, name = head.split()
        lines, self.lines, self.head = tuple(self.lines), [], None
        if kind != PART:
            self.blocks.append(Block(kind, name, head, lines))
        elif name in self.parts:
            raise head.refusal(f"a second part `{name}`")
        else:
            self.parts[name], self.untaken[name] = lines, head

    def kind_of(self, head: Line) -> str:
        return f"{head.split()[0]} of line {head.number}"

    def suite(self) -> Suite:
        if self.head is not None:
            raise self.head.refusal(f"no `end` to this {self.head.split()[0]}")
        for name, line in self.untaken.items():
            raise line.refusal(f"nothing takes the part `{name}`")
        return Suite(self.path, self.names, tuple(self.blocks))


def lines_of(path: str) -> list[str]:
    """The lines of a file of text."""
    try:
        with open(path, encoding="utf-8", newline="\n") as file:
            return file.read().split("\n")
    except OSError as error:
        raise Refusal(f"{path}: {error.strerror}") from None
    except UnicodeDecodeError as error:
        raise Refusal(f"{path}: byte {error.start} is not UTF-8") from None


def read(path: str, kinds: tuple[str, ...] = ("case",)) -> Suite:
    """What a file says, whose blocks are parts and of these kinds. Blank lines, and those that begin with `#`, say
    nothing."""
    reading = Reading(path, kinds)
    for index, text in enumerate(lines_of(path)):
        if text.strip() and not text.strip().startswith("#"):
            reading.take(Line(os.path.basename(path), index + 1, text.rstrip()))
    return reading.suite()


def programs(suite: Suite) -> Iterator[tuple[Line, ...]]:
    """The programs of a file: instructions up to the next line of another kind."""
    for block in suite.blocks:
        for is_program, lines in itertools.groupby(block.lines, is_instruction):
            if is_program:
                yield tuple(lines)


# Lines of a case


def begin_file(guests: Guests, line: Line, rest: str) -> None:
    if not rest:
        raise line.refusal("a file without a name")
    guests.begin(rest)


def pad(guests: Guests, line: Line, rest: str) -> None:
    """Zeros up to an offset."""
    to, now = number_in(line, rest), known_size(guests, line)
    if to < now:
        raise line.refusal(f"`{guests.at_hand}` has {now} bytes before it")
    resize(guests, line, rest)


def known_size(guests: Guests, line: Line) -> int:
    now = size(guests.files[guests.at_hand])
    if now is None:
        raise line.refusal(f"how many bytes `{guests.at_hand}` has is not known: its save has no answer of bytes")
    return now


def resize(guests: Guests, line: Line, rest: str) -> None:
    to, now = number_in(line, rest), known_size(guests, line)
    content = guests.files[guests.at_hand]
    more = (Repeated(0, to - now),) if to > now else ()
    guests.files[guests.at_hand] = joined((*part(content, 0, to), *more))


def append_quads(guests: Guests, line: Line, rest: str) -> None:
    guests.append(quads(values_of(guests.names, line, rest)))


def quads(values: Iterable[int]) -> bytes:
    return b"".join(value.to_bytes(8, "little") for value in values)


def append_words(guests: Guests, line: Line, rest: str) -> None:
    for value in values_of(guests.names, line, rest):
        if value >= 1 << 32:
            raise line.refusal(f"0x{value:x} is not a word of 32 bits")
        guests.append(value.to_bytes(4, "little"))


def append_text(guests: Guests, line: Line, rest: str) -> None:
    guests.append(unescaped(line, quoted(line, rest)))


def append_line(guests: Guests, line: Line, rest: str) -> None:
    guests.append(rest.encode() + b"\n")


def append_repeated(guests: Guests, line: Line, rest: str) -> None:
    count, _, text = rest.partition(" ")
    guests.append(unescaped(line, quoted(line, text)) * number_in(line, count))


def append_noise(guests: Guests, line: Line, rest: str) -> None:
    seed, count = numbers_in(line, rest, 2)
    if seed >= 1 << 31 or count > 2093056:
        raise line.refusal("noise of a seed from 2^31 on, or of more than 2093056 bytes")
    guests.append(noise(seed, count))


def append_generated(guests: Guests, line: Line, rest: str) -> None:
    seed, commands, index = numbers_in(line, rest, 3)
    if seed >= 1 << 31 or not 1 <= commands <= 10000 or index > 3:
        raise line.refusal("a generated guest of a seed from 2^31 on, of a size beyond 1 to 10000, or beyond 0 to 3")
    guests.append(generated(seed, commands, index))


def set_quads(guests: Guests, line: Line, rest: str) -> None:
    """Doublewords in the place of those from an offset on."""
    values = values_of(guests.names, line, rest)
    if not values:
        raise line.refusal("not `set OFFSET TERM ..`")
    now, data = known_size(guests, line), quads(values[1:])
    after = values[0] + len(data)
    if after > now:
        raise line.refusal(f"`{guests.at_hand}` has {now} bytes, and not {after}")
    content = guests.files[guests.at_hand]
    guests.files[guests.at_hand] = joined((*part(content, 0, values[0]), Literal(data), *part(content, after, now)))


def set_format(guests: Guests, line: Line, rest: str) -> None:
    guests.configuration.format = number_in(line, rest)


def set_spare(guests: Guests, line: Line, rest: str) -> None:
    guests.configuration.spare = number_in(line, rest)


def add_spares(guests: Guests, line: Line, rest: str) -> None:
    word, _, counts = rest.partition(" ")
    if word != "spare":
        raise line.refusal("not `also spare N ..`")
    guests.configuration.spares += [number_in(line, count) for count in counts.split()]


def table_of(name: str) -> list[str]:
    """The lines of the table of a guest with this name."""
    return [f'name = "{name}"', f'image = "{name}.bin"', "blocks = 1", "spaces = 1", "entries = 16", "console = 100"]


def add_guest(guests: Guests, line: Line, rest: str) -> None:
    guests.configuration.guests.append(table_of(rest))


def change(guests: Guests, line: Line, rest: str) -> None:
    """A line in the place of the one with its key, or behind the others."""
    lines = guests.configuration.guests[-1]
    keys = [each.split(" =")[0] for each in lines]
    key = rest.split(" =")[0]
    if key in keys:
        lines[keys.index(key)] = rest
    else:
        lines.append(rest)


def resume(guests: Guests, line: Line, rest: str) -> None:
    """Leaves the guest its name, and has it go on from a file."""
    guests.configuration.guests[-1][1:] = [f'resume = "{rest}"']


def rounds_of(run: str) -> tuple[int | None, int | None]:
    quantum, _, rounds = run.partition("x")
    return number(quantum), number(rounds)


def turns_of(run: str) -> list[str]:
    """The lines that say the turns of a run: `QxR`, or a list of turns."""
    quantum, rounds = rounds_of(run)
    return [f"turns = {run}"] if quantum is None else [f"quantum = {quantum}", f"rounds = {rounds}"]


def set_runs(guests: Guests, line: Line, rest: str) -> None:
    for run in rest.split():
        if None in rounds_of(run):
            raise line.refusal(f"`{run}` is not a quantum and rounds, as 10000x1")
    guests.configuration.runs = rest.split()


def set_turns(guests: Guests, line: Line, rest: str) -> None:
    if not rest.startswith("["):
        raise line.refusal(f"`{rest}` is not a list of turns, as [[0, 3]]")
    guests.configuration.runs = [rest]


def say_fault(guests: Guests, line: Line, rest: str) -> None:
    """What fails of the next ask."""
    word, place, text = (*line.text.split(" ", 2), "", "")[:3]
    guests.script = said(guests.script, line, word, place, text)


def said(script: Script, line: Line, word: str, place: str, text: str) -> Script:
    """What fails, with what a line says."""
    match word, place:
        case "want", "words" if not text:
            return replace(script, wants_words=True)
        case "fail", "read":
            return replace(script, store=replace(script.store, failing=number_in(line, text)))
        case "want", "read":
            return replace(script, store=replace(script.store, wanting=number_in(line, text)))
        case "give", "read":
            count, _, name = text.partition(" ")
            return replace(script, store=replace(script.store, giving=number_in(line, count), given=name))
        case "full", "read" if not text:
            return replace(script, store=replace(script.store, is_full=True))
        case ("fail" | "full"), "out":
            return replace(script, out=said_of_stream(script.out, line, text))
        case ("fail" | "full"), "err":
            return replace(script, err=said_of_stream(script.err, line, text))
    raise line.refusal(f"`{line.text}` is no fault that is known")


def said_of_stream(faults: StreamFaults, line: Line, text: str) -> StreamFaults:
    if line.text.startswith("full") and not text:
        return replace(faults, is_full=True)
    put, after, takes = text.partition(" after ")
    if line.text.startswith("full") or not after:
        raise line.refusal("not `fail out N after K`, `fail err N after K`, `full out` or `full err`")
    return replace(faults, put=number_in(line, put), takes=number_in(line, takes))


LINES: dict[str, Obey] = {
    "file": begin_file, "at": pad, "size": resize, "quad": append_quads, "word": append_words, "text": append_text,
    "line": append_line, "repeat": append_repeated, "noise": append_noise, "generated": append_generated,
    "set": set_quads, "format": set_format, "spare": set_spare, "also": add_spares, "guest": add_guest,
    "config": change, "resume": resume, "runs": set_runs, "turns": set_turns, "fail": say_fault, "want": say_fault,
    "give": say_fault, "full": say_fault,
}


def obey(guests: Guests, block: Block, assemble: Assembler, own: Callable[[Line, str, str], bool]) -> None:
    """Obeys the lines of a case: those that `own` knows, which answers whether it does, and those of all cases."""
    for is_program, lines in itertools.groupby(block.lines, is_instruction):
        if is_program:
            guests.append(assemble(tuple(lines)))
            continue
        for line in lines:
            word, rest = line.split()
            if own(line, word, rest):
                continue
            if word not in LINES:
                raise line.refusal(f"`{word}` begins no line of a case")
            LINES[word](guests, line, rest)
