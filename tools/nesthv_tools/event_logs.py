"""Reads a log of events, as nesthv-trace writes it: a line for each event, in the order of the steps, and
then lines of counts.
"""
import re
from collections.abc import Iterator
from typing import BinaryIO, NamedTuple

from nesthv_tools import registers, terminal

MODES = ("HS", "U", "VS", "VU")  # in the order of counts
KINDS = ("traps", "worlds", "calls", "fences", "fills", "stale", "steps", "counts")
LONGEST = 320  # bytes of a line
FEW, AT_ONCE = 1 << 12, 1 << 20  # bytes that are read behind the first line, and later
SHOWN = 60  # characters of a text that is not a line of a log

HEX, OPTIONAL, DECIMAL = "[0-9a-f]{1,16}", "(?:-|[0-9a-f]{1,16})", "(?:0|[1-9][0-9]{0,19})"
MODE, PC = "(?P<mode>HS|U|VS|VU)", "(?P<pc>[0-9a-f]{16})"
PAGE = "[0-9a-f]{1,17}"  # an address of up to 66 bits
CAUSE = f"(?P<cause>exception|interrupt) (?P<code>{DECIMAL})"
LEAF = f"frame {PAGE} rights [r-][w-][x-][u-] level [0-3]"
# What stands in a line of each kind after the step, the mode and pc.
FORMS = {
    "trap": f"to (?P<level>HS|VS) {CAUSE} tval (?P<tval>{HEX})"
            f"(?: gpa (?P<gpa>{OPTIONAL}) gva [01] htinst (?P<htinst>{HEX}))?",
    "enter": f"hgatp (?P<hgatp>{HEX}) vsatp {HEX}",
    "leave": f"hgatp (?P<hgatp>{HEX}) vsatp {HEX} {CAUSE}",
    "call": f"number (?P<call>{DECIMAL}) a0 (?P<argument>{HEX}) answer (?P<answer>{OPTIONAL})",
    "put": "[0-9a-f]{1,2}",
    "got": "(?P<byte>[0-9a-f]{1,2})",
    "wait": f"until (?:never|{DECIMAL})",
    "fence": r"(?P<fence>sfence\.vma|hfence\.vvma|hfence\.gvma) (?P<id>(?:asid|vmid) (?:all|[0-9]+)) "
             f"page (?P<page>all|{PAGE}) first (?P<first>{DECIMAL}) second (?P<second>{DECIMAL})",
    "fill": f"(?:first|second) hgatp {OPTIONAL} atp {OPTIONAL} page {PAGE} {LEAF}",
    "stale": f"(?P<stage>first|second) hgatp {OPTIONAL} atp {OPTIONAL} page (?P<page>{PAGE}) "
             f"(?P<cached>{LEAF}) now (?P<now>nothing|{LEAF}) since (?P<since>before|{DECIMAL})",
    "step": "[-0-9a-z ]+"}
COUNT = f"count {MODE} {PC} hgatp (?P<hgatp>{OPTIONAL}) times (?P<times>{DECIMAL})\n"
LINES = {kind: re.compile(f"{kind} (?P<step>{DECIMAL}) {MODE} {PC} {form}\n".encode())
         for kind, form in FORMS.items()}
LINES["count"] = re.compile(COUNT.encode())
# Lines of steps of one mode, of which there may be very many.
STEPS = re.compile("|".join(f"(?:step [0-9]+ {mode} [0-9a-f]{{16}} [-0-9a-z ]+\n)+"
                            for mode in MODES).encode())


class Wrong(Exception):
    """Why a text is not a log, or lacks what is wanted of it, in words."""


class Cut(Wrong):
    """The log ends within a line."""


class Line(NamedTuple):
    """A line of a log: its kind, by the first word, its step, of a count that of the line before, its mode,
    and the words in it, by name."""
    kind: str
    step: int
    mode: str
    found: re.Match[bytes]

    def word(self, name: str) -> str:
        return self.found[name].decode()

    def number(self, name: str) -> int:
        """The hexadecimal number of this name."""
        return int(self.found[name], 16)

    def is_nested(self) -> bool:
        """Whether V is 1."""
        return self.mode in ("VS", "VU")

    def cause(self) -> int:
        """Why a trap was taken, as scause has it."""
        return (self.found["cause"] == b"interrupt") << 63 | int(self.found["code"])

    def hgatp(self) -> int | None:
        """hgatp, or none where V is 0."""
        return None if self.found["hgatp"] == b"-" else self.number("hgatp")


def place_of(line: Line) -> tuple[int, int, int]:
    """The place that a line counts, by which counts are sorted."""
    hgatp = line.hgatp()
    return MODES.index(line.mode), -1 if hgatp is None else hgatp, line.number("pc")


def words_of_guest(hgatp: int) -> str:
    """A guest's guest in words, by its hgatp."""
    try:
        return f"hgatp {hgatp:x} ({registers.translation_of('hgatp', hgatp)})"
    except KeyError:
        return f"hgatp {hgatp:x}"


class Access(NamedTuple):
    """What a step read or wrote in RAM: the physical address, how many bytes, and the value."""
    place: int
    width: int
    value: int


class Step(NamedTuple):
    """What the line of a step has: the word of its instruction, or none; the registers that have other values
    after it; and what it read and wrote."""
    word: int | None
    written: list[tuple[str, int]]
    read: Access | None
    stored: Access | None


def step_of(line: Line) -> Step:
    """What the line of a step has."""
    word, *rest = line.found[0].split()[4:]
    accesses: dict[bytes, Access] = {}
    for name in (b"write", b"read"):
        if name in rest:
            at = rest.index(name)
            place, width, value = rest[at + 1:at + 4]
            accesses[name] = Access(int(place, 16), int(width), int(value, 16))
            del rest[at:at + 4]
    written = [(name.decode(), int(value, 16)) for name, value in zip(rest[::2], rest[1::2])]
    made = None if word == b"-" else int(word, 16)
    return Step(made, written, accesses.get(b"read"), accesses.get(b"write"))


class Log:
    """The lines of a log, which are read once. Unless all are wanted, of steps of one mode, between which
    there is no other line, there are the first and the last alone."""

    def __init__(self, file: BinaryIO, name: str, has_all: bool = False) -> None:
        self.file, self.name, self.has_all, self.number = file, name, has_all, 0
        self.step = 0  # of the line before
        self.counted: tuple[int, int, int] | None = None  # the place of the count before

    def wrong(self, why: str) -> Wrong:
        return Wrong(f"line {self.number} of {self.name} {why}")

    def pieces(self) -> Iterator[bytes]:
        """The bytes of the log: its first line as soon as it is there, and then more and more at once."""
        size = FEW
        data = self.file.readline(LONGEST)
        while data:
            yield data
            data = self.file.read(size)
            size = min(2 * size, AT_ONCE)

    def __iter__(self) -> Iterator[Line]:
        rest = b""
        for data in self.pieces():
            data = rest + data
            end = data.rfind(b"\n") + 1
            yield from self.lines_in(data, end)
            rest = data[end:]
            if len(rest) > LONGEST:
                break
        if rest:
            self.number += 1
            if len(rest) > LONGEST:
                raise self.wrong(why_no_line(rest))
            raise Cut(f"{self.name} ends within line {self.number}")

    def found(self, form: re.Pattern[bytes]) -> Iterator[re.Match[bytes]]:
        """Where a form of whole lines is found in the log, which is not tested otherwise."""
        rest = b""
        for data in self.pieces():
            data = rest + data
            end = data.rfind(b"\n") + 1
            yield from form.finditer(data, 0, end)
            rest = data[end:]

    def lines_in(self, data: bytes, end: int) -> Iterator[Line]:
        """The lines of data up to `end`, which is after a line feed."""
        at = 0
        while at < end:
            self.number += 1
            until = data.find(b"\n", at) + 1
            yield self.line_of(data[at:until])
            is_skipped = not self.has_all and data.startswith(b"step ", at)
            steps = STEPS.match(data, at, end) if is_skipped else None
            if steps and steps.end() > until:
                self.number += data.count(b"\n", until, steps.end())
                until = steps.end()
                yield self.line_of(data[data.rfind(b"\n", at, until - 1) + 1:until])
            at = until

    def line_of(self, text: bytes) -> Line:
        """The line of a text, in its place after the line before."""
        kind = text[:text.find(b" ")].decode(errors="replace")
        form = LINES.get(kind)
        found = form.fullmatch(text) if form else None
        if not found:
            raise self.wrong(why_no_line(text))
        if kind == "count":
            line = Line(kind, self.step, found["mode"].decode(), found)
            self.count(place_of(line))
            return line
        step = int(found["step"])
        if self.counted or step < self.step:
            raise self.wrong("stands after the counts, which end a log" if self.counted else
                             f"has step {step}, and a line before it has step {self.step}")
        self.step = step
        return Line(kind, step, found["mode"].decode(), found)

    def count(self, place: tuple[int, int, int]) -> None:
        """Takes the place of a count, which is after that of the count before."""
        if self.counted and place <= self.counted:
            raise self.wrong("counts a place that is not after that of the line before")
        self.counted = place


def why_no_line(text: bytes) -> str:
    """What is wrong with a text that is not a line of a log."""
    shown = terminal.line_of(text.rstrip(b"\n")[:SHOWN + 1].decode(errors="backslashreplace"))
    shown = shown[:SHOWN] + "..." if len(shown) > SHOWN else shown
    return f"is not one that nesthv-trace writes: {shown}"
