"""Where in a run events change something: what one pass over the log of its steps tells."""
import re
from collections import deque
from collections.abc import Iterator

from nesthv_tools import fences, guest_runs

LINE = re.compile(rb"^(step|wait|enter|trap) ([0-9]+) (HS|U|VS|VU) ([0-9a-f]+) (?:([0-9a-f]{8}|-)(.*)|.*?"
                  rb"(?:until ([0-9]+|never)|hgatp ([0-9a-f]+) .*|to .*))$", re.M)
ATOMIC, SYSTEM, JUMP, JUMP_BY = 0x2F, 0x73, 0x6F, 0x67  # opcodes
CONDITIONAL, TIME, RA = 3, 0xC01, 1
RETURN = 0x00008067
DEPTH = 64  # calls of which the innermost are known
KEPT = 4  # steps of a place, more than are asked for

Place = tuple[str, int, int, int]  # mode, hgatp where V is 1, pc, and the pc of the innermost call


class Survey:
    """What the log of a run tells of the steps from one on, up to a second one: the places, each with its
    first steps; the WFIs, each with the clock after it or none; the SCs that succeed; and whether the
    clock is read. With `has_all` the place of each step is known."""

    def __init__(self, runs: guest_runs.Runs, start: int, end: int, each: int, has_all: bool) -> None:
        self.runs, self.start, self.end, self.most = runs, start, end, each + KEPT
        self.has_all = has_all
        self.places: dict[Place, list[int]] = {}
        self.place_of: dict[int, Place] = {}
        self.waits: dict[int, int | None] = {}
        self.conditionals: list[int] = []
        self.reads_time = False
        self.hgatp = 0
        self.calls: dict[tuple[str, int], deque[int]] = {}
        for found in self.lines():
            self.take(found)

    def lines(self) -> Iterator[re.Match[bytes]]:
        with guest_runs.Line(self.runs, self.runs.first, self.runs.start) as line:
            with line.log_of(["steps", "worlds", "calls"], 0, self.end - self.runs.first) as file:
                rest = b""
                while data := file.read(1 << 20):
                    data = rest + data
                    end = data.rfind(b"\n") + 1
                    yield from LINE.finditer(data, 0, end)
                    rest = data[end:]

    def take(self, found: re.Match[bytes]) -> None:
        kind, number, mode, pc, word, rest, until, hgatp = found.groups()
        step = int(number) + self.runs.first
        if kind == b"enter":
            self.hgatp = int(hgatp, 16)
        elif kind == b"wait":
            self.waits[step] = None if until == b"never" else int(until)
        elif kind == b"step":
            self.take_step(step, mode.decode(), int(pc, 16), int(word, 16) if word and word != b"-" else 0,
                           b" write " in (rest or b""))

    def take_step(self, step: int, mode: str, pc: int, word: int, is_stored: bool) -> None:
        """Takes the step of an instruction, or of an interrupt, whose word is 0."""
        opcode, world = word & 0x7F, (mode, self.hgatp if mode[0] == "V" else 0)
        if opcode == ATOMIC and word >> 27 == CONDITIONAL and is_stored:
            self.conditionals.append(step)
        elif opcode == SYSTEM and word >> 20 == TIME and word >> 12 & 7:
            self.reads_time = True
        calls = self.calls.setdefault(world, deque(maxlen=DEPTH))
        if self.start <= step:
            place = (*world, pc, calls[-1] if calls else 0)
            steps = self.places.setdefault(place, [])
            if self.has_all or len(steps) < self.most:
                steps.append(step)
                self.place_of[step] = place
        if opcode in (JUMP, JUMP_BY) and word >> 7 & 31 == RA:
            calls.append(pc)
        elif word == RETURN and calls:
            calls.pop()

    def by_place(self, each: int) -> Iterator[int]:
        """Steps, one of each place before a second one of any."""
        for number in range(each + KEPT):
            yield from sorted(steps[number] for steps in self.places.values() if len(steps) > number)

    def steps_of(self, kind: str) -> list[int]:
        """The steps at which the log tells that an event of this kind changes something."""
        found: list[int] = []
        if kind == "wake":
            found = list(self.waits)
        elif kind == "reservation":
            found = self.conditionals
        elif kind == "translations" and self.runs.tells("stale"):
            found = [step for step, _ in fences.stale_places(self.runs, self.start, self.end)]
        return sorted({step for step in found if self.start <= step <= self.end})
