"""Single steps of a guest's run by the log of nesthv-trace: what each step writes to registers and RAM, puts,
reads and caches. The control and status registers after instructions and traps that may change them are
shown by the stub nesthv-gdb. What a fence drops is foretold, and the last state of each part is compared with
the program's own.
"""
import itertools
from collections.abc import Callable, Iterable, Iterator
from typing import Protocol

from nesthv_tools import event_logs, foretold_steps, registers, saves, stubs, walks
from nesthv_tools.event_logs import Line

KINDS = ("steps", "traps", "worlds", "calls", "fences", "fills")
SYSTEM, ATOMIC = 0x73, 0x2F
RESERVE, CONDITIONAL = 2, 3  # of funct5
FLAGS = {"r": 1, "w": 2, "x": 4}
SET_TIMER, STOP = 0, 8  # calls
AT_ONCE = 16  # states whose registers are asked for in one go
ALL = tuple(stubs.CSRS)


class Runs(Protocol):
    """What gives the lines of a log."""

    def logged(self, kinds: Iterable[str], start: int, end: int, has_all: bool = False) -> Iterator[Line]:
        ...


class Unknown(Exception):
    """The state after a step is not foretold."""


class Event:
    """A step: its line, what it has, and the lines of what it did."""

    def __init__(self, line: Line, others: list[Line]) -> None:
        self.line, self.step, self.others = line, event_logs.step_of(line), others

    def is_of_system(self) -> bool:
        """Whether it may change a control and status register."""
        is_trap = any(each.kind == "trap" for each in self.others)
        return is_trap or self.step.word is not None and self.step.word & 0x7F == SYSTEM


def events_of(lines: Iterable[Line]) -> Iterator[Event]:
    """The steps of a log with what they did. Of the lines of a step, those of fills come before its own."""
    event: Event | None = None
    fills: list[Line] = []
    for line in lines:
        if line.kind == "step":
            if event:
                yield event
            event, fills = Event(line, fills), []
        elif line.kind == "fill":
            fills.append(line)
        elif event:
            event.others.append(line)
    if event:
        yield event


class Steps(foretold_steps.Steps):
    """The steps of a run after a state by its log. A stub shows the state at its position 0."""

    def __init__(self, runs: Runs, stub: stubs.Stub, saved_at: Callable[[int], saves.Saved],
                 state: saves.Saved) -> None:
        super().__init__(stub, saved_at, state)
        self.runs = runs
        self.end = self.step
        self.events: Iterator[Event] = iter(())
        self.read = self.step  # up to which step the events are

    def until(self, end: int) -> Iterator[saves.Saved]:
        self.end = end
        yield from super().until(end)

    def foretold(self, count: int) -> tuple[list[saves.Saved], bool]:
        if self.read != self.step:
            self.events = iter(())
        events = list(itertools.islice(self.events, count))
        if not events:
            self.events = events_of(self.runs.logged(KINDS, self.step, self.end, has_all=True))
            events = list(itertools.islice(self.events, count))
        self.read = self.step + len(events)
        shown = self.shown(events)
        state, found = self.state, list[saves.Saved]()
        for event, numbers, following in zip(events, shown, [*events[1:], None]):
            try:
                pc = following.line.number("pc") if following else 0
                state = behind(state, event, numbers or {"pc": pc})
            except Unknown:
                return found, True
            found.append(state)
        return found, not found

    def shown(self, events: list[Event]) -> list[dict[str, int] | None]:
        """What the stub shows after each of these steps that may change more than the log tells, and after
        the last."""
        asked = [at for at, event in enumerate(events) if event.is_of_system() or at == len(events) - 1]
        numbers: list[dict[str, int] | None] = [None] * len(events)
        first = self.step - self.first + 1
        for at in range(0, len(asked), AT_ONCE):
            some = asked[at:at + AT_ONCE]
            for place, found in zip(some, self.stub.numbers_at([first + each for each in some], ALL)):
                numbers[place] = found
        return numbers

    def go_back(self, right: int) -> None:
        self.wrong, self.most, self.events = self.wrong + 1, max(right, 1), iter(())
        if self.wrong > foretold_steps.MOST_WRONG:
            raise stubs.Ended


def behind(state: saves.Saved, event: Event, numbers: dict[str, int]) -> saves.Saved:
    """The state after a step, whose other numbers are known as far as the log does not tell them."""
    number = state.numbers
    written = {f"x{registers.INTEGER.index(name)}": value for name, value in event.step.written}
    made = state.changed({"steps": number["steps"] + 1, "clock": number["clock"] + 1, **written,
                          **reserved(event), **numbers})
    for line in event.others:
        apply(made, line)
    if event.step.stored:
        place, width, value = event.step.stored
        made.ram = state.ram.changed(place, value.to_bytes(width, "little"))
    return made


def reserved(event: Event) -> dict[str, int]:
    """What a step makes of the reservation."""
    word, read = event.step.word, event.step.read
    is_trap = any(line.kind == "trap" for line in event.others)
    if word is None or is_trap or word & 0x7F != ATOMIC or word >> 27 not in (RESERVE, CONDITIONAL):
        return {}
    is_made = read is not None and word >> 27 == RESERVE
    return {"reservation width": read.width if is_made and read else 0,
            "reservation address": read.place if is_made and read else 0}


def apply(state: saves.Saved, line: Line) -> None:
    """Changes a state by a line of what the step did."""
    words = line.found[0].decode().split()
    if line.kind == "call" and int(words[5]) == SET_TIMER:
        state.numbers["timer"] = int(words[7], 16)
    elif line.kind == "call" and int(words[5]) == STOP:
        state.numbers["status"] = saves.STATUSES.index("stopped")
    elif line.kind == "put":
        state.console += bytes([int(words[4], 16)])
    elif line.kind == "got":
        state.inputs = state.inputs[1:]
    elif line.kind == "wait":
        if words[5] == "never":
            raise Unknown
        state.numbers["clock"] = int(words[5])
    elif line.kind == "enter":
        enter(state, line.number("hgatp"))
    elif line.kind == "fill":
        fill(state, words)
    elif line.kind == "fence":
        fence(state, line)


def enter(state: saves.Saved, hgatp: int) -> None:
    """Brings the space of hgatp to the front."""
    if hgatp:
        entries: list[saves.Entry] = next((found for key, found in state.spaces if key == hgatp), [])
        others = [space for space in state.spaces if space[0] != hgatp]
        state.spaces = [(hgatp, entries), *others][:state.numbers["spaces"]]


def fill(state: saves.Saved, words: list[str]) -> None:
    """Caches the translation of a line of these words."""
    stage, hgatp, atp, page, frame, rights, level = words[4], *words[6:17:2]
    flags = sum(FLAGS.get(letter, 0) for letter in rights) | int(level) << 3
    place = int(page, 16) >> 12, int(frame, 16) >> 12
    if stage == "second":
        fill_second(state, int(hgatp, 16), (*place, flags))
        return
    v = hgatp != "-"
    flags |= walks.FIRST_U * ("u" in rights)
    entry = saves.First(int(v), int(hgatp, 16) if v else 0, int(atp, 16), *place, flags)
    kept = [each for each in state.first if each[:4] != entry[:4]]
    state.first = [*kept, entry][-saves.MOST_FIRST:]


def fill_second(state: saves.Saved, hgatp: int, entry: saves.Entry) -> None:
    """Caches a translation of the second stage, which is that of the space in front."""
    if not state.spaces or state.spaces[0][0] != hgatp:
        raise Unknown
    (key, entries), *others = state.spaces
    kept = [each for each in entries if each[0] != entry[0]]
    state.spaces = [(key, [*kept, entry][-state.numbers["entries"]:]), *others]


def fence(state: saves.Saved, line: Line) -> None:
    """Drops what a fence names. The line tells how many translations these are."""
    named, page = line.word("id").split()[1], line.word("page")
    identifier = None if named == "all" else int(named)
    place = None if page == "all" else int(page, 16) >> 12
    spaces, first = state.spaces, state.first
    if line.word("fence") == "hfence.gvma":
        spaces = [(key, [each for each in entries if not (is_named(vmid_of(key), identifier)
                                                          and is_at(each[0], each[2] >> 3, place))])
                  for key, entries in spaces]
        first = [each for each in first if not (each.v and is_named(vmid_of(each.hgatp), identifier))]
    else:
        is_nested = line.is_nested() or line.word("fence") == "hfence.vvma"
        vmid = vmid_of(state.numbers["hgatp"])
        first = [each for each in first
                 if not (each.v == is_nested and (not is_nested or vmid_of(each.hgatp) == vmid)
                         and is_named(each.atp >> 44 & 0xFFFF, identifier)
                         and is_at(each.page, each.flags >> 3 & 3, place))]
    dropped = len(state.first) - len(first), held(state.spaces) - held(spaces)
    if dropped != (int(line.word("first")), int(line.word("second"))):
        raise Unknown
    state.spaces, state.first = spaces, first


def held(spaces: saves.Spaces) -> int:
    """How many translations spaces have."""
    return sum(len(entries) for _, entries in spaces)


def vmid_of(hgatp: int) -> int:
    return hgatp >> 44 & 0x7F


def is_named(held: int, named: int | None) -> bool:
    """Whether a fence that names an ASID or VMID, or all, names this one."""
    return named is None or held == named


def is_at(page: int, level: int, place: int | None) -> bool:
    """Whether a fence of a page, or of all, names a translation whose leaf is at this level."""
    return place is None or page >> 9 * level == place >> 9 * level
