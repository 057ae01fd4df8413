"""Traps and visits to V = 1 by the log of nesthv-trace, which makes the run once."""
from collections.abc import Iterator
from typing import NamedTuple

from nesthv_tools import event_logs, guest_runs, registers

WINDOW, GROWTH = 1 << 16, 16  # steps in which the last trap is looked for, and how they grow
LEVELS = {"stvec": "HS", "vstvec": "VS"}
MOST_WORDS = 1 << 21  # steps in which the log is asked for the words of instructions
ECALL, CALLS = 0x73, (8, 9, 10, 11)  # the word of a call, and the causes of calls
FETCHES = (0, 1, 12, 20)  # causes of faults of a fetch


class Trap(NamedTuple):
    """A trap: the step that it makes, counted from the start."""
    step: int


class Traps:
    """Finds traps as `searches.Traps` does: those that go to the registers of these names."""

    def __init__(self, runs: guest_runs.Runs, names: tuple[str, ...]) -> None:
        self.runs, self.levels = runs, {LEVELS[name] for name in names}
        self.place: tuple[int, int] | None = None  # from where on, and up to where, the lines are
        self.lines: Iterator[event_logs.Line] = iter(())

    def next(self, step: int, end: int) -> Trap | None:
        """The next trap after this step, up to `end`, or none."""
        if self.place != (step, end):
            self.lines = traps_in(self.runs, step, end)
        for line in self.lines:
            if line.word("level") in self.levels:
                self.place = line.step + 1, end
                return Trap(line.step + 1)
        return None

    def last(self, end: int) -> int | None:
        """The step of the last trap up to `end`, or none."""
        high, size = end, WINDOW
        while high > self.runs.first:
            low = max(self.runs.first, high - size)
            found = [line for line in traps_in(self.runs, low, high) if line.word("level") in self.levels]
            if found:
                return found[-1].step + 1
            high, size = low, size * GROWTH
        return None


def traps_in(runs: guest_runs.Runs, start: int, end: int) -> Iterator[event_logs.Line]:
    return (line for line in runs.logged(["traps"], start, end) if line.kind == "trap")


def with_words(runs: guest_runs.Runs, start: int, end: int) -> Iterator[tuple[event_logs.Line, int | None]]:
    """The lines of the traps, each with the word of its instruction, or none where the log does not tell
    it."""
    if end - start > MOST_WORDS:
        yield from ((line, word_by_cause(line)) for line in traps_in(runs, start, end))
        return
    step: event_logs.Line | None = None
    for line in runs.logged(["traps", "steps"], start, end):
        if line.kind == "step":
            step = line
        elif line.kind == "trap":
            yield line, word_of(step) if step and step.step == line.step else None


def word_by_cause(line: event_logs.Line) -> int | None:
    """The word of the instruction of a trap, where its cause alone tells it: a call has one word."""
    return ECALL if line.cause() in CALLS else None


def has_word(line: event_logs.Line) -> bool:
    """Whether the instruction of a trap has been fetched."""
    return not line.cause() >> 63 and line.cause() not in FETCHES


def word_of(step: event_logs.Line) -> int | None:
    """The word of the instruction in the line of a step, or none where there is a dash."""
    word = step.found[0].split()[4]
    return None if word == b"-" else int(word, 16)


def value_of(line: event_logs.Line) -> dict[str, str | int]:
    """The trap of a line, as `state_changes.trap_of` tells it."""
    page, cause = line.found["gpa"], line.cause()
    return {"to": line.word("level"), "cause": cause, "words": registers.cause_of(cause),
            "tval": line.number("tval"), "htval": 0 if page in (None, b"-") else int(page, 16) >> 2,
            "htinst": int(line.found["htinst"] or b"0", 16)}


class Visit(NamedTuple):
    """A part of a run in which V is 1: the step after which it has become so, the last step with V = 1, and
    the trap that ends it. The trap is none where the run ends before."""
    entry: int
    left: int | None = None
    trap: dict[str, str | int] | None = None


def visits_and_traps(runs: guest_runs.Runs, start: int,
                     end: int) -> Iterator[tuple[Visit | None, int | None]]:
    """The visits to V = 1 that begin after a step, up to a second one, and the steps after traps into HS
    with V = 0. They are in order, each visit with no step, and each step with no visit."""
    visit: Visit | None = None
    for line in runs.logged(["traps", "worlds"], start, end):
        if line.kind == "enter":
            visit = Visit(line.step + 1)
        elif line.kind == "trap" and not line.is_nested():
            yield None, line.step + 1
        elif line.kind == "trap" and line.word("level") == "HS" and visit:
            yield Visit(visit.entry, line.step, value_of(line)), None
            visit = None
    if visit:
        yield visit, None
