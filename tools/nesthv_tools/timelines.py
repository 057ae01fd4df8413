"""The worlds of a run over time, by its log: which of them ran when, and what happened there."""
from collections.abc import Iterator
from typing import NamedTuple

from nesthv_tools import event_logs, registers
from nesthv_tools.event_logs import Line

KINDS = ("traps", "worlds", "calls", "fences")  # that a timeline needs
MARKS = ("traps", "fences", "inputs", "stale uses")
PLACES = {"trap": "traps", "fence": "fences", "got": "inputs", "stale": "stale uses"}


class Visit(NamedTuple):
    """A time in which V stays as it is: its first step, whether V is 1, hgatp of a guest's guest, and by what
    it began, in words. hgatp is none where V is 0 or the log does not tell."""
    start: int
    is_nested: bool
    hgatp: int | None
    cause: str

    def world(self) -> str:
        """Whose it is, in words."""
        if not self.is_nested:
            return "HS"
        return "hgatp before the log" if self.hgatp is None else f"hgatp {self.hgatp:x}"


class Stretch(NamedTuple):
    """The steps of a visit from `start` up to, and without, `end`, in one mode, or in one that is not known,
    where the log has no steps."""
    visit: Visit
    mode: str | None
    start: int
    end: int


class Mark(NamedTuple):
    """What happened at a step: its kind, the name that it gets, and what there is to say of it."""
    kind: str
    visit: Visit
    step: int
    name: str
    details: dict[str, str]


def name_of(line: Line) -> str:
    """The name of what a line tells."""
    if line.kind == "trap":
        return f"trap into {line.word('level')}: {registers.cause_of(line.cause())}"
    if line.kind == "fence":
        return f"{line.word('fence')} {line.word('id')} page {line.word('page')}"
    if line.kind == "got":
        return f"input {line.word('byte')}"
    return f"stale use of {line.word('stage')} {line.word('page')}"


def next_visit(line: Line) -> Visit:
    """The visit after an entry or a way out."""
    if line.kind == "enter":
        return Visit(line.step + 1, True, line.hgatp(), "")
    return Visit(line.step + 1, False, None, registers.cause_of(line.cause()))


class Timeline:
    """Makes of the lines of a log, one after the other, the stretches and marks of its run."""

    def __init__(self, log: event_logs.Log, start: int | None) -> None:
        self.log, self.start = log, start
        self.visit: Visit | None = None
        self.mode: str | None = None
        self.since = self.end = 0

    def take(self, line: Line) -> Iterator[Stretch | Mark]:
        """What a line adds. A stretch comes once it has ended."""
        if line.kind == "count":
            return
        visit = self.visit or self.begin(line)
        if visit.is_nested != (line.is_nested() and line.kind != "enter"):
            raise self.log.wrong(f"is in {line.mode}, and no line before tells of the change of V: the log "
                                 "has to have `worlds`")
        self.end = line.step + 1
        if line.kind == "step" and line.mode != self.mode:
            yield from self.stretch(line.step)
            self.mode = line.mode
        elif line.kind in PLACES:
            words = line.found.groupdict()
            details = {name: word.decode() for name, word in words.items() if word is not None}
            yield Mark(PLACES[line.kind], visit, line.step, name_of(line), details)
        elif line.kind in ("enter", "leave"):
            yield from self.stretch(self.end)
            self.visit, self.mode = next_visit(line), None

    def begin(self, line: Line) -> Visit:
        """The first visit, by the first line."""
        self.since = line.step if self.start is None else self.start
        is_nested = line.is_nested() and line.kind != "enter"
        self.visit = Visit(self.since, is_nested, None, "")
        return self.visit

    def stretch(self, end: int) -> Iterator[Stretch]:
        """What has run since the last stretch, up to a step."""
        if self.visit and self.since < end:
            yield Stretch(self.visit, self.mode, self.since, end)
            self.since = end

    def rest(self) -> Iterator[Stretch]:
        """The last stretch, after the last line."""
        yield from self.stretch(self.end)
