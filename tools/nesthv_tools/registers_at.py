"""The registers of a guest at steps of its run, by the stub nesthv-gdb."""
import contextlib
import re
from collections.abc import Callable, Iterator, Sequence

from nesthv_tools import guest_runs, saves, searches, stubs

WINDOW, GROWTH = 1 << 16, 4  # steps that the stub shows, for each block of RAM, and how a search goes back
LOGGED = (1 << 17, 1 << 20)  # last steps whose writes are looked for in the log
BITS = ("sip.SSIP", "sie", "hie", "hvip")  # registers with bits of interrupts
# A step that writes one of sie, sip, vsie, vsip, hie, hip and hvip, which all are the same bits.
WRITES = re.compile(rb"^step ([0-9]+) \w+ [0-9a-f]{16} (?:104|144|204|244|604|644|645)[0-9a-f]{3}[7f]3\b.*$",
                    re.MULTILINE)

AT_ONCE = 16  # states that a stub is asked for in one go


class Seen:
    """A state of which the registers alone are known."""

    def __init__(self, numbers: dict[str, int]) -> None:
        self.numbers = numbers

    def mode(self) -> str:
        return saves.MODES[self.numbers["mode"]]


State = saves.Saved | Seen


States = Callable[[Sequence[int]], list[State]]


class Registers:
    """Those of the run from a step on: of the stub as long as it answers, then of saved states."""

    def __init__(self, runs: guest_runs.Runs, stub: stubs.Stub, start: int, names: Sequence[str]) -> None:
        self.runs, self.start, self.names = runs, start, names
        self.stub: stubs.Stub | None = stub

    def at(self, steps: Sequence[int]) -> list[State]:
        """These at some steps, which are few."""
        if self.stub:
            try:
                found = self.stub.numbers_at([step - self.start for step in steps], self.names)
                return [Seen({"steps": step, **numbers}) for step, numbers in zip(steps, found)]
            except stubs.Ended:
                self.stub = None
        return [self.runs.at(step) for step in steps]


@contextlib.contextmanager
def shown(runs: guest_runs.Runs, start: int, end: int, names: Sequence[str]) -> Iterator[States]:
    """What gives the registers at steps between these: the integer ones, pc, the mode, and those of these
    names."""
    with contextlib.ExitStack() as stack:
        try:
            line = stack.enter_context(guest_runs.Line(runs, start, runs.at(start)))
            found = Registers(runs, stack.enter_context(line.stub(end)), start, names).at
        except stubs.Ended:
            def found(steps: Sequence[int]) -> list[State]:
                return [runs.at(step) for step in steps]
        yield found


Holds = Callable[[State], bool]


def last_write(runs: guest_runs.Runs, holds: Holds, start: int, end: int) -> int | None:
    """The step after the last instruction between two steps that makes these bits of interrupts what `holds`
    asks for, where they are so at the end; or none."""
    places = list(runs.steps_of_form(WRITES, start, end))
    with shown(runs, start, end, BITS) as at:
        return next((place + 1 for place in reversed(places) if not holds(*at([place]))), None)


def last_change(runs: guest_runs.Runs, holds: Holds, step: int, tell: searches.Tell) -> int | None:
    """The step from which on bits of interrupts are as `holds` asks for, as they are at `step`; or none where
    they are so from the start on. In the last steps the log tells. Before these, whole states say in which
    window it was, and the stub where in it, so that a change and back between two states is not seen."""
    high = step
    for length in LOGGED if runs.tracer else ():
        low = max(runs.first, step - length)
        made = last_write(runs, holds, low, high)
        if made is not None or low == runs.first:
            return made
        high = low
    return earlier_change(runs, holds, high, tell)


def earlier_change(runs: guest_runs.Runs, holds: Holds, step: int, tell: searches.Tell) -> int | None:
    """The same by states."""
    width = WINDOW * runs.guest.blocks
    low, high = max(runs.first, step - width), step
    with shown(runs, low, high, BITS) as at:
        if not holds(*at([low])):
            return searches.last_change(lambda each: holds(*at([each])), low, high, tell)
    while holds(runs.at(low)):
        if low == runs.first:
            return None
        low, high = max(runs.first, low - GROWTH * (step - low)), low
        tell(low, high)
    low, high = searches.narrowed(lambda each: holds(runs.at(each)), low, high, width, tell)
    with shown(runs, low, high, BITS) as at:
        return searches.first_step(lambda each: holds(*at([each])), low, high, tell)
