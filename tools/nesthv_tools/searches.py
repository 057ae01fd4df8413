"""Finds steps of a guest's run: the first at which something holds, the last that changed it, and traps."""
import functools
from collections.abc import Callable

from nesthv_tools import arrivals, guest_runs, saves

Holds = Callable[[int], bool]
Tell = Callable[[int, int], None]

AWAY = 1 << 62  # an address that no mode can fetch from
KEPT = 4  # states, in a search
LONG = 10000  # steps of a search, after which its runs are compared on the way


def narrowed(holds: Holds, low: int, high: int, width: int, tell: Tell) -> tuple[int, int]:
    """Two steps with at most `width` between them: at the first `holds` does not, and at the second it does,
    as at `low` and `high`."""
    while high - low > width:
        tell(low, high)
        middle = (low + high) // 2
        if holds(middle):
            high = middle
        else:
            low = middle
    return low, high


def first_step(holds: Holds, low: int, high: int, tell: Tell = lambda low, high: None) -> int:
    """A step at which `holds` does, and at the one before it does not, where it holds at `high` and not at
    `low`. It is the first such step where it stays once it holds."""
    return narrowed(holds, low, high, 1, tell)[1]


def last_change(holds: Holds, low: int, high: int, tell: Tell = lambda low, high: None) -> int | None:
    """A step at which `holds` does, and at the one before it does not, where it holds at `high`. It is the
    last such step, as far as going back in steps that grow, and by halves, finds it. Or none, where it holds
    at `low` too."""
    before = high
    while holds(before):
        if before == low:
            return None
        high, before = before, max(low, high - 4 * max(high - before, 1))
    return first_step(holds, before, high, tell)


class Event:
    """A trap: the step that it makes, counted from the start, and the state after it with the tvec that was
    planted."""

    def __init__(self, step: int, saved: saves.Saved) -> None:
        self.step, self.saved = step, saved


class Traps:
    """Finds the next trap without single steps. The registers of `names`, of stvec and vstvec, are planted.
    They are set to an address that no mode can fetch from, so from the first trap on pc stays there. Up to
    then the run is the guest's own, unless it reads or writes such a register; then the search begins anew.
    """

    def __init__(self, runs: guest_runs.Runs, names: tuple[str, ...], tell: Tell) -> None:
        self.runs, self.names, self.tell = runs, names, tell

    def is_like(self, planted: saves.Saved, own: saves.Saved) -> bool:
        """Whether the run with the planted registers is still the guest's own."""
        if any(planted.numbers[name] != AWAY for name in self.names):
            return False
        numbers = {**planted.numbers, **{name: own.numbers[name] for name in self.names}}
        return numbers == own.numbers and planted.console == own.console and planted.inputs == own.inputs \
            and planted.ram.is_same(own.ram)

    def planted(self, step: int) -> guest_runs.Line:
        """The run from a step on with the planted registers."""
        own = self.runs.at(step)
        return guest_runs.Line(self.runs, step, own.changed({name: AWAY for name in self.names}))

    def next(self, step: int, end: int) -> Event | None:
        """The next trap after this step, up to `end`, or none."""
        while step < end and not self.runs.at(step).numbers["status"]:
            with self.planted(step) as line:
                found = self.search(line.at, step, end)
            if isinstance(found, Event) or found is None:
                return found
            step = found
        return None

    def search(self, planted: Callable[[int], saves.Saved], step: int, end: int) -> Event | int | None:
        """The next trap after a step, by the planted states; or the step at which a planted register was
        used; or none up to `end`."""
        planted = functools.lru_cache(KEPT)(planted)

        def is_away(later: int) -> bool:
            return planted(later).numbers["pc"] == AWAY

        def is_other(later: int) -> bool:
            return not self.is_like(planted(later), self.runs.at(later))

        low, high, tested = step, min(step + 4, end), step
        while not is_away(high):
            if high == end or high - step > LONG:
                if is_other(high):
                    return first_step(is_other, tested, high)
                tested = high
            if high == end:
                return None
            low, high = high, min(step + (high - step) * 4, end)
        high = first_step(is_away, low, high, self.tell)
        return first_step(is_other, tested, high - 1) if is_other(high - 1) else Event(high, planted(high))

    def last(self, end: int) -> int | None:
        """The step of the last trap up to `end`, or none."""
        step = arrivals.last_arrival(self.runs, end)
        if step is not None and self.is_trap(step) and self.is_quiet(step, end):
            return step
        while end > self.runs.first:
            step = self.last_event(end)
            if step is None:
                return None
            if self.is_trap(step):
                return step
            end = step - 1
        return None

    def is_trap(self, step: int) -> bool:
        """Whether the step that leads to the state of this number is a trap."""
        with self.planted(step - 1) as line:
            return line.at(step).numbers["pc"] == AWAY

    def is_quiet(self, step: int, end: int) -> bool:
        """Whether no step from a state on, up to a second one, is a trap or uses a planted register."""
        with self.planted(step) as line:
            return self.is_like(line.at(end), self.runs.at(end))

    def last_event(self, end: int) -> int | None:
        """The last step up to `end` that is a trap or uses a planted register, or none: by going back in
        steps that grow, and by halves. Behind `high` there is none."""
        high, low = end, max(end - 4, self.runs.first)
        while self.is_quiet(low, high):
            if low == self.runs.first:
                return None
            high, low = low, max(low - 4 * (high - low), self.runs.first)
            self.tell(low, high)
        while high - low > 1:
            middle = (low + high) // 2
            if self.is_quiet(middle, high):
                high = middle
            else:
                low = middle
        return high
