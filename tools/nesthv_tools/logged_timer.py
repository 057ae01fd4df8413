"""Since when a guest's timer is what it is, by the log of nesthv-trace."""
from collections.abc import Iterator

from nesthv_tools import guest_runs

SET_TIMER = b"0"  # the number of the call
WINDOW, GROWTH = 1 << 18, 4  # steps whose log is read, and how they grow


def settings_before(runs: guest_runs.Runs, step: int) -> Iterator[tuple[int, int]]:
    """The calls up to a step that set the timer, the last first: the step after each, and its moment."""
    high, size = step, WINDOW
    while high > runs.first:
        low = max(runs.first, high - size)
        found = [(line.step + 1, line.number("argument")) for line in runs.logged(["calls"], low, high)
                 if line.kind == "call" and line.found["call"] == SET_TIMER]
        yield from reversed(found)
        high, size = low, size * GROWTH


def changed_to(runs: guest_runs.Runs, timer: int, step: int) -> int | None:
    """The step from which on the timer is this moment, as it is at `step`; or none where it is so from the
    start on."""
    since = None
    for made, moment in settings_before(runs, step):
        if moment != timer:
            return since
        since = made
    return None if runs.start.numbers["timer"] == timer else since
