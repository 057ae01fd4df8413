"""What a failure is: by what a run came to after an event, beside the undisturbed run."""
import enum
import re
from collections.abc import Callable, Iterator
from typing import NamedTuple

from nesthv_tools import registers, reports
from nesthv_tools.trials import Outcome


class Rank(enum.IntEnum):
    """How bad it is: the lower the worse."""
    STUCK = 0  # it waits for good, or does not stop
    VERDICT = 1  # the guest names another exit number
    FAULT = 2  # an exception where the undisturbed run has none
    CONSOLE = 3  # the console is another one


class Failure(NamedTuple):
    """A failure in words, and its rank."""
    rank: Rank
    words: str


class Criteria(NamedTuple):
    """What is asked of a run: that the guest names the exit number of the undisturbed one; after an event of
    these kinds, that its console is that one's; that it stops after at most so many times the steps, where
    that is not 0; and that its console holds what these expressions say."""
    verdict: bool
    console: tuple[str, ...]
    stops: int
    expected: list[re.Pattern[str]]


def failures_of(criteria: Criteria, kind: str, plain: Outcome, run: Outcome,
                name: Callable[[str, int], str]) -> list[Failure]:
    """What is wrong with a run after an event of a kind, the worst first. `name` gives the place of a
    mode and pc in words."""
    found = [*stuck(criteria, plain, run, name), *exits(criteria, plain, run), *faults(plain, run, name)]
    return sorted(found or consoles(criteria, kind, plain, run))


def stuck(criteria: Criteria, plain: Outcome, run: Outcome,
          name: Callable[[str, int], str]) -> Iterator[Failure]:
    if run.waits_at and not plain.waits_at:
        yield Failure(Rank.STUCK, f"it waits for good at {name(*run.waits_at)}")
    elif criteria.stops and run.status == "running" and plain.status != "running":
        yield Failure(Rank.STUCK, f"it has not stopped after {criteria.stops} times the steps")


def exits(criteria: Criteria, plain: Outcome, run: Outcome) -> Iterator[Failure]:
    if criteria.verdict and run.status == plain.status == "stopped" and run.verdict() != plain.verdict():
        yield Failure(Rank.VERDICT, f"exit {run.verdict()} in place of {plain.verdict()}")


def faults(plain: Outcome, run: Outcome, name: Callable[[str, int], str]) -> Iterator[Failure]:
    """The first exception at a place where the undisturbed run has none."""
    fault = next((each for each in run.faults if each not in plain.faults), None)
    if fault:
        words = registers.EXCEPTIONS.get(fault.code, "exception")
        place = name(fault.mode, fault.pc)
        yield Failure(Rank.FAULT, f"{words} ({fault.code}) into {fault.level} at {place}, where "
                      " the undisturbed run has none")


def consoles(criteria: Criteria, kind: str, plain: Outcome, run: Outcome) -> Iterator[Failure]:
    one, other = plain.text(), run.text()
    if plain.status == "running":  # as far as both go
        length = min(len(one), len(other))
        one, other = one[:length], other[:length]
    if kind in criteria.console and one != other:
        at = reports.place_of(one, other)
        shown = [repr(each[at:at + 16]) if at < len(each) else "its end" for each in (other, one)]
        yield Failure(Rank.CONSOLE, f"console byte {at} on: {shown[0]} in place of {shown[1]}")
    for each in criteria.expected:
        if not each.search(run.text()):
            yield Failure(Rank.CONSOLE, f"the console does not hold {each.pattern!r}")
