"""What a guest's guest finds changed where it goes on, and which of that an exit should have left as it
was."""
import itertools
from collections.abc import Iterable, Iterator
from typing import NamedTuple

from nesthv_tools import (
    guest_runs, logged_traps, registers, registers_at, searches, state_changes, stubs, visits, walks)
from nesthv_tools.state_changes import Change, Trap

CALLS = (8, 10)  # causes of calls
NO_TARGET = (0x23, 0x63)  # opcodes of stores and branches
# What a hypervisor sets as it likes.
SET = ("hedeleg", "hideleg", "hie", "hvip", "hcounteren", "henvcfg", "htimedelta")
# What changes where it has the guest's guest take a trap.
OF_TRAP = ("mode", "pc", "vsstatus", "vsepc", "vscause", "vstval")
NAMES = tuple(name for name in (*visits.SEEN, "hgatp") if name in stubs.CSRS)


class Left(NamedTuple):
    """How a guest's guest was left: the last state with V = 1, the trap, and the word of the instruction, or none
    where it is not known."""
    state: registers_at.State
    trap: Trap | None
    word: int | None = None


class Entry(NamedTuple):
    """An entry into V = 1: the state after it, how its guest's guest was left before, if in these steps, and
    how each one, by hgatp, was left last."""
    after: registers_at.State
    left: Left | None
    all_left: dict[int, Left]

    def hgatp(self) -> int:
        return self.after.numbers["hgatp"]

    def step(self) -> int:
        """The step after which V is 1."""
        return self.after.numbers["steps"]

    def changes(self) -> list[Change]:
        """What the guest's guest finds changed."""
        return visits.changes(self.left.state, self.after) if self.left else []


def entries_of(runs: guest_runs.Runs, start: int, end: int, tell: searches.Tell) -> Iterator[Entry]:
    """The entries into V = 1 in these steps."""
    left: dict[int, Left] = {}
    with registers_at.shown(runs, start, end, NAMES) as shown:
        for visit, states in with_states(runs, visits.visits_of(runs, start, end, tell), shown):
            entered, *exits = states
            key = entered.numbers["hgatp"]
            yield Entry(entered, left.get(key), left)
            if visit.left is not None:
                left = {**left, key: Left(exits[0], visit.trap or trap_behind(runs, visit.left))}


def with_states(runs: guest_runs.Runs, found: Iterator[logged_traps.Visit], shown: registers_at.States) \
        -> Iterator[tuple[logged_traps.Visit, list[registers_at.State]]]:
    """Each visit with its first state and, where it ends, its last one. Where visits are found fast, the
    states of some are asked for at once."""
    count = registers_at.AT_ONCE // 2 if runs.tracer else 1
    while some := list(itertools.islice(found, count)):
        steps = [[each.entry] if each.left is None else [each.entry, each.left] for each in some]
        states = iter(shown([step for each in steps for step in each]))
        for visit, each in zip(some, steps):
            yield visit, list(itertools.islice(states, len(each)))


def trap_behind(runs: guest_runs.Runs, step: int) -> Trap | None:
    """The trap that the step after a state took."""
    return state_changes.trap_of(runs.at(step), runs.at(step + 1))


def is_call(trap: Trap | None) -> bool:
    return trap is not None and trap["cause"] in CALLS


def goes_on(before: registers_at.State, after: registers_at.State) -> bool:
    """Whether the guest's guest goes on where it was left, or after that instruction."""
    return after.numbers["pc"] - before.numbers["pc"] in (0, 4)


def takes_trap(before: registers_at.State, after: registers_at.State) -> bool:
    """Whether the guest's guest goes on in its handler, with what a trap leaves there."""
    number = after.numbers
    base, cause = number["vstvec"] & ~3, number["vscause"]
    is_vectored = cause >> 63 and number["vstvec"] & 1
    return after.mode() == "VS" and number["vsepc"] == before.numbers["pc"] \
        and number["pc"] == base + (4 * (cause & 2**63 - 1) if is_vectored else 0)


def lost(runs: guest_runs.Runs, entry: Entry) -> list[Change]:
    """The changes that an exit which is not a call should not have led to. The hypervisor may set what it
    sets, let an instruction be made whose register then changes, and have the guest's guest take a trap."""
    if not entry.left or is_call(entry.left.trap):
        return []
    before, after = entry.left.state, entry.after
    is_made = after.numbers["pc"] == before.numbers["pc"] + 4
    permitted = {*SET, *(OF_TRAP if takes_trap(before, after) else ("pc",) if is_made else ())}
    changes = [each for each in entry.changes() if each.name not in permitted]
    general = [each.name for each in changes if each.name in registers.INTEGER]
    if is_made and general:
        made = target_of(entry.left.word) if entry.left.word is not None else \
            general if len(general) == 1 else target_at(runs, before.numbers["steps"])
        changes = [each for each in changes if each.name not in made]
    return changes


def target_at(runs: guest_runs.Runs, step: int) -> Iterable[str]:
    """The register that the next instruction of the state at a step writes."""
    word, _, _ = walks.fetched(runs.at(step))
    return () if word is None else target_of(word)


def target_of(word: int) -> Iterable[str]:
    """The register that an instruction writes, if it does."""
    return () if word & 0x7F in NO_TARGET else (registers.INTEGER[word >> 7 & 31],)
