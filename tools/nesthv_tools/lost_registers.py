"""What the entries into V = 1 of a run show: registers that are lost over an exit, and a timer's interrupt
that stays pending.
"""
from collections.abc import Iterator
from typing import NamedTuple

from nesthv_tools import guest_runs, kept_registers, registers
from nesthv_tools.findings import Finding, Rank
from nesthv_tools.followed_runs import Origin, Run, Shown
from nesthv_tools.kept_registers import Entry
from nesthv_tools.state_changes import Change
from nesthv_tools.wording import article, counted, guest_of

VSTIP = 6  # the bit of hvip
MAY_CHANGE = {"mode", "pc", "a0", "a1", *kept_registers.SET}  # over a call
SHOWN = 8  # registers of a finding
MOST_TICKS = 3  # timer interrupts, in visits of their own, while VSTIP stays set


class Key(NamedTuple):
    """A register that is lost: of which guest's guest, whether over a call, and whether another guest's guest has
    changed it."""
    hgatp: int
    name: str
    is_call: bool
    is_foreign: bool


class Lost:
    """The registers that guests' guests find changed, with the first entry at which each is, and at how
    many."""

    def __init__(self, runs: guest_runs.Runs, run: Run) -> None:
        self.runs, self.run = runs, run
        self.first: dict[Key, tuple[Entry, Change]] = {}
        self.counts: dict[Key, int] = {}
        self.several: set[int] = set()  # those that go on where they were not left, as several harts do

    def take(self, entry: Entry) -> None:
        if not entry.left:
            return
        before, after = entry.left.state, entry.after
        if not kept_registers.goes_on(before, after):
            if not kept_registers.takes_trap(before, after):
                self.several.add(entry.hgatp())
            return
        is_call = kept_registers.is_call(entry.left.trap)
        changes = entry.changes()
        foreign = [each for each in changes if self.is_foreign(each.name, before.numbers["steps"])]
        changes = [each for each in changes if each.name not in MAY_CHANGE] if is_call \
            else kept_registers.lost(self.runs, entry)
        for change in [*foreign, *(each for each in changes if each not in foreign)]:
            key = Key(entry.hgatp(), change.name, is_call, change in foreign)
            self.counts[key] = self.counts.get(key, 0) + 1
            self.first.setdefault(key, (entry, change))

    def is_foreign(self, name: str, left: int) -> bool:
        """Whether another guest's guest has changed a register last, since the step of an exit."""
        origin = self.run.origins.get(name)
        return bool(origin and origin.place.step > left and origin.place.mode[0] == "V")

    def findings(self) -> Iterator[Finding]:
        """What is lost, a finding for each entry at which something is for the first time. What is lost over
        an exit that is not a call is not told again for calls."""
        certain = {(key.hgatp, key.name) for key in self.first if not key.is_call}
        by_entry: dict[tuple[int, int, bool, bool], list[Key]] = {}
        for key, (entry, _) in self.first.items():
            if not key.is_call or (key.hgatp, key.name) not in certain:
                by_entry.setdefault((key.hgatp, entry.step(), key.is_call, key.is_foreign), []).append(key)
        return map(self.finding, by_entry.values())

    def finding(self, keys: list[Key]) -> Finding:
        """What is known of registers that are lost first at the same entry."""
        (hgatp, _, is_call, is_foreign), (entry, _) = keys[0], self.first[keys[0]]
        assert entry.left
        left, names = entry.left.state.numbers["steps"], [key.name for key in keys]
        cause = article(entry.left.trap["words"] if entry.left.trap else "trap")
        lines = [f"it was left at step {left} by {cause}, and goes on at step {entry.step()}"]
        for key in keys[:SHOWN]:
            _, change = self.first[key]
            count = counted(self.counts[key], "entry", "entries")
            lines += [f"{change.line('->')}, and at {count} in all", *owners_of(entry, change)]
        if keys[SHOWN:]:
            lines.append(f"and {counted(len(keys) - SHOWN, 'register')} more")
        if hgatp in self.several:
            lines.append("it also goes on where it was not left: it may have several harts under one hgatp")
        shown = ", ".join(names[:4]) + (f" and {len(names) - 4} more" if names[4:] else "")
        over = "a call" if is_call else "an exit that is not a call"
        is_suspected = is_call and not is_foreign or hgatp in self.several
        return Finding(Rank.LOST, entry.step(), f"{guest_of(hgatp)} finds {shown} changed over {over}", lines,
                       f"entered {max(left - 1, self.runs.first)} {entry.step()}", is_suspected)


def owners_of(entry: Entry, change: Change) -> Iterator[str]:
    """Whose the value is that is found, where another guest's guest was left with it."""
    is_integer = change.name in registers.INTEGER
    name = f"x{registers.INTEGER.index(change.name)}" if is_integer else change.name
    value = entry.after.numbers.get(name)
    for hgatp, left in entry.all_left.items():
        if hgatp != entry.hgatp() and value and left.state.numbers.get(name) == value:
            step = left.state.numbers["steps"]
            yield f"{change.name} was {value:x} where {guest_of(hgatp)} was left last, at step {step}"


class Stay(NamedTuple):
    """A time in which VSTIP stays set: from which entry on, what has set it, the last entry, and in how many of
    the visits VS took the interrupt."""
    since: int
    origin: Origin | None
    last: int
    visits: int


class Ticks:
    """The timer's interrupts that VS takes while hvip.VSTIP stays set from one entry to the next."""

    def __init__(self, run: Run, ticks: dict[int, int]) -> None:
        self.run, self.ticks = run, ticks
        self.stays: dict[int, Stay] = {}
        self.longest: dict[int, Stay] = {}

    def take(self, entry: Entry) -> None:
        hgatp, step = entry.hgatp(), entry.step()
        if not entry.after.numbers["hvip"] >> VSTIP & 1:
            self.stays.pop(hgatp, None)
            return
        stay = self.stays.get(hgatp, Stay(step, self.run.origins.get("hvip"), step, 0))
        stay = stay._replace(last=step, visits=stay.visits + (step in self.ticks))
        self.stays[hgatp] = stay
        if stay.visits >= max(MOST_TICKS, self.longest.get(hgatp, stay).visits):
            self.longest[hgatp] = stay

    def findings(self, shown: Shown) -> Iterator[Finding]:
        for hgatp, stay in self.longest.items():
            lines = [f"from step {stay.since} to step {stay.last} each entry of {guest_of(hgatp)} had "
                     f"hvip.VSTIP set, and in {stay.visits} of these visits VS took the interrupt"]
            if stay.origin and stay.origin.how == "write":
                lines.append(f"hvip was written last before by {shown(stay.origin.place)}")
            lines.append("VSTIP is read-only in VS: only the hypervisor clears it, in hvip")
            yield Finding(Rank.REPEATED, stay.since, "VS takes its timer's interrupt again and again, since "
                          "hvip.VSTIP stays set", lines, f"traps {stay.since} {stay.last}", is_suspected=True)
