"""Traps of a run that follow each other and are the same, by the log, and whether the run went on between
them. Calls that the environment does not have, and VMIDs with two roots."""
import collections
from collections.abc import Iterable
from typing import NamedTuple

from nesthv_tools import fence_records, kept_registers
from nesthv_tools.event_logs import Line

LEAST = 3  # traps that are the same
MOST_GROUPS, MOST_VISITS = 100, 20000  # that are kept
TIMER = 1 << 63 | 5
RECENT, MOST_PERIOD, ROUNDS = 64, 8, 4  # traps at the end, how many make a circle, and how often it is made
CALLS, UNKNOWN = (0, 1, 2, 8), 2**64 - 2  # of the environment, and its answer to others


class Key(NamedTuple):
    """What is the same of two traps: the mode and pc from which they were taken, the level that took them,
    and what they tell."""
    mode: str
    pc: int
    level: str
    cause: int
    tval: int
    page: bytes | None

    @classmethod
    def of(cls, line: Line) -> "Key":
        return cls(line.mode, line.number("pc"), line.word("level"), line.cause(), line.number("tval"),
                   line.found["gpa"])


class Group:
    """Traps that follow each other and are the same: the steps of the first, the second and the last, and how
    many there are. It also has how many of them were taken where no instruction had been executed since the
    one before, and the most steps from one to the next. `previous` is the step of the trap before them, or
    none."""

    def __init__(self, line: Line, previous: int | None = None) -> None:
        self.key, self.first, self.last, self.previous = Key.of(line), line.step, line.step, previous
        self.second: int | None = None
        self.count, self.retries, self.period = 1, 0, 0
        self.times, self.first_of_all = 1, line.step  # how often there was such a group

    def add(self, line: Line, is_retry: bool) -> None:
        """Takes the next trap, which is the same."""
        self.second = line.step if self.second is None else self.second
        self.count, self.retries = self.count + 1, self.retries + is_retry
        self.period, self.last = max(self.period, line.step - self.last), line.step

    def is_stuck(self) -> bool:
        """Whether it was taken again and again with no instruction in between."""
        return self.retries >= LEAST - 1

    def is_call(self) -> bool:
        return self.key.cause in kept_registers.CALLS

    def is_by_sret(self) -> bool:
        """Whether the level that took it is left by an SRET that the log of traps does not tell."""
        return self.key.level == "VS" or self.key.mode[0] != "V"


class Call(NamedTuple):
    """A call that the environment does not have: its number, where it is made, and how often."""
    number: int
    step: int
    mode: str
    pc: int
    times: int


class Roots:
    """The roots of each VMID. It has where a VMID got another root with no fence in between that names all of it:
    the two values of hgatp, the step of the entry, and how often; and where two VMIDs have one root, with the step."""

    def __init__(self) -> None:
        self.held: dict[int, int] = {}
        self.owners: dict[int, int] = {}
        self.shared: dict[tuple[int, int], tuple[int, int]] = {}
        self.found: dict[int, tuple[int, int, int, int]] = {}

    def take(self, line: Line) -> None:
        if line.kind == "fence":
            if line.word("fence") == "hfence.gvma" and line.word("page") == "all":
                named = line.word("id").split()[1]
                for vmid in list(self.held) if named == "all" else [int(named)]:
                    self.held.pop(vmid, None)
            return
        hgatp = line.number("hgatp")
        vmid, before = fence_records.vmid_of(hgatp), self.held.get(fence_records.vmid_of(hgatp), hgatp)
        if hgatp:
            owner = self.owners.setdefault(hgatp & (1 << 44) - 1, vmid) if len(self.owners) < MOST_GROUPS else vmid
            if owner != vmid:
                self.shared.setdefault((owner, vmid), (line.step, hgatp))
            self.held[vmid] = hgatp
            if before != hgatp:
                count = self.found[vmid][3] if vmid in self.found else 0
                front = self.found[vmid][:3] if count else (before, hgatp, line.step)
                self.found[vmid] = *front, count + 1


class Events:
    """What the log of a run tells of its traps and of its visits to V = 1. It has the groups in which the run
    was stuck, or may have been, and the last group; and the steps of the last entry, of the last exit, and of the
    last byte that was put. By the step after an entry it has how many timer interrupts VS took until it was left."""

    def __init__(self, lines: Iterable[Line] = ()) -> None:
        self.groups: dict[Key, Group] = {}
        self.last: Group | None = None
        self.traps = self.visits = self.lines = 0
        self.entered = self.left = self.put = -1
        self.ticks: dict[int, int] = {}
        self.recent: collections.deque[tuple[Key, int]] = collections.deque(maxlen=RECENT)
        self.calls: dict[int, Call] = {}
        self.exits: dict[int, tuple[int, int]] = {}  # the last of each guest's guest: its step and its cause
        self.roots = Roots()
        for line in lines:
            self.take(line)
        self.keep()

    def take(self, line: Line) -> None:
        self.lines += 1
        if line.kind in ("enter", "fence"):
            self.roots.take(line)
        if line.kind == "enter":
            self.entered, self.visits = line.step, self.visits + 1
        elif line.kind == "leave":
            self.left = line.step
            if len(self.exits) < MOST_GROUPS or line.number("hgatp") in self.exits:
                self.exits[line.number("hgatp")] = line.step, line.cause()
        elif line.kind == "put":
            self.put = line.step
        elif line.kind == "trap":
            self.trap(line)
        elif line.kind == "call":
            self.call(line)

    def call(self, line: Line) -> None:
        """Takes a call, if the environment does not have it."""
        number = int(line.found["call"])
        if number not in CALLS:
            known = self.calls.get(number, Call(number, line.step, line.mode, line.number("pc"), 0))
            self.calls[number] = known._replace(times=known.times + 1)

    def trap(self, line: Line) -> None:
        """Takes a trap."""
        self.traps += 1
        key = Key.of(line)
        self.recent.append((key, line.step))
        if line.word("level") == "VS" and line.cause() == TIMER and len(self.ticks) < MOST_VISITS:
            self.ticks[self.entered + 1] = self.ticks.get(self.entered + 1, 0) + 1
        if self.last and self.last.key == key:
            self.last.add(line, self.is_retry(self.last, line))
        else:
            self.keep()
            self.last = Group(line, self.last.last if self.last else None)

    def is_retry(self, group: Group, line: Line) -> bool:
        """Whether the step before was an entry into V = 1, or a trap."""
        return not group.is_call() and line.step - 1 in (self.entered, group.last)

    def keep(self) -> None:
        """Keeps the last group, where the run was stuck in it, or may have been. The same at another time is
        counted with the first, and the last of all is kept too."""
        group = self.last
        if not group or not (group.is_stuck() or group.count >= LEAST and group.is_by_sret()
                             and not group.is_call()):
            return
        known = self.groups.get(group.key)
        if known and known is not group:
            group.times, group.first_of_all = known.times + 1, known.first_of_all
        if known or len(self.groups) < MOST_GROUPS:
            self.groups[group.key] = group

    def forget(self) -> None:
        """Takes what follows as not next to what came before."""
        self.keep()
        self.last = None
        self.roots.held.clear()

    def circle(self) -> list[tuple[Key, int]]:
        """The traps of which the end is made, again and again and in order, where these are a few; else none. They
        are more than one, and not calls and interrupts alone."""
        keys = [key for key, _ in self.recent]
        for period in range(2, MOST_PERIOD + 1):
            last = keys[-period * ROUNDS:]
            if len(last) == period * ROUNDS and last[:-period] == last[period:]:
                found = list(self.recent)[-period:]
                is_fault = any(not key.cause >> 63 and key.cause not in kept_registers.CALLS for key in last)
                return found if is_fault and len(set(last)) > 1 else []
        return []
