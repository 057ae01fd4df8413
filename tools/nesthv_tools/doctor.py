"""Looks at a run as a user would who does not know what is wrong. It reads the log of traps, entries, calls and fences
of the whole run, as far as it has room, and follows each step of the beginning and of the end: of all, where the run is
short. What it says is what the log or a state shows; what need not be a fault, it says is suspected; and what hardware
may do and this machine does not, is possible.
"""
import time
from collections.abc import Iterable, Iterator
from typing import Any

from nesthv_tools import (
    fences, followed_runs, judged_exits, judged_handlers, lost_registers, possible_uses, registers, saves,
    sessions, shown_places, stale_uses, streams, stuck_traps, trap_causes, trap_groups, verdicts)
from nesthv_tools.fence_records import Fences
from nesthv_tools.findings import Finding, Rank, worst_first
from nesthv_tools.followed_runs import Place
from nesthv_tools.sessions import Session
from nesthv_tools.wording import article, counted, guest_of

STEPS_A_SECOND, LINES_A_SECOND = 40000, 15000  # that are followed, and read, for each second of --time
EVENT = 4  # how many steps an event takes as long as
AT_END = 4  # the part of the steps, or lines, that is of the end
KINDS = ("traps", "worlds", "calls", "fences")
LOOP, MOST_LOOP, SHOWN = 10000, 64, 8  # steps at the end; how many instructions a loop has, and are shown
SWEEP = 16  # places of memory, by which a loop is one that goes on
MOST_DROPS, STEPS_OF_DROPS = 12, 2000000  # runs without translations, and the steps that they make
ALONE = 1000  # steps of HS without an entry, which are many
END_OF_TIME = 1 << 62
ECALL = 10
SOON = 10.0  # seconds after which findings are told as they come


class Window:
    """A part of a run that is followed, and what its steps show."""

    def __init__(self, doctor: "Doctor", start: int, end: int) -> None:
        runs = doctor.runs
        self.doctor, self.start, self.end = doctor, start, end
        run = self.run = followed_runs.Run(runs.at(start))
        lost, self.ticks = lost_registers.Lost(runs, run), lost_registers.Ticks(run, doctor.events.ticks)
        self.lost, fenced = lost, Fences()
        self.stale, self.possible = stale_uses.Uses(run, fenced), possible_uses.Uses(run, fenced)
        self.exits = judged_exits.Exits(run, lost, self.ticks)
        self.handlers, self.writes = judged_handlers.Handlers(run), judged_handlers.Writes(run)
        run.watchers += [fenced, self.stale, self.possible, self.exits, self.handlers, self.writes]
        followed_runs.follow(runs, run, start, end, lambda step: doctor.session.tell(step, doctor.end))

    def findings(self) -> Iterator[Finding]:
        shown = self.doctor.shown
        self.doctor.mark(self.stale)
        yield from self.handlers.findings(shown, self.doctor.events.visits > 0)
        yield from self.exits.findings(shown)
        yield from self.lost.findings()
        yield from self.ticks.findings(shown)
        yield from self.stale.findings(shown)
        yield from self.writes.findings(shown)
        yield from self.possible.findings(shown, self.is_known)

    def is_known(self, is_second: bool, hgatp: int, page: int) -> bool:
        return self.stale.has(is_second, hgatp, page)


class Doctor:
    """Looks at the run of a session."""

    def __init__(self, session: Session) -> None:
        self.session, self.runs, self.began = session, session.runs, time.monotonic()
        self.last = self.runs.at(self.runs.last)
        self.end, self.status = self.last.numbers["steps"], saves.STATUSES[self.last.numbers["status"]]
        self.seconds: int = session.options.time
        self.drops = self.followed = 0
        self.unread: tuple[int, int] | None = None  # the steps whose events are not read
        self.found: list[Finding] = []
        self.notes: list[str] = []
        session.doing = self.progress
        self.events = self.read()

    def progress(self, low: int, high: int) -> str:
        return f"{counted(len(self.found), 'finding')} so far, now at step {low:,} of {high:,}"

    def read(self) -> trap_groups.Events:
        """The events of the run; where there are too many, those of the beginning and of the end."""
        events, most = trap_groups.Events(), self.seconds * LINES_A_SECOND
        for line in self.runs.logged(KINDS, self.runs.first, self.end):
            events.take(line)
            if not events.lines & 0xFFFF:
                self.session.tell(line.step, self.end)
            if events.lines >= most and line.step < self.end - 1:
                rate = events.lines / max(1, line.step - self.runs.first)
                later = max(line.step + 1, self.end - int(most / AT_END / rate))
                events.forget()
                self.unread = line.step + 1, later
                for each in self.runs.logged(KINDS, later, self.end):
                    events.take(each)
                break
        events.keep()
        return events

    def windows(self) -> list[tuple[int, int]]:
        """The parts of the run whose steps are followed."""
        first, steps = self.runs.first, max(1, self.end - self.runs.first)
        if self.unread:
            steps -= self.unread[1] - self.unread[0]
        most = int(self.seconds * STEPS_A_SECOND / (1 + EVENT * self.events.lines / steps))
        if self.end - first <= most:
            return [(first, self.end)]
        part = most // AT_END
        return [(first, first + most - part), (self.end - part, self.end)]

    def look(self) -> None:
        """Finds what there is, the stages one after the other."""
        traps = stuck_traps.Traps(self.session, self.events, self.end, self.status)
        self.take(traps.findings())
        self.take(self.waiting())
        self.take(self.alone())
        self.take(self.calls())
        self.take(self.verdict())
        for start, end in self.windows():
            self.follow(start, end)
        self.take(self.roots())
        self.take(self.starved())
        if any(each.rank <= Rank.LOST for each in self.found):
            self.take(self.shared())
        if self.status == "running" and not any(each.rank <= Rank.SERVED for each in self.found):
            self.take(self.loop())
            self.take(self.never_delivered())

    def follow(self, start: int, end: int) -> None:
        """Finds what these steps show."""
        window = Window(self, start, end)
        self.followed += end - start
        self.take(window.findings())
        self.notes += window.possible.notes()

    def take(self, found: Iterable[Finding]) -> None:
        """Takes findings as they come, and tells of them where it takes long."""
        for each in found:
            known = {other.head() for other in self.found}
            self.found.append(each)
            if each.head() not in known and time.monotonic() - self.began > SOON:
                streams.say(f"found: {each.head()}")

    def shown(self, place: Place) -> str:
        return shown_places.line_of(self.session, place)

    def looked_at(self) -> str:
        """What there was to look at, in words."""
        steps = self.end - self.runs.first
        parts = [counted(steps, "step") + ("" if self.followed >= steps else f", {self.followed:,} of them singly"),
                 counted(self.events.traps, "trap"),
                 counted(self.events.visits, "entry", "entries") + " into V = 1",
                 counted(self.drops, "drop") + " of cached translations"]
        cut = f"; the events of steps {self.unread[0]} to {self.unread[1]} are not read: --time N reads more" \
            if self.unread and self.unread[0] < self.unread[1] else ""
        return ", ".join(parts) + f", and the last state, which is {self.status}" + cut

    def mark(self, found: stale_uses.Uses) -> None:
        """Says of the first stale uses whether the report changes without the translation."""
        steps = max(1, self.end - self.runs.first)
        plain = None
        for use in list(found.found.values())[:min(MOST_DROPS, STEPS_OF_DROPS // steps)]:
            is_held = use.first.mode[0] == "V" and use.entered is not None and (use.since or 0) < use.entered
            drop = fences.Drop(self.runs, use.entered if is_held and use.entered else use.first.step,
                               use.first.mode[0] != "V")
            plain = plain or self.runs.call("run", self.session.guest.keys, self.session.guest.steps).read()
            is_same = drop.report() == plain
            self.drops += 1
            use.effect = "the report is the same without it: another input or moment may show it" if is_same else \
                "the report changes without it"

    def waiting(self) -> Iterator[Finding]:
        """Why nothing wakes a guest that waits."""
        if self.status != "waiting":
            return
        pending = [f"pending {name}: {words}" for name, words in registers.lines_of_pending(self.last)]
        lines = [f"it waits at {self.session.line(self.last)}", *(pending or ["nothing is pending"]), *self.wakes()]
        if self.events.visits and self.last.mode() == "HS":
            lines.append(f"no entry into V = 1 since step {self.events.entered}")
        words = f"the guest waits for good in {self.last.mode()}"
        yield Finding(Rank.STUCK, self.end, words, lines, "at end")

    def wakes(self) -> Iterator[str]:
        """Why neither the timer nor an input ends a wait."""
        number = self.last.numbers
        timer = number["timer"]
        if timer == registers.NEVER:
            yield "no timer is set"
        elif timer >= END_OF_TIME:
            yield f"the timer is {timer}, behind the end of time, 2^62"
        elif not number["sie"] >> 5 & 1:
            yield f"the timer is {timer}, and sie.STIE is clear"
        if self.last.inputs and not number["sie"] >> 9 & 1:
            yield f"{counted(len(self.last.inputs), 'input')} are unread, and sie.SEIE is clear"

    def alone(self) -> Iterator[Finding]:
        """HS that has run alone for long, up to the end."""
        since = self.events.left
        steps = self.end - since
        if self.status != "running" or self.last.mode()[0] == "V" or not self.events.visits \
                or steps < max(ALONE, (self.end - self.runs.first) // 5):
            return
        pending = [f"pending {name}: {words}" for name, words in registers.lines_of_pending(self.last)]
        yield Finding(Rank.LOOP, since, f"no entry into V = 1 since step {self.events.entered}: HS has run alone for "
                      f"{steps:,} steps", [f"it is at {self.session.line(self.last)}", *pending], "at end",
                      is_suspected=True)

    def calls(self) -> Iterator[Finding]:
        """Calls that the environment does not have."""
        for call in self.events.calls.values():
            name = trap_causes.EXTENSIONS.get(call.number, "")
            lines = [f"first by {self.session.line(self.runs.at(call.step))}", "calls here are 0 (timer), 1 (put a "
                     "byte), 2 (read an input) and 8 (stop), by a7: no other one does anything"]
            if name:
                lines.append(f"{call.number:x} is the SBI's extension {name}, which this environment has not")
            yield Finding(Rank.CALLED, call.step, f"call {call.number} is none of the environment's, and is answered "
                          f"with -2, {counted(call.times, 'time')}", lines, f"trace {call.step} {call.step + 4}")

    def verdict(self) -> Iterator[Finding]:
        """What the guest says of itself."""
        section: Any = {"status": self.status, "console": self.last.console.decode("latin-1")}
        number = verdicts.verdict_of(section) if self.status == "stopped" else 0
        if number:
            yield Finding(Rank.ENDED, self.end, f"the guest itself ends with exit {number}",
                          ["the last line of its console says so"], "last-trap")

    def roots(self) -> Iterator[Finding]:
        """VMIDs with two roots, as far as the steps have not shown them."""
        said = " ".join(each.words for each in self.found if each.is_possible)
        for vmid, (one, other, step, count) in self.events.roots.found.items():
            if f"VMID {vmid} is used for two roots" not in said:
                yield Finding(Rank.STALE, step, f"VMID {vmid} is used for two roots without a fence in between that "
                              f"names all of it, {counted(count, 'time')}: hardware may use translations of the other "
                              "one", [f"hgatp was {one:x}, and at the entry at step {step} it is {other:x}"],
                              f"entered {max(step - 1, 0)} {step + 1}", is_possible=True)

    def shared(self) -> Iterator[Finding]:
        """VMIDs that have one root."""
        for (one, other), (step, hgatp) in self.events.roots.shared.items():
            yield Finding(Rank.STALE, step, f"VMID {one} and VMID {other} have the same root",
                          [f"hgatp is {hgatp:x} at the entry at step {step}: each sees the other's memory"],
                          f"entered {max(step - 1, 0)} {step + 1}", is_suspected=True)

    def starved(self) -> Iterator[Finding]:
        """A guest's guest that was left in the middle, and does not go on though another one does."""
        for hgatp, (step, cause) in self.events.exits.items():
            away = self.end - step
            if cause != ECALL and step < self.events.left and self.events.entered > step \
                    and away > max(ALONE, (self.end - self.runs.first) // 3):
                yield Finding(Rank.LOOP, step, f"{guest_of(hgatp)} has not been entered for the last {away:,} steps, "
                              "and others have", [f"it was left at step {step} by "
                                                  f"{article(registers.cause_of(cause))}"],
                              f"entered {max(step - 1, 0)} {self.events.entered + 1}", is_suspected=True)

    def never_delivered(self) -> Iterator[Finding]:
        """Interrupts that are pending at the end, and which VS cannot enable."""
        for name, words in registers.lines_of_pending(self.last):
            if "hideleg does not have it" in words:
                yield Finding(Rank.REPEATED, self.end, f"{name} is pending at the end, and VS cannot take it",
                              [f"pending {name}: {words}"], "at end", is_suspected=True)

    def loop(self) -> Iterator[Finding]:
        """A few instructions that are made again and again at the end, without a trap or a byte, and which do not
        go through memory."""
        start, trap = self.end - LOOP, self.events.last.last if self.events.last else 0
        if start < max(self.runs.first, self.events.put, self.events.entered, trap):
            return
        pcs, places = set[int](), set[bytes]()
        for line in self.runs.logged(["steps"], start, self.end, has_all=True):
            pcs.add(line.number("pc"))
            words = line.found[0].split()
            places.update(words[at + 1] for at, word in enumerate(words) if word in (b"read", b"write"))
        if len(pcs) <= MOST_LOOP and len(places) <= max(SWEEP, len(pcs)):
            states = map(self.runs.at, range(start, start + min(len(pcs), SHOWN)))
            made = counted(len(pcs), "instruction")
            words_of_it = f"the last {LOOP:,} steps are made of {made}, without a trap or a byte: it may loop"
            yield Finding(Rank.LOOP, start, words_of_it, [self.session.line(state) for state in states],
                          f"trace {start} {start + 2 * SHOWN}", is_suspected=True)


def shown(session: Session) -> int:
    """Prints what is found. The status is 1 where that is something."""
    if not session.runs.tracer:
        raise sessions.Bad("doctor goes by the log of nesthv-trace, which does not stand beside "
                           f"{session.program.path}")
    doctor = Doctor(session)
    doctor.look()
    found = worst_first(doctor.found)
    lines = [line for number, each in enumerate(found, 1) for line in each.lines(number)]
    lines += [f"permitted: {note}" for note in dict.fromkeys(doctor.notes)]
    lines.append(("" if found else "nothing is found: ") + f"looked at {doctor.looked_at()}")
    value: dict[str, Any] = {"found": [each.value() for each in found], "permitted": doctor.notes,
                             "looked_at": doctor.looked_at()}
    session.print(value, lines)
    return int(bool(found))
