"""Traps after which a run does not go on: why they come again, or why the guest stopped."""
from collections.abc import Iterator

from nesthv_tools import (
    csr_effects, event_logs, kept_registers, logged_traps, presentation, registers, saves, shown_traps,
    trap_causes, trap_groups, walks)
from nesthv_tools.event_logs import Line
from nesthv_tools.findings import Finding, Rank
from nesthv_tools.sessions import Session
from nesthv_tools.trap_groups import Events, Group
from nesthv_tools.wording import article, counted

SRET = 0x10200073
STVAL, HTVAL = 0x143, 0x643
GUEST_PAGE = (20, 21, 23)
ACCESSES = {1: walks.FETCH, 5: walks.LOAD, 7: walks.STORE, 12: walks.FETCH, 13: walks.LOAD,
            15: walks.STORE, 20: walks.FETCH, 21: walks.LOAD, 23: walks.STORE}
FETCHES, ILLEGAL, BREAKPOINT = (0, 1, 12, 20), 2, 3
DELEGATED = (0, 2, 3, 4, 6, 8, 12, 13, 15)  # causes that hypervisors mostly leave to the kernel in VS
MOST_LOOKED, MOST_BEFORE = 10, 64  # groups, and steps before a trap
MOST_HANDLER = 200000  # steps after the last trap, in which it is looked for a return


class Traps:
    """The traps of a run that ends at a step with a status."""

    def __init__(self, session: Session, events: Events, end: int, status: str) -> None:
        self.session, self.runs, self.events = session, session.runs, events
        self.end, self.status = end, status

    def findings(self) -> Iterator[Finding]:
        """Those that are taken again and again with no instruction in between, and the last one, where the
        guest stopped and did not return from it."""
        for number, group in enumerate(self.events.groups.values()):
            if group.is_stuck() or number < MOST_LOOKED and self.word_at(group.last - 1) == SRET:
                yield self.again(group)
        last = self.events.last
        if last and self.status == "stopped" and not last.is_call() and not self.is_left(last):
            yield self.gave_up(last)
        if self.status == "running":
            yield from self.circle()

    def circle(self) -> Iterator[Finding]:
        """A few traps that are taken in turn, again and again, up to the end."""
        found = self.events.circle()
        if not found or self.events.put > found[0][1] or self.end - found[-1][1] > 2 * (found[-1][1] - found[0][1]):
            return
        steps = len(found) * trap_groups.ROUNDS
        lines = [line for key, step in found for line in self.lines_of(step)]
        yield Finding(Rank.STUCK, found[0][1], f"the run goes round: the same {len(found)} traps are taken again and "
                      "again", [f"the last {steps} traps are these, in this order:", *lines],
                      f"traps {found[0][1]} {found[-1][1] + 1}", is_suspected=True)

    def again(self, group: Group) -> Finding:
        """What is known of a trap that is taken again and again."""
        is_at_end = group is self.events.last and self.status == "running" \
            and self.end - group.last <= group.period
        mode, before = group.key.mode, self.runs.at(group.last)
        where = "to the end" if is_at_end else f"to step {group.last}"
        between = f"{mode} executed no instruction in between" if group.retries == group.count - 1 else \
            f"the last time {mode} executed no instruction in between"
        lines = [*self.lines_of(group.last),
                 f"{group.count:,} times from step {group.first} {where}, and {between}",
                 *([f"and {group.times - 1:,} times more before, first at step {group.first_of_all}"]
                   if group.times > 1 else []),
                 *self.why_again(group, before)]
        who = f"{mode} does not go on" if is_at_end else f"{mode} did not go on for a while"
        words = f"{who}: {article(registers.cause_of(group.key.cause))} comes again and again"
        look = "last-trap" if is_at_end else f"last-trap --step {group.last + 1}"
        return Finding(Rank.STUCK if is_at_end else Rank.REPEATED, group.first, words, lines, look)

    def why_again(self, group: Group, before: saves.Saved) -> Iterator[str]:
        """Why such a trap is taken again, as far as the log shows what its handler did. One that a level
        takes from itself may come of its handler, and the one before it tells where this began."""
        cause = group.key.cause
        if cause in FETCHES and group.key.tval == group.key.pc or cause == ILLEGAL:
            yield from self.came_to(group)
        if group.key.level == group.key.mode == "HS" and cause == BREAKPOINT:
            yield "the handler goes back to the EBREAK: sepc has its address, and sepc + 4 is behind it"
        if not cause >> 63 and group.previous is not None:
            yield from self.before_these(group, group.previous)
        if cause == trap_groups.TIMER and group.key.level == "HS":
            yield "the interrupt stays pending while the clock is at least the timer: the handler neither " \
                "clears sie.STIE nor sets another time"
        page = group.key.page
        if cause in GUEST_PAGE and group.second is not None and page is not None and page != b"-":
            lines = list(self.steps(group.first + 1, group.second))
            words = [logged_traps.word_of(line) or 0 for line in lines]
            yield from why_not_mapped(self.session, before, int(page, 16), stores_in(lines))
            yield from what_is_read(words)

    def before_these(self, group: Group, step: int) -> Iterator[str]:
        """The trap before some, with its reasons, where it is an exception; a call only where a level takes these
        traps from itself."""
        before, trap = shown_traps.trap_at(self.session, step + 1)
        is_own = group.key.mode == group.key.level
        if trap and (is_own or not trap["cause"] >> 63 and trap["cause"] not in kept_registers.CALLS):
            yield f"the trap before these: {shown_traps.short_trap(self.session, step + 1)[1]}"
            if not trap["cause"] >> 63:
                yield from self.lines_of(step)[2:]

    def lines_of(self, step: int) -> list[str]:
        """The trap that the step after a state takes, with its reasons, and where its walk ends."""
        before, trap = shown_traps.trap_at(self.session, step + 1)
        lines = [f"taken at {self.session.line(before)}"]
        if trap is None:
            return lines
        word, _, _ = walks.fetched(before)
        lines.append(presentation.line_of_trap(trap))
        lines += trap_causes.reasons_of(self.session, before, word, trap)
        kind = ACCESSES.get(trap["cause"])
        if kind:
            found = walks.Translation(walks.view_of_access(before, word), trap["tval"])
            lines += filter(None, [where_it_ends(found, kind)])
        return lines

    def came_to(self, group: Group) -> Iterator[str]:
        """How the run came to the pc of the first of these traps."""
        pc, low = group.key.pc, max(self.runs.first, group.first - MOST_BEFORE)
        lines = list(self.runs.logged(["steps", "traps", "worlds"], low, group.first, has_all=True))
        while lines and (lines[-1].number("pc") == pc and lines[-1].kind != "enter" or lines[-1].kind == "leave"):
            lines.pop()
        if not lines:
            return
        last, mode = lines[-1], group.key.mode
        if last.kind == "enter":
            yield f"{mode} came to pc {pc:x} at step {last.step} by HS's SRET: sepc had this address"
            vstvec = self.runs.at(last.step).numbers["vstvec"]
            if vstvec & ~3 == pc:
                yield f"that is vstvec, which is {vstvec:x}: the kernel has not set it"
        elif last.kind == "trap":
            vector = "vstvec" if last.word("level") == "VS" else "stvec"
            value = self.runs.at(last.step).numbers[vector]
            yield f"{mode} came to pc {pc:x} at step {last.step} by {article(registers.cause_of(last.cause()))} to " \
                f"{last.word('level')}: {vector} is {value:x}" + ("" if value else ", and nothing has set it")
        else:
            yield f"{mode} came to pc {pc:x} by {self.session.line(self.runs.at(last.step))}"

    def gave_up(self, last: Group) -> Finding:
        """What is known of the last trap, from which the guest did not return before it stopped."""
        count = counted(self.end - last.last - 1, "step")
        cause = article(registers.cause_of(last.key.cause))
        words = f"the guest stopped after {cause}, and did not return from it"
        lines = [*self.lines_of(last.last), f"it stopped {count} later", *self.why_here(last)]
        return Finding(Rank.GAVE_UP, last.last, words, lines, "last-trap", bool(last.key.cause >> 63))

    def why_here(self, last: Group) -> Iterator[str]:
        """Why HS took a trap that a kernel in VS takes by itself, and what came before one of HS itself."""
        code, key = last.key.cause, last.key
        if key.mode == "HS" and last.previous is not None:
            yield f"the trap before it: {shown_traps.short_trap(self.session, last.previous + 1)[1]}"
        if key.level == "HS" and key.mode[0] == "V" and code in DELEGATED:
            hedeleg = self.runs.at(last.last).numbers["hedeleg"]
            yield f"hedeleg is {hedeleg:x}, without bit {code}: so HS takes it, and not the kernel in VS"

    def is_left(self, last: Group) -> bool:
        """Whether the level that took the last trap was left for another mode, or made an SRET, as far as
        there are few steps after it."""
        if self.events.entered > last.last or self.end - last.last > MOST_HANDLER:
            return True
        return any(line.mode != last.key.level or logged_traps.word_of(line) == SRET
                   for line in self.steps(last.last + 1, self.end))

    def steps(self, start: int, end: int) -> Iterator[Line]:
        """The lines of steps."""
        return self.runs.logged(["steps"], start, end, has_all=True)

    def word_at(self, step: int) -> int | None:
        """The word of the instruction that a step makes, or none."""
        lines = self.steps(step, step + 1) if step >= self.runs.first else iter(())
        return next((logged_traps.word_of(line) for line in lines), None)


def what_is_read(words: list[int]) -> Iterator[str]:
    """What the handler of a guest-page fault has read of it, by the words of its instructions."""
    read = {word >> 20 for word in words if csr_effects.is_csr(word)}
    if HTVAL not in read:
        yield "the handler has not read htval, which has the guest physical address" + (
            ", but stval, which has the virtual one" if STVAL in read else "")
    if any(word & 0x7F == 0x73 and word >> 12 & 7 == 4 for word in words):
        yield "the handler has read the instruction by HLVX: if it has emulated it, sepc + 4 is missing"


def stores_in(lines: list[Line]) -> dict[int, int]:
    """The doublewords that these steps write to, each with the last of them that does."""
    stored = ((line.step, event_logs.step_of(line).stored) for line in lines)
    return {access.place & ~7: step for step, access in stored if access}


def why_not_mapped(session: Session, before: saves.Saved, page: int, stored: dict[int, int]) -> Iterator[str]:
    """What the handler of a fault of a guest physical address did to the entry by which that is found. If it
    did nothing, whether it wrote the one of the address that htval is as it stands."""
    hgatp = before.numbers["hgatp"]
    wanted, other = place_of(before, hgatp, page), place_of(before, hgatp, page >> 2)
    if wanted in stored:
        yield f"the handler wrote the entry at {wanted:x} at step {stored[wanted]}, and it still refuses " \
            "the access"
        return
    if wanted is not None:
        yield f"the handler did not write the entry at {wanted:x}, by which guest physical {page:x} is found"
    if other in stored:
        yield f"it wrote the entry at {other:x}, of guest physical {page >> 2:x}, which is htval as it " \
            f"stands: by {session.line(session.runs.at(stored[other]))}"
        yield "htval is the guest physical address shifted right by 2: it seems that it is not shifted back"
    elif wanted is not None:
        near = next((place for place in stored if place >> 12 == wanted >> 12), None)
        if near is not None:
            yield f"it wrote the entry at {near:x} of that table, by {session.line(session.runs.at(stored[near]))}"


def place_of(saved: saves.Saved, hgatp: int, page: int) -> int | None:
    """The place of the last entry that the walk of a guest physical address meets, or none."""
    walk = walks.Walk(walks.Shape(hgatp, True), page, walks.View(saved, "HS", False).read)
    return walk.met[-1].place if walk.met else None


def where_it_ends(found: walks.Translation, kind: str) -> str:
    """The entry by which an access is refused, and why, in words, or nothing."""
    answer, walk, what = found.answers[kind], found.first, f"address {found.address:x}"
    if not answer.wrong:
        return ""
    if found.second and (walk is None or not walk.wrong and answer.fault == "guest-page"):
        walk, what = found.second.walk, f"guest physical {found.second.address:x}"
    last = walk.met[-1] if walk and walk.met else None
    if last is None or last.value is None or answer.fault == "access":
        return f"{what}: {answer.wrong}"
    return f"{what}: the entry of level {last.level} at {last.place:x} is {last.value:016x} " \
        f"({walks.letters_of(last.value)}): {answer.wrong}"
