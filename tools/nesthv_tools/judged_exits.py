"""Judges each exit of a guest's guest with the entry after it, in a run that is followed: where it goes on, in which
mode, and whether a trap that it is to take is whole.
"""
from collections.abc import Callable, Iterator
from typing import NamedTuple

from nesthv_tools import csr_effects, kept_registers, lost_registers, registers, registers_at, walks
from nesthv_tools.findings import Finding, Rank
from nesthv_tools.followed_runs import ABI, Place, Run, Shown, Trap, Watcher, Write
from nesthv_tools.kept_registers import Entry, Left
from nesthv_tools.wording import article, counted, guest_of

COUNTERS = (0xC00, 0xC01, 0xC02)  # whose reads never give what was there
LOAD = 0x03  # the opcode
ECALL, VIRTUAL, GUEST_PAGE, PAGE = 10, 22, (20, 21, 23), (12, 13, 15)
NEEDED = {20: walks.X, 21: walks.R, 23: walks.W}
INJECTED = {20: (12, 1), 21: (13, 5), 23: (15, 7), 22: (2,)}  # what VS takes in place of these
TELLING = ("stval", "htval", "htinst")
MOST_ENTRIES = 15000  # that are judged
ALIKE = 8  # registers that are not zero, by which two contexts are told apart


class Fault(NamedTuple):
    """What is wrong at an entry."""
    rank: Rank
    words: str
    lines: list[str]
    is_suspected: bool = False


class Judged(NamedTuple):
    """An exit with the entry after it, and what HS did in between."""
    trap: Trap
    before: registers_at.Seen
    after: registers_at.Seen
    hgatp: int
    reads: frozenset[str]
    run: Run

    @property
    def pc(self) -> int:
        return self.after.numbers["pc"]

    def skips(self) -> bool:
        """Whether the guest's guest goes on behind the instruction."""
        return self.pc == self.trap.place.pc + 4

    def cause(self) -> str:
        return article(registers.cause_of(self.trap.cause))

    def changed(self, name: str) -> bool:
        return bool(self.before.numbers[name] != self.after.numbers[name])


Rule = Callable[[Judged], Iterator[Fault]]


def skipped(judged: Judged) -> Iterator[Fault]:
    """An instruction that is not made, and behind which the guest's guest goes on."""
    trap, who = judged.trap, guest_of(judged.hgatp)
    if not judged.skips():
        return
    if trap.cause >> 63:
        yield Fault(Rank.SERVED, f"{who} goes on behind an instruction that it has not made, after {judged.cause()}",
                    ["sepc + 4 is for a call, or an instruction that is emulated: here sepc stays as it is"])
    elif trap.cause in GUEST_PAGE and trap.page is not None and not trap.htinst:
        walk = judged.run.second_walk(judged.hgatp, trap.page)
        if judged.hgatp and not walk.wrong and walk.leaf & NEEDED[trap.cause] and walk.leaf & walks.U:
            yield Fault(Rank.SERVED, f"{who} goes on behind an access that was not made: the page is mapped now, and "
                        "sepc + 4 skips the access", [f"guest physical {trap.page:x} has a leaf that permits it"])
        elif not judged.reads & {*TELLING, "hlv"}:
            yield Fault(Rank.SERVED, f"{who} goes on behind an access that nothing has emulated",
                        ["the handler has read none of stval, htval and htinst, nor the instruction by HLVX"])
    elif trap.cause in PAGE:
        yield Fault(Rank.SERVED, f"{who} goes on behind an access that was not made, after {judged.cause()}", [], True)
    elif trap.cause in (2, 22):
        yield from unread(judged, who)


def unadvanced(judged: Judged) -> Iterator[Fault]:
    """A load that is made in the guest's place, and which it makes once more."""
    target = (judged.trap.place.word or 0) >> 7 & 31
    if judged.trap.cause != 21 or judged.pc != judged.trap.place.pc or not target:
        return
    changed = [at for at in range(1, 32) if judged.changed(f"x{at}")]
    if changed == [target] and (judged.trap.place.word or 0) & 0x7F == LOAD:
        yield Fault(Rank.SERVED, f"{guest_of(judged.hgatp)} makes a load again that was emulated: sepc + 4 is missing",
                    [f"{registers.INTEGER[target]} has got {judged.after.numbers[f'x{target}']:x} for it"])


def misread(judged: Judged) -> Iterator[Fault]:
    """A load that is made in the guest's place, with a value that it cannot give."""
    word = judged.trap.place.word or 0
    target, kind = word >> 7 & 31, word >> 12 & 7
    if judged.trap.cause != 21 or not judged.skips() or word & 0x7F != LOAD or not target or kind == 3:
        return
    value, bits = judged.after.numbers[f"x{target}"], 8 << (kind & 3)
    low = value & (1 << bits) - 1
    wanted = low if kind & 4 or not low >> bits - 1 else low - (1 << bits) & 2**64 - 1
    if value != wanted:
        sign = "zeros" if kind & 4 else "its sign"
        yield Fault(Rank.SERVED, f"a load that was emulated for {guest_of(judged.hgatp)} has a value that it cannot "
                    "give",
                    [f"{registers.INTEGER[target]} is {value:x}, and a load of {bits} bits is extended by {sign}: "
                     f"{wanted:x}"])


def unread(judged: Judged, who: str) -> Iterator[Fault]:
    """A read of a register that is skipped, and whose target is as it was."""
    word = judged.trap.place.word or 0
    target = word >> 7 & 31
    if csr_effects.is_csr(word) and word >> 20 in COUNTERS and target and not judged.changed(f"x{target}"):
        name = registers.INTEGER[target]
        yield Fault(Rank.SERVED, f"{who} goes on behind a read of a register that was not emulated",
                    [f"{name} is what it was: {judged.after.numbers[f'x{target}']:x}"], True)


def misplaced(judged: Judged) -> Iterator[Fault]:
    """A call after which the guest's guest goes on at an odd distance."""
    away = judged.pc - judged.trap.place.pc
    if judged.trap.cause == ECALL and away in (2, 8):
        yield Fault(Rank.SERVED, f"{guest_of(judged.hgatp)} goes on {away} bytes behind a call, which has 4", [])


def mode_lost(judged: Judged) -> Iterator[Fault]:
    """A mode that is another one where the guest's guest goes on."""
    before, after = judged.before.mode(), judged.after.mode()
    if before != after and judged.pc - judged.trap.place.pc in (0, 4) and not kept_registers.takes_trap(
            judged.before, judged.after):
        origin = judged.run.origins.get("sstatus")
        yield Fault(Rank.LOST, f"{guest_of(judged.hgatp)} was left in {before} and goes on in {after}: sstatus.SPP "
                    "is lost", [f"sstatus was changed last at step {origin.place.step}, by {origin.how}"]
                    if origin and origin.how != "sret" else [])


def injected(judged: Judged) -> Iterator[Fault]:
    """A trap that a hypervisor has its guest take, and that is not whole."""
    before, number, trap = judged.before, judged.after.numbers, judged.trap
    base, pc = number["vstvec"] & ~3, trap.place.pc
    is_vectored = number["vscause"] >> 63 and number["vstvec"] & 1
    is_there = judged.pc == base and (judged.pc != pc or judged.changed("vsepc")) \
        or is_vectored and judged.pc == base + 4 * (number["vscause"] & 63)
    is_told = judged.changed("vsepc") and number["vsepc"] in (pc, pc + 4)
    if trap.cause == ECALL or not (is_there or is_told and judged.changed("vscause")):
        return
    if not number["vstvec"] and "vstvec" not in judged.run.origins:
        yield unset_vector(guest_of(judged.hgatp))
    wrong = list(parts_wrong(judged, bool(is_there)))
    if wrong:
        yield Fault(Rank.SERVED, f"a trap that the hypervisor has {guest_of(judged.hgatp)} take is not whole: "
                    + ", ".join(name for name, _ in wrong), [f"{name}: {words}" for name, words in wrong]
                    + [f"the exit was {judged.cause()} in {before.mode()} at pc {pc:x}"])


def untimed(judged: Judged) -> Iterator[Fault]:
    """A read of time that a kernel may not make, and for which it takes an illegal instruction."""
    word, numbers = judged.trap.place.word or 0, judged.run.numbers
    if judged.trap.cause == VIRTUAL and csr_effects.is_csr(word) and word >> 20 == 0xC01 \
            and not numbers["hcounteren"] & 2 and judged.changed("vsepc"):
        yield Fault(Rank.SERVED, f"a read of time of {guest_of(judged.hgatp)} becomes an illegal instruction: "
                    "hcounteren.TM is clear", ["on a machine of its own a kernel may read time"], True)


def unset_vector(who: str) -> Fault:
    return Fault(Rank.SERVED, f"{who} takes a trap, and goes to pc 0: vstvec is 0, and nothing has set it", [])


def parts_wrong(judged: Judged, is_there: bool) -> Iterator[tuple[str, str]]:
    """The registers of such a trap that are not what 8.6 has them be."""
    number, trap, was = judged.after.numbers, judged.trap, judged.before.numbers
    if not is_there:
        yield "sepc", f"the guest's guest goes on at {judged.pc:x}, and vstvec is {number['vstvec']:x}"
    if number["vsepc"] != trap.place.pc:
        yield "vsepc", f"it is {number['vsepc']:x}, and the instruction is at {trap.place.pc:x}"
    cause = number["vscause"]
    if cause >> 63:
        return
    expected = INJECTED.get(trap.cause, (trap.cause,))
    if not trap.cause >> 63 and cause not in expected:
        yield "vscause", f"it is {cause}, and not {expected[0]}"
    if cause in (*PAGE, 1, 5, 7) and trap.cause in (*PAGE, *GUEST_PAGE) and number["vstval"] != trap.tval:
        yield "vstval", f"it is {number['vstval']:x}, and the address is {trap.tval:x}"
    status, old = number["vsstatus"], was["vsstatus"]
    if bool(status & csr_effects.SPP) != (judged.before.mode() == "VS"):
        yield "vsstatus.SPP", f"it is {status >> 8 & 1}, and the trap is from {judged.before.mode()}"
    if status & csr_effects.SIE:
        yield "vsstatus.SIE", "it is set in the handler"
    elif bool(status & csr_effects.SPIE) != bool(old & csr_effects.SIE):
        yield "vsstatus.SPIE", "it is not what vsstatus.SIE was"
    if judged.after.mode() != "VS":
        yield "sstatus.SPP", "the handler is entered in VU"


RULES: tuple[Rule, ...] = (skipped, unadvanced, misread, misplaced, mode_lost, untimed, injected)


class Noted:
    """A fault with the first exit and entry at which it is, and how often it is."""

    def __init__(self, fault: Fault, judged: Judged | None, place: Place) -> None:
        self.fault, self.judged, self.place, self.count = fault, judged, place, 0

    def finding(self, shown: Shown) -> Finding:
        lines, judged, step = list(self.fault.lines), self.judged, self.place.step
        if judged:
            lines.append(f"it was left by {shown(judged.trap.place)}, {judged.cause()}, and goes on at step {step + 1}")
        else:
            lines.append(f"first by {shown(self.place)}")
        if self.count > 1:
            lines.append(f"{counted(self.count, 'time')} in all")
        start = judged.trap.place.step if judged else max(step - 1, 0)
        return Finding(self.fault.rank, step, self.fault.words, lines, f"entered {start} {step + 1}",
                       self.fault.is_suspected)


class Exits(Watcher):
    """What is wrong at the entries of a run. It also tells what is lost there, and of timer interrupts that stay
    pending."""

    def __init__(self, run: Run, lost: lost_registers.Lost, ticks: lost_registers.Ticks) -> None:
        self.run, self.lost, self.ticks = run, lost, ticks
        self.exits: dict[int, tuple[Trap, registers_at.Seen]] = {}
        self.left_at: dict[int, Left] = {}
        self.pcs: dict[int, set[int]] = {}
        self.reads: set[str] = set()
        self.count = 0
        self.again: tuple[int, int, int] | None = None  # a call that is entered again: hgatp, pc, and the step
        self.modes: dict[int, set[str]] = {}  # in which each guest's guest was
        self.found: dict[tuple[int, str], Noted] = {}

    def wrote(self, write: Write) -> None:
        if write.is_read:
            self.reads.add(write.name)

    def made(self, place: Place) -> None:
        if (place.word or 0) >> 12 & 7 == 4:
            self.reads.add("hlv")

    def trapped(self, trap: Trap) -> None:
        if trap.level == "HS" and trap.place.mode[0] == "V":
            self.reads.clear()
        elif trap.level == "VS" and not self.run.numbers["vstvec"] and "vstvec" not in self.run.origins:
            hgatp = self.run.numbers["hgatp"]
            self.note(unset_vector(guest_of(hgatp)), None, trap.place, hgatp)

    def seen(self, place: Place, step: int) -> registers_at.Seen:
        """The registers as they are, in the mode and at the pc of a place."""
        run = self.run
        general = {f"x{at}": int(run.registers[name], 16) for at, name in enumerate(ABI) if at}
        mode = ("HS", "U", "VS", "VU").index(place.mode)
        return registers_at.Seen({**run.numbers, **general, "mode": mode, "pc": place.pc, "steps": step})

    def left(self, trap: Trap, hgatp: int) -> None:
        if self.count >= MOST_ENTRIES:
            return
        seen, place = self.seen(trap.place, trap.place.step), trap.place
        modes = self.modes.setdefault(hgatp, set())
        modes.add(place.mode)
        if trap.cause == VIRTUAL and modes == {"VU"}:
            self.note(Fault(Rank.SERVED, f"{guest_of(hgatp)} was never in VS, and in VU makes an instruction of a kernel",
                            ["sstatus.SPP was clear at the SRET that entered it first"]), None, place, hgatp)
        self.exits[hgatp] = trap, seen
        value = {"cause": trap.cause, "words": registers.cause_of(trap.cause)}
        self.left_at = {**self.left_at, hgatp: Left(seen, value, place.word)}
        pcs = self.pcs.setdefault(hgatp, set())
        if len(pcs) < 1000:
            pcs.add(place.pc)
        if trap.cause == ECALL and self.again == (hgatp, place.pc, place.step - 1):
            self.note(Fault(Rank.SERVED, f"{guest_of(hgatp)} makes the same call again and again: it is entered again "
                            "at the ECALL", [f"a7 {seen.numbers['x17']:x}, a6 {seen.numbers['x16']:x}, "
                                             f"a0 {seen.numbers['x10']:x}",
                                             "a call is served with sepc + 4: sepc has the address of the ECALL"]),
                      None, place, hgatp)

    def entered(self, place: Place, hgatp: int) -> None:
        self.count += 1
        if self.count > MOST_ENTRIES:
            return
        after = self.seen(place, place.step + 1)
        entry = Entry(after, self.left_at.get(hgatp), self.left_at)
        self.ticks.take(entry)
        self.again = None
        if hgatp not in self.exits:
            self.first_entry(after, hgatp, place)
            return
        trap, before = self.exits[hgatp]
        judged = Judged(trap, before, after, hgatp, frozenset(self.reads), self.run)
        if trap.cause == ECALL and place.pc == trap.place.pc:
            self.again = hgatp, place.pc, place.step
        faults = [*self.elsewhere(judged), *(fault for rule in RULES for fault in rule(judged))]
        for fault in faults:
            self.note(fault, judged, place, hgatp)
        if not faults:
            self.lost.take(entry)

    def first_entry(self, after: registers_at.Seen, hgatp: int, place: Place) -> None:
        """Takes the first entry of a guest's guest, which may be the context of another one."""
        origin = self.run.origins.get("vsatp")
        if self.exits and origin and origin.place.mode[0] == "V" and after.numbers["vsatp"]:
            self.note(Fault(Rank.LOST, f"{guest_of(hgatp)} is entered first with vsatp of another guest's guest",
                            [f"vsatp is {after.numbers['vsatp']:x}, written in {origin.place.mode} at step "
                             f"{origin.place.step}: a hypervisor that switches exchanges it"]), None, place, hgatp)
        for other, (trap, before) in self.exits.items():
            if place.pc in (trap.place.pc, trap.place.pc + 4) and alike(before, after) >= ALIKE \
                    and alike(before, after) == held(after):
                self.note(wrong_context(other, hgatp), None, place, hgatp)

    def elsewhere(self, judged: Judged) -> Iterator[Fault]:
        """An entry at another place than the exit, which no trap explains."""
        before, after, pc = judged.before, judged.after, judged.trap.place.pc
        if judged.pc in (pc, pc + 4) or judged.pc == after.numbers["vstvec"] & ~3:
            return
        for other, (trap, seen) in self.exits.items():
            if other != judged.hgatp and judged.pc in (trap.place.pc, trap.place.pc + 4) \
                    and alike(seen, after) > alike(before, after) and alike(seen, after) >= held(after) - 2:
                yield wrong_context(other, judged.hgatp)
                return
        known = self.pcs.get(judged.hgatp, set())
        if judged.trap.cause != ECALL and not {judged.pc, judged.pc - 4} & known \
                and not judged.changed("vscause") and not after.numbers["vstvec"] & 1:
            yield Fault(Rank.LOST, f"{guest_of(judged.hgatp)} goes on at {judged.pc:x}, and was left at {pc:x} by "
                        f"{judged.cause()}", ["this is neither where it was left, nor vstvec"], True)

    def note(self, fault: Fault, judged: Judged | None, place: Place, hgatp: int) -> None:
        noted = self.found.setdefault((hgatp, fault.words), Noted(fault, judged, place))
        noted.count += 1

    def findings(self, shown: Shown) -> Iterator[Finding]:
        """Each in words, with the first place."""
        return (noted.finding(shown) for noted in self.found.values())


def alike(one: registers_at.Seen, other: registers_at.Seen) -> int:
    """How many integer registers of two states are the same, and not zero."""
    return sum(1 for at in range(1, 32) if one.numbers[f"x{at}"] and one.numbers[f"x{at}"] == other.numbers[f"x{at}"])


def held(state: registers_at.Seen) -> int:
    """How many integer registers are not zero."""
    return sum(1 for at in range(1, 32) if state.numbers[f"x{at}"])


def wrong_context(other: int, hgatp: int) -> Fault:
    return Fault(Rank.LOST, f"what was left under {guest_of(other)} goes on under {guest_of(hgatp)}",
                 [f"its pc and its registers are those of the exit under hgatp {other:x}, and hgatp is {hgatp:x}"])
