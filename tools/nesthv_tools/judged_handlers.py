"""Judges what HS does in its own handlers, in a run that is followed: traps that it takes in them, SRET that does not
lead to VS or VU, and registers that have not got what was written.
"""
from collections.abc import Iterator

from nesthv_tools import csr_effects, fence_records, registers
from nesthv_tools.findings import Finding, Rank
from nesthv_tools.followed_runs import Place, Run, Shown, Trap, Watcher, Write
from nesthv_tools.wording import article, counted

HLV, WFI = 4, 0x10500073
VS_LINES, S_LINES = 0x444, 0x222
FETCHES = (0, 1, 2, 12)  # causes of traps where HS comes to no code of its own
LOST_AT_ONCE = (0, 1, 2, 3, 4, 5, 6, 7)  # what no handler takes by itself


class Noted:
    """What is found first, and how often."""

    def __init__(self, rank: Rank, place: Place, words: str, lines: list[str], is_suspected: bool) -> None:
        self.rank, self.place, self.words, self.lines = rank, place, words, lines
        self.is_suspected, self.count = is_suspected, 1


class Handlers(Watcher):
    """What is found of the handlers of HS."""

    def __init__(self, run: Run) -> None:
        self.run = run
        self.trap: Trap | None = None  # into HS, whose handler runs
        self.reads: set[str] = set()
        self.returned_to: tuple[Place, int, Trap | None] | None = None  # by SRET with SPV clear
        self.entries = 0
        self.clear_returns: list[tuple[Place, int]] = []
        self.noted: dict[str, Noted] = {}

    def note(self, rank: Rank, place: Place, words: str, lines: list[str], is_suspected: bool = False) -> None:
        if words in self.noted:
            self.noted[words].count += 1
        else:
            self.noted[words] = Noted(rank, place, words, lines, is_suspected)

    def wrote(self, write: Write) -> None:
        if write.is_read:
            self.reads.add(write.name)

    def entered(self, place: Place, hgatp: int) -> None:
        self.entries += 1
        self.trap, self.returned_to = None, None

    def trapped(self, trap: Trap) -> None:
        if trap.level != "HS":
            return
        back = self.returned_to
        if back and trap.place.step == back[0].step + 1 and trap.cause in FETCHES:
            self.to_hs(*back)
        elif self.trap and trap.place.mode == "HS" and not is_hlv(trap.place):
            self.nested(self.trap, trap)
        self.trap, self.returned_to = trap, None
        self.reads.clear()

    def nested(self, outer: Trap, trap: Trap) -> None:
        """A trap in HS's own handler."""
        cause, first = (article(registers.cause_of(each.cause)) for each in (trap, outer))
        if outer.place.mode == "HS" and not outer.cause >> 63:
            return
        is_read = "sepc" in self.reads
        lines = [f"the handler is that of {first}, which was taken from {outer.place.mode} at pc {outer.place.pc:x} "
                 f"at step {outer.place.step}"]
        if trap.cause >> 63 and not is_read:
            origin = self.run.origins.get("sstatus")
            lines.append("sepc, scause and hstatus.SPV of the first trap are lost: sstatus.SIE is set too early")
            if origin and origin.how == "write":
                lines.append(f"sstatus was written at step {origin.place.step}")
            self.note(Rank.GAVE_UP, trap.place, f"{cause} is taken in HS's own handler before it has read sepc", lines)
        elif not trap.cause >> 63 and (trap.cause in LOST_AT_ONCE or not is_read):
            lines.append(f"stval {trap.tval:x}")
            self.note(Rank.GAVE_UP, trap.place, f"HS's own handler traps: {cause}", lines, is_read)

    def returned(self, place: Place) -> None:
        run = self.run
        hstatus = run.origins.get("hstatus")
        if hstatus and hstatus.place == place and hstatus.before & csr_effects.SPV:
            return
        trap, self.trap = self.trap, None
        target = run.numbers["sepc"]
        self.returned_to = place, target, trap
        if trap and trap.place.mode[0] == "V" and target in (trap.place.pc, trap.place.pc + 4):
            self.to_hs(place, target, trap)
        elif run.numbers["hgatp"] and not self.entries and len(self.clear_returns) < 4 \
                and not (trap and trap.place.mode == "U"):
            self.clear_returns.append((place, target))

    def to_hs(self, place: Place, target: int, trap: Trap | None) -> None:
        """Notes an SRET that should have led to VS or VU."""
        if not (self.entries or self.run.numbers["hgatp"] or trap and trap.place.mode[0] == "V"):
            return
        origin, lines = self.run.origins.get("hstatus"), []
        if trap and trap.place.mode == "HS":
            lines.append(f"the trap at step {trap.place.step}, from HS itself, has cleared it")
        elif origin and origin.how == "write":
            lines.append(f"hstatus was written at step {origin.place.step}: {origin.before:x} before")
        elif not origin:
            lines.append("nothing has set it")
        self.note(Rank.SERVED, place, f"SRET goes to HS at {target:x} in place of VS: hstatus.SPV is clear", lines)

    def findings(self, shown: Shown, is_entered: bool) -> Iterator[Finding]:
        if not is_entered:
            for place, target in self.clear_returns[:1]:
                self.to_hs(place, target, None)
        for each in self.noted.values():
            times = [f"{counted(each.count, 'time')} in all"] if each.count > 1 else []
            yield Finding(each.rank, each.place.step, each.words, [f"at {shown(each.place)}", *each.lines, *times],
                          f"trace {max(each.place.step - 8, 0)} {each.place.step + 8}", each.is_suspected)


def is_hlv(place: Place) -> bool:
    word = place.word or 0
    return word & 0x7F == 0x73 and word >> 12 & 7 == HLV


class Writes(Watcher):
    """Registers that have not got what was written, where nothing has read that back."""

    def __init__(self, run: Run) -> None:
        self.run = run
        self.unread: dict[str, Write] = {}
        self.noted: dict[tuple[str, int], tuple[Write, str]] = {}

    def wrote(self, write: Write) -> None:
        if write.is_read:
            self.unread.pop(write.name, None)
        if write.place.mode != "HS" or write.value is None:
            return
        if write.name == "hgatp":
            self.unread.pop("hgatp", None)
            if write.value != write.after:
                self.unread["hgatp"] = write
        elif write.name in ("stvec", "vstvec") and write.value & 2:
            self.note(write, "an address of a handler is a multiple of 4: bit 1 is not held, and bit 0 is MODE")
        elif write.name == "sepc" and write.value & 3:
            self.note(write, "sepc is a multiple of 4 here: there are no compressed instructions")
        elif write.name in ("hideleg", "hie", "hvip"):
            lost = write.value & ~write.after
            if lost & S_LINES and not write.value & VS_LINES:
                self.note(write, "its bits are 2, 6 and 10, of VS: 1, 5 and 9 are those of S")

    def note(self, write: Write, why: str) -> None:
        self.noted.setdefault((write.name, write.place.pc), (write, why))

    def entered(self, place: Place, hgatp: int) -> None:
        write = self.unread.pop("hgatp", None)
        if write and write.value is not None:
            self.note(write, why_hgatp(write.value))

    def findings(self, shown: Shown) -> Iterator[Finding]:
        for write, why in self.noted.values():
            lines = [f"written by {shown(write.place)}", why]
            yield Finding(Rank.WRITTEN, write.place.step, f"{write.name} has {write.after:x} where "
                          f"{write.value or 0:x} was written", lines, f"at {write.place.step + 1}",
                          write.name in ("hideleg", "hie", "hvip"))


def why_hgatp(value: int) -> str:
    """Why hgatp does not take a value."""
    if value >> 60 not in csr_effects.MODES:
        return f"MODE {value >> 60} is none of this machine, and such a write changes nothing: 8 is Sv39x4, 9 Sv48x4"
    if value & 3:
        return "a root of hgatp has 16 KiB, so its page number is a multiple of 4"
    if value >> 44 & ~0xFF & 0x3FFF or value >> 44 & 0x80:
        return f"a VMID has 7 bits here, so that VMID {value >> 44 & 0x3FFF} is VMID {fence_records.vmid_of(value)}"
    return "the other bits are not held"
