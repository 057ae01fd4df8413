"""Follows a run by its log: the registers, the control and status registers with what has changed each last, RAM with
the last store to each place, and the tables in it, at each step. Watchers are told of what happens.
"""
from collections.abc import Callable, Iterable
from typing import NamedTuple

from nesthv_tools import code_paths, csr_effects, guest_runs, registers, saves, tracers, walks

KINDS = ("traps", "worlds", "calls", "fences", "fills", "stale", "steps")
ENDS = (b"73", b"f3")  # of a word of opcode SYSTEM
SRET = 0x10200073
MOST_STORES = 150000  # places whose last store is known
ABI = [name.encode() for name in registers.INTEGER]
NESTED = (b"VS", b"VU")
Words = list[bytes]


class Place(NamedTuple):
    """Where a step is: its number, mode, pc, and the word of its instruction, or none."""
    step: int
    mode: str
    pc: int
    word: int | None = None


Shown = Callable[[Place], str]  # how a place is shown


class Origin(NamedTuple):
    """What has given a register its value: where, by `write`, `trap` or `sret`, and what it was before."""
    place: Place
    how: str
    before: int


class Trap(NamedTuple):
    """A trap: where it was taken, by which level, why, and with what."""
    place: Place
    level: str
    cause: int
    tval: int
    page: int | None
    htinst: int


class Write(NamedTuple):
    """An instruction on a register: what it is called there, what it wrote (none where it only reads), and what
    is read before and after it."""
    place: Place
    name: str
    value: int | None
    before: int
    after: int
    is_read: bool


class Fence(NamedTuple):
    """A fence: its name, the ASID or VMID and the page that it names, each or none, and hgatp."""
    place: Place
    name: str
    identifier: int | None
    page: int | None
    hgatp: int


class Translation(NamedTuple):
    """A cached translation in a line of fills or stale uses."""
    is_second: bool
    hgatp: int
    atp: int
    page: int
    frame: int
    rights: str


class Watcher:
    """Is told what happens in a run that is followed; each of these may be left out."""

    def made(self, place: Place) -> None:
        """Another instruction of opcode SYSTEM has been executed: WFI, HLV, a call, a fence."""

    def wrote(self, write: Write) -> None:
        """An instruction on a control and status register has been executed."""

    def returned(self, place: Place) -> None:
        """SRET has been executed in HS, and has had its effect."""

    def trapped(self, trap: Trap) -> None:
        """A trap has been taken, and has had its effect."""

    def left(self, trap: Trap, hgatp: int) -> None:
        """V has become 0 by this trap."""

    def entered(self, place: Place, hgatp: int) -> None:
        """V has become 1: the place is the next one."""

    def fenced(self, fence: Fence) -> None:
        """A fence has been executed."""

    def filled(self, place: Place, found: Translation) -> None:
        """A translation is cached."""

    def used_stale(self, place: Place, found: Translation, now: str, since: int | None) -> None:
        """A step uses a stale translation, which the step `since` has cached."""

    def used(self, place: Place, address: int, kind: str) -> None:
        """A page is used by an access that is translated, for the first time since a table or a register of one
        has changed."""

    def called(self, place: Place, number: int, argument: int, answer: int | None) -> None:
        """The environment has served a call."""


class Run:
    """A run that is followed from a state on."""

    def __init__(self, saved: saves.Saved) -> None:
        number = saved.numbers
        self.numbers = {name: number[name] for name in saves.REGISTERS}
        self.registers = {name: b"%x" % number[f"x{at}"] if at else b"0" for at, name in enumerate(ABI)}
        self.ram = bytearray(len(saved.ram))
        for at in range(0, len(self.ram), saves.PIECE):
            self.ram[at:at + saves.PIECE] = saved.ram[at:at + saves.PIECE]
        saved.ram.forget()
        self.origins: dict[str, Origin] = {}
        self.writes: dict[str, Write] = {}
        self.stores: dict[int, tuple[bytes, bytes, bytes, bytes]] = {}
        self.frames: set[int] = set()  # of tables that were walked
        self.seen: set[tuple[bytes, bytes]] = set()
        self.watchers: list[Watcher] = []
        self.pending: Words | None = None
        self.line: Words = [b""] * 5  # the last of steps
        self.start = self.source = 0
        self.latest: Trap | None = None
        self.step, self.traps = number["steps"], 0
        self.is_translated = dict.fromkeys((b"HS", b"U", b"VS", b"VU"), False)
        self.forget_seen()

    def follow(self, lines: Iterable[bytes], start: int, tell: Callable[[int], None]) -> None:
        """Takes the lines of a log, whose steps are counted from `start`."""
        by_kind = {b"trap": self.trap, b"enter": self.enter, b"leave": self.leave, b"fence": self.fence,
                   b"fill": self.fill, b"stale": self.stale, b"call": self.call}
        self.start = start
        for line in lines:
            words = line.split()
            if words[0] == b"step":
                self.take(words)
            elif words[0] in by_kind:
                by_kind[words[0]](words)
            self.step += words[0] == b"step"
            if not self.step & 0xFFFF:
                tell(self.step)
        self.flush()

    def place(self, words: Words, word: bytes | None = None) -> Place:
        found = None if word in (None, b"-") else int(word or b"0", 16)
        return Place(int(words[1]) + self.start, words[2].decode(), int(words[3], 16), found)

    def take(self, words: Words) -> None:
        """Takes a line of steps."""
        if self.pending:
            self.flush()
        self.line, mode, word = words, words[2], words[4]
        if word[-2:] in ENDS:
            self.pending, self.source = words, self.value(int(word, 16) >> 15 & 31)
        if self.is_translated[mode]:
            self.use(words, mode, word)
        count, at = len(words), 5
        while at < count:
            name = words[at]
            if name == b"write":
                self.store(words, words[at + 1], int(words[at + 2]), words[at + 3])
                at += 4
            elif name == b"read":
                at += 4
            else:
                self.registers[name] = words[at + 1]
                at += 2

    def value(self, number: int) -> int:
        """That of an integer register."""
        return int(self.registers[ABI[number]], 16)

    def store(self, words: Words, place: bytes, width: int, value: bytes) -> None:
        """Takes a store to RAM."""
        at = int(place, 16)
        offset, key = at - saves.RAM, at & ~7
        self.ram[offset:offset + width] = int(value, 16).to_bytes(width, "little")
        self.stores.pop(key, None)
        self.stores[key] = words[1], words[2], words[3], words[4]
        if len(self.stores) > MOST_STORES:
            for old in list(self.stores)[:MOST_STORES // 2]:
                del self.stores[old]
        if at >> 12 in self.frames:
            self.forget_seen()

    def use(self, words: Words, mode: bytes, word: bytes) -> None:
        """Tells of the pages that a step uses."""
        front = mode[:1]
        if (front, words[3][:13]) not in self.seen:
            self.seen.add((front, words[3][:13]))
            self.tell_use(words, int(words[3], 16), walks.FETCH)
        if len(words) <= 7 or word[-2:] in ENDS:
            return
        kind = walks.STORE if b"write" in words else walks.LOAD if b"read" in words else None
        address = self.address_of(int(word, 16)) if kind else None
        if kind and address is not None:
            key = front + kind[:1].encode(), b"%x" % (address >> 12)
            if key not in self.seen:
                self.seen.add(key)
                self.tell_use(words, address, kind)

    def tell_use(self, words: Words, address: int, kind: str) -> None:
        place = self.place(words, words[4])
        for watcher in self.watchers:
            watcher.used(place, address, kind)

    def address_of(self, word: int) -> int | None:
        """The address that a load, store or atomic operation uses, or none."""
        kind = word & 0x7F
        if kind not in (0x03, 0x23, 0x2F):
            return None
        low = {0x03: word >> 20, 0x23: word >> 25 << 5 | word >> 7 & 31, 0x2F: 0}[kind]
        return self.value(word >> 15 & 31) + code_paths.signed(low, 12) & 2**64 - 1

    def forget_seen(self) -> None:
        """Takes each use as a new one, since tables have changed."""
        self.seen.clear()
        number = self.numbers
        nested = bool(number["vsatp"] or number["hgatp"])
        self.is_translated.update({b"HS": bool(number["satp"]), b"U": bool(number["satp"]), b"VS": nested,
                                   b"VU": nested})

    def flush(self) -> None:
        """Makes the effect of a step of opcode SYSTEM, which did not trap."""
        words, self.pending = self.pending, None
        if not words:
            return
        place = self.place(words, words[4])
        word = place.word or 0
        if word == SRET:
            self.change(csr_effects.of_sret(self.numbers, place.mode), place, "sret")
            if place.mode == "HS":
                for watcher in self.watchers:
                    watcher.returned(place)
        elif csr_effects.is_csr(word):
            self.write(place, word)
        else:
            for watcher in self.watchers:
                watcher.made(place)

    def write(self, place: Place, word: int) -> None:
        """Makes the effect of an instruction on a control and status register."""
        name = csr_effects.name_of(word, place.mode[0] == "V")
        before = csr_effects.shown(self.numbers, name)
        value = csr_effects.asked(word, self.source, before)
        made = None if value is None else csr_effects.written(self.numbers, name, value)
        if made:
            self.change(dict([made]), place, "write")
        write = Write(place, name, value, before, csr_effects.shown(self.numbers, name), bool(word >> 7 & 31))
        if value is not None:
            self.writes[name] = write
        for watcher in self.watchers:
            watcher.wrote(write)

    def change(self, made: dict[str, int], place: Place, how: str) -> None:
        """Gives control and status registers these values."""
        for name, value in made.items():
            before = self.numbers[name]
            if before != value:
                self.numbers[name] = value
                self.origins[name] = Origin(place, how, before)
                if name in csr_effects.TABLES:
                    self.forget_seen()

    def trap(self, words: Words) -> None:
        self.pending = None
        word = self.line[4] if self.line[1] == words[1] else None
        place, level = self.place(words, word), words[5].decode()
        cause = (words[6] == b"interrupt") << 63 | int(words[7])
        is_hs = level == "HS"
        page = int(words[11], 16) if is_hs and words[11] != b"-" else None
        found = Trap(place, level, cause, int(words[9], 16), page, int(words[15], 16) if is_hs else 0)
        self.change(csr_effects.of_trap(self.numbers, place.mode, place.pc, level, cause, found.tval, page,
                                        int(words[13]) if is_hs else 0, found.htinst), place, "trap")
        self.traps, self.latest = self.traps + 1, found
        for watcher in self.watchers:
            watcher.trapped(found)

    def enter(self, words: Words) -> None:
        self.flush()
        place, hgatp = self.place(words), int(words[5], 16)
        for watcher in self.watchers:
            watcher.entered(place, hgatp)

    def leave(self, words: Words) -> None:
        for watcher in self.watchers:
            if self.latest:
                watcher.left(self.latest, int(words[5], 16))

    def fence(self, words: Words) -> None:
        identifier = None if words[6] == b"all" else int(words[6])
        page = None if words[8] == b"all" else int(words[8], 16)
        fence = Fence(self.place(words, self.pending[4] if self.pending else None), words[4].decode(), identifier,
                      page, self.numbers["hgatp"])
        self.forget_seen()
        for watcher in self.watchers:
            watcher.fenced(fence)

    def fill(self, words: Words) -> None:
        self.flush()
        place, found = self.place(words), translation_in(words)
        for watcher in self.watchers:
            watcher.filled(place, found)

    def stale(self, words: Words) -> None:
        self.flush()
        since = None if words[-1] == b"before" else int(words[-1]) + self.start
        now = b" ".join(words[words.index(b"now") + 1:-2]).decode()
        place, found = self.place(words), translation_in(words)
        for watcher in self.watchers:
            watcher.used_stale(place, found, now, since)

    def call(self, words: Words) -> None:
        answer = None if words[9] == b"-" else int(words[9], 16)
        place = self.place(words)
        for watcher in self.watchers:
            watcher.called(place, int(words[5]), int(words[7], 16), answer)

    # Tables, as RAM is now.

    def doubleword(self, place: int) -> int | None:
        at = place - saves.RAM
        return int.from_bytes(self.ram[at:at + 8], "little") if 0 <= at <= len(self.ram) - 8 else None

    def read(self, place: int) -> walks.Reading:
        """An entry of a table at a physical place."""
        value = self.doubleword(place)
        if value is None:
            return None, "access", f"the entry's place {place:x} is not in RAM", None
        self.frames.add(place >> 12)
        return value, "", "", None

    def second_walk(self, hgatp: int, address: int) -> walks.Walk:
        """The walk of hgatp's table for a guest physical address."""
        return walks.Walk(walks.Shape(hgatp, True), address, self.read)

    def physical(self, hgatp: int, address: int) -> int | None:
        """Where a guest physical address lies by hgatp's table, or none."""
        if not hgatp:
            return address
        walk = self.second_walk(hgatp, address)
        return None if walk.wrong or not walk.leaf & walks.U else walk.address

    def first_walk(self, hgatp: int, atp: int, address: int) -> walks.Walk:
        """The walk of satp's or vsatp's table for an address."""
        def read(place: int) -> walks.Reading:
            at = self.physical(hgatp, place)
            return (None, "guest-page", f"{place:x} has no frame", None) if at is None else self.read(at)
        return walks.Walk(walks.Shape(atp), address, read)

    def entry_of(self, walk: walks.Walk, hgatp: int) -> int | None:
        """The physical place of the last entry that a walk of the first stage met, under this hgatp, or with 0
        of the second."""
        return self.physical(hgatp, walk.met[-1].place) if walk.met else None

    def store_at(self, place: int) -> Place | None:
        """The last store to the doubleword at a place, as far as it is known."""
        found = self.stores.get(place & ~7)
        return self.place([b"", *found[:3]], found[3]) if found else None


def translation_in(words: Words) -> Translation:
    """The translation in a line of fills or stale uses."""
    hgatp, atp = (0 if word == b"-" else int(word, 16) for word in (words[6], words[8]))
    return Translation(words[4] == b"second", hgatp, atp, int(words[10], 16), int(words[12], 16), words[14].decode())


def follow(runs: guest_runs.Runs, run: Run, start: int, end: int, tell: Callable[[int], None]) -> None:
    """Follows a run by its log from a step on, which is that of its state, up to a second one."""
    before, saved = runs.last_before(start + 1)
    with guest_runs.Line(runs, before, saved) as line:
        try:
            with line.log_of(KINDS, start - before, end - before) as file:
                run.follow(file, before, tell)
        except tracers.Refused as why:
            raise guest_runs.Unusable(str(why)) from None
