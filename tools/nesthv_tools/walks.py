"""Walks of page tables in the RAM of a saved guest, as the guest's next access would make them. They show
both stages, each entry with why it cannot be used, and the cached translations beside it, one for each stage.
"""
import struct
from collections.abc import Callable, Sequence

from nesthv_tools import saves

Key = tuple[int, int, int]  # for whom accesses are: V, hgatp, and satp or vsatp
Cached = tuple[int, int]  # a frame and flags
# An entry; or the fault, and why; and how it was reached.
Reading = tuple[int | None, str, str, "Second | None"]
Read = Callable[[int], Reading]
ReadTable = Callable[[int, int], tuple[int, ...] | None]

FETCH, LOAD, STORE, IMPLICIT = "fetch", "load", "store", "implicit read"
KINDS = (FETCH, LOAD, STORE)
V, R, W, X, U, G, A, D = (1 << bit for bit in range(8))
LETTERS = "VRWXUGAD"
MXR, SUM = 1 << 19, 1 << 18
FIRST_U = 32  # in the flags of a cached translation of the first stage
MOST_TABLES, MOST_RANGES = 4096, 16384  # of a map
# What the device page serves: by the kind of access and the offset, how many bytes, and what it does.
SERVED = {(LOAD, 0): (1, "reads an input"), (STORE, 0): (1, "puts a byte"),
          (LOAD, 8): (8, "reads the status")}
CODES = {"access": {FETCH: 1, LOAD: 5, STORE: 7}, "page": {FETCH: 12, LOAD: 13, STORE: 15},
         "guest-page": {FETCH: 20, LOAD: 21, STORE: 23}}


def letters_of(entry: int) -> str:
    return "".join(letter if entry >> bit & 1 else "-" for bit, letter in enumerate(LETTERS))


def rights_of(flags: int) -> str:
    """The rights of a cached translation of the second stage."""
    return "".join(letter if flags >> bit & 1 else "-" for bit, letter in enumerate("rwx"))


def first_rights_of(flags: int) -> str:
    """The rights of one of the first stage, with u."""
    return rights_of(flags) + ("u" if flags & FIRST_U else "-")


def frame_of(entry: int) -> int:
    return entry >> 10 & (1 << 44) - 1


class Shape:
    """The form of a table: that of satp or vsatp, or with `is_second` that of hgatp."""

    def __init__(self, atp: int, is_second: bool = False) -> None:
        self.levels = {0: 0, 8: 3, 9: 4}[atp >> 60]
        self.root, self.is_second = (atp & (1 << 44) - 1) << 12, is_second
        self.bits = 12 + 9 * self.levels + 2 * is_second
        self.root_entries = 2048 if is_second else 512

    def index(self, address: int, level: int) -> int:
        mask = self.root_entries - 1 if level == self.levels - 1 else 511
        return address >> 12 + 9 * level & mask

    def refused(self, address: int) -> str:
        """Why an address has no walk, or nothing."""
        if self.is_second:
            return f"the address has more than {self.bits} bits" if address >> self.bits else ""
        high = address >> self.bits - 1
        is_canonical = high in (0, (1 << 65 - self.bits) - 1)
        return "" if is_canonical else \
            f"bits 63:{self.bits} of the address are not equal to bit {self.bits - 1}"


def entry_wrong(entry: int, level: int) -> str:
    """Why no access can use an entry at this level, or nothing."""
    if not entry & V:
        return "V clear"
    if entry & W and not entry & R:
        return "W set, R clear"
    if entry >> 54:
        return "bits 63:54 not zero"
    if not entry & (R | W | X):
        if entry & (A | D | U):
            return "a pointer with A, D or U set"
        return "a pointer at level 0" if level == 0 else ""
    if frame_of(entry) & (1 << 9 * level) - 1:
        return f"the frame is not a multiple of the {512 ** level} frames of a leaf at level {level}"
    return "" if entry & A else "A clear"


def right_wrong(entry: int, kind: str, mxr: bool) -> str:
    """Why a leaf does not permit a kind of access, as far as its rights and D say, or nothing."""
    if kind == LOAD and entry & X and mxr:
        return ""
    needed = {FETCH: X, LOAD: R, IMPLICIT: R, STORE: W}[kind]
    if not entry & needed:
        return "no " + LETTERS[needed.bit_length() - 1]
    return "D clear" if kind == STORE and not entry & D else ""


class Met:
    """An entry that a walk met: its level, its place, its value (none where its place cannot be read), and
    why it cannot be used. An entry of a first stage under a second one has how its place was found."""

    def __init__(self, level: int, place: int, value: int | None, wrong: str,
                 reached: "Second | None" = None) -> None:
        self.level, self.place, self.value, self.wrong, self.reached = level, place, value, wrong, reached


class Walk:
    """The walk of a table for an address: the entries that it met, and the leaf (0 where there is none), or
    what is wrong. `fault` is the kind of the fault that comes of it."""

    def __init__(self, shape: Shape, address: int, read: Read) -> None:
        self.leaf = self.level = self.address = 0
        self.met: list[Met] = []
        self.wrong = shape.refused(address)
        self.fault, table = "guest-page" if shape.is_second else "page", shape.root
        for level in reversed(range(shape.levels)):
            if self.wrong:
                return
            place = table + 8 * shape.index(address, level)
            value, fault, unread, reached = read(place)
            self.wrong = unread if value is None else entry_wrong(value, level)
            self.fault = fault or self.fault
            self.met.append(Met(level, place, value, self.wrong, reached))
            if value is not None and value & (R | W | X):
                self.leaf, self.level = value, level
                break
            table = 0 if value is None else frame_of(value) << 12
        if self.leaf:
            low = (1 << 12 + 9 * self.level) - 1
            self.address = frame_of(self.leaf) << 12 & ~low | address & low


class Answer:
    """What one kind of access comes to: the address, and whether a cached translation of the second stage
    gave it; or why it traps, and by which fault. `device` is the offset on the device page of an access that
    leads there, and `by_first` says whether a cached translation of the first stage had a part in it."""

    def __init__(self, address: int | None = None, is_cached: bool = False, wrong: str = "", fault: str = "",
                 place: int | None = None, device: int | None = None) -> None:
        self.address, self.is_cached, self.wrong, self.fault = address, is_cached, wrong, fault
        self.by_first = False
        self.place = place  # the guest physical address of a guest-page fault
        self.device = device


class Second:
    """A guest physical address at the second stage: the walk of the table as RAM is, the cached translation
    beside it, and the answer for each kind of access. Without a table there is no walk."""

    def __init__(self, view: "View", address: int, uses_cache: bool) -> None:
        self.address, self.view = address, view
        self.walk = Walk(view.second, address, view.read) if view.second.levels else None
        self.cached = view.cached.get(address >> 12) if uses_cache and self.walk else None
        self.stale = stale_of(self.cached, self.walk) if self.cached and self.walk else ""

    def table_wrong(self, walk: Walk, kind: str) -> tuple[str, str]:
        """Why the table does not permit a kind of access, or nothing, and the kind of fault."""
        if walk.wrong:
            return walk.wrong, walk.fault
        wrong = ("" if walk.leaf & U else "U clear") or right_wrong(walk.leaf, kind, self.view.hs_mxr)
        return wrong, "guest-page"

    def answer(self, kind: str) -> Answer:
        if self.walk is None:
            return self.view.answer(self.address, kind)
        if self.cached and permits(self.cached[1], kind, self.view.hs_mxr):
            return self.view.answer(self.cached[0] << 12 | self.address & 4095, kind, is_cached=True)
        wrong, fault = self.table_wrong(self.walk, kind)
        return Answer(wrong=wrong, fault=fault, place=self.address) if wrong else \
            self.view.answer(self.walk.address, kind)


def permits(flags: int, kind: str, mxr: bool) -> bool:
    """Whether a cached translation with these flags is used for a kind of access."""
    return bool({FETCH: flags & 4, LOAD: flags & 1 or flags & 4 and mxr, STORE: flags & 2,
                 IMPLICIT: flags & 1}[kind])


def table_flags(walk: Walk) -> int | None:
    """The flags that a translation would have that is cached of this walk, or none where it has no leaf that
    can be used."""
    if walk.wrong or not walk.leaf & U:
        return None
    leaf = walk.leaf
    w = leaf & W and leaf & D
    return bool(leaf & R) | bool(w) << 1 | bool(leaf & X) << 2 | walk.level << 3


def stale_of(cached: Cached, walk: Walk) -> str:
    """How a cached translation differs from what the table says now, in words, or nothing."""
    frame, flags = cached
    has = f"cached {frame << 12:x} {rights_of(flags)}"
    now = table_flags(walk)
    if now is None:
        return f"{has}, table says {walk.wrong or 'U clear'}"
    place = walk.address >> 12
    if place != frame or now & 7 != flags & 7:
        return f"{has}, table says {place << 12:x} {rights_of(now)}"
    return "" if now == flags else f"cached of level {flags >> 3}, table has level {now >> 3}"


def first_flags(walk: Walk) -> int:
    """The flags that a translation of the first stage would have that is cached of this walk."""
    leaf = walk.leaf
    rights = bool(leaf & R) | bool(leaf & W and leaf & D) << 1 | bool(leaf & X) << 2
    return rights | walk.level << 3 | (FIRST_U if leaf & U else 0)


def first_stale_of(cached: Cached, walk: Walk) -> str:
    """How a cached translation of the first stage differs from what the table says now, or nothing."""
    frame, flags = cached
    has = f"cached {frame << 12:x} {first_rights_of(flags)}"
    if walk.wrong:
        return f"{has}, table says {walk.wrong}"
    place, now = walk.address >> 12, first_flags(walk)
    if place != frame or (now ^ flags) & ~24:
        return f"{has}, table says {place << 12:x} {first_rights_of(now)}"
    return "" if now == flags else f"cached of level {flags >> 3 & 3}, table has level {walk.level}"


class View:
    """What a mode sees of a saved guest's memory. In VS and VU, the cached translations of the second stage
    are those of the space of hgatp; HLV, HLVX and HSV use none of either stage. `tables` are other values of
    hgatp and of satp or vsatp than the state has."""

    def __init__(self, saved: saves.Saved, mode: str | None = None, uses_cached: bool = True,
                 tables: tuple[int, int] | None = None) -> None:
        number = saved.numbers
        self.saved, self.mode = saved, mode or saved.mode()
        self.is_nested = self.mode in ("VS", "VU")
        self.status = number["vsstatus" if self.is_nested else "sstatus"]
        hgatp, self.atp = tables or (number["hgatp"], number["vsatp" if self.is_nested else "satp"])
        self.hgatp = hgatp if self.is_nested else 0
        self.first, self.second = Shape(self.atp), Shape(self.hgatp, True)
        self.hs_mxr = bool(number["sstatus"] & MXR)
        self.mxr = bool((self.status | number["sstatus"]) & MXR)
        self.cached = cached_of(saved, self.hgatp) if self.is_nested and uses_cached else {}
        self.first_cached = first_cached_of(saved, self.key()) if uses_cached else {}

    def key(self) -> Key:
        """For whom its accesses are: V, hgatp, and satp or vsatp."""
        return int(self.is_nested), self.hgatp, self.atp

    def is_in_ram(self, address: int) -> bool:
        return 0 <= address - saves.RAM < len(self.saved.ram)

    def is_on_page(self, address: int) -> bool:
        """Whether a physical address is one of the device page, and the guest has it."""
        return bool(self.saved.numbers["device"]) and address >> 12 == saves.DEVICE_FRAME

    def answer(self, address: int, kind: str, is_cached: bool = False) -> Answer:
        """What a kind of access comes to at a physical address."""
        if self.is_in_ram(address):
            return Answer(address, is_cached)
        if not self.is_on_page(address):
            return Answer(wrong=f"{address:x} is not in RAM", fault="access")
        offset = address & 4095
        if (kind, offset) in SERVED:
            return Answer(address, is_cached, device=offset)
        wrong = f"{address:x} is on the device page, offset {offset:x}, where no {kind} is served"
        return Answer(wrong=wrong, fault="access", device=offset)

    def read(self, place: int) -> Reading:
        """An entry at a physical place, or why it cannot be read, and by which fault."""
        value = self.saved.word_at(place)
        where = "on the device page" if self.is_on_page(place) else "not in RAM"
        return (value, "", "", None) if value is not None else \
            (None, "access", f"the entry's place {place:x} is {where}", None)

    def read_nested(self, place: int) -> Reading:
        """An entry of a first stage, at a guest physical place."""
        reached = Second(self, place, True)
        answer = reached.answer(IMPLICIT)
        if answer.address is None:
            return None, answer.fault, f"at the second stage of the entry's place: {answer.wrong}", reached
        return self.saved.word_at(answer.address), "", "", reached

    def user_wrong(self, leaf: int, kind: str) -> str:
        """Why a leaf of the first stage is not for this mode, or nothing."""
        if self.mode in ("U", "VU"):
            return "" if leaf & U else "U clear"
        if not leaf & U:
            return ""
        return "U set" if kind == FETCH else "" if self.status & SUM else "U set, SUM clear"

    def first_permits(self, flags: int, kind: str) -> bool:
        """Whether a cached translation of the first stage with these flags is used for a kind of access."""
        wrong = self.user_wrong(U if flags & FIRST_U else 0, kind)
        return not wrong and permits(flags, kind, self.mxr)

    def first_walk(self, address: int) -> Walk:
        """The walk of the first stage as RAM is."""
        return Walk(self.first, address, self.read_nested if self.is_nested else self.read)


def cached_of(saved: saves.Saved, key: int) -> dict[int, Cached]:
    """The cached translations of a space by page, each a frame and flags."""
    return next(({page: (frame, flags) for page, frame, flags in entries}
                 for held, entries in saved.spaces if held == key), {})


def first_cached_of(saved: saves.Saved, key: Key) -> dict[int, Cached]:
    """The cached translations of the first stage for these accesses by page, each a frame and flags."""
    return {entry.page: (entry.frame, entry.flags) for entry in saved.first if entry[:3] == key}


class Translation:
    """An address as a mode sees it: the walk of the first stage, none where that is Bare, and the cached
    translation beside it. It has the second stage of what each gives, none where it gives nothing or V is 0,
    and the answers by the kind of access."""

    def __init__(self, view: View, address: int) -> None:
        self.view, self.address, self.stale = view, address, ""
        self.first: Walk | None = None
        self.cached: Cached | None = None
        self.between: int | None = address
        self.cached_between: int | None = None
        if view.first.levels:
            self.first = view.first_walk(address)
            self.between = None if self.first.wrong else self.first.address
            self.cached = view.first_cached.get(address >> 12)
        if self.cached and self.first:
            self.cached_between = self.cached[0] << 12 | address & 4095
            self.stale = first_stale_of(self.cached, self.first)
        self.second = self.second_of(self.between)
        same = self.cached_between == self.between
        self.cached_second = self.second if same else self.second_of(self.cached_between)
        self.answers = {kind: self.answer(kind) for kind in KINDS}

    def second_of(self, between: int | None) -> Second | None:
        """The second stage of a guest physical address, if there is one, and one stage more."""
        return Second(self.view, between, True) if self.view.is_nested and between is not None else None

    def is_by_first(self, kind: str) -> bool:
        """Whether the cached translation of the first stage is used for a kind of access."""
        return bool(self.cached and self.view.first_permits(self.cached[1], kind))

    def answer(self, kind: str) -> Answer:
        if self.is_by_first(kind):
            found = self.answer_behind(self.cached_second, self.cached_between, kind)
            found.by_first = True
            return found
        if self.first:
            wrong = self.first.wrong or self.view.user_wrong(self.first.leaf, kind) \
                or right_wrong(self.first.leaf, kind, self.view.mxr)
            if wrong:
                fault = self.first.fault if self.first.wrong else "page"
                return Answer(wrong=wrong, fault=fault, place=self.implicit_place())
        return self.answer_behind(self.second, self.between, kind)

    def answer_behind(self, second: Second | None, between: int | None, kind: str) -> Answer:
        """The answer of the second stage, or where there is none that of the address."""
        if second:
            return second.answer(kind)
        assert between is not None
        return self.view.answer(between, kind)

    def implicit_place(self) -> int | None:
        """The guest physical place of the entry that the second stage refuses, or none."""
        last = self.first.met[-1] if self.first and self.first.met else None
        return last.place if last and last.reached and last.value is None else None


def view_of_access(saved: saves.Saved, word: int | None) -> View:
    """What the data access of this instruction sees."""
    if word is not None and word & 0x7F == 0x73 and word >> 12 & 7 == 4:  # HLV, HLVX, HSV
        return View(saved, "VS" if saved.numbers["hstatus"] >> 8 & 1 else "VU", False)
    return View(saved)


def fetched(saved: saves.Saved) -> tuple[int | None, int | None, str]:
    """The word that the next step fetches and its physical address, or none and why there is none."""
    answer = Translation(View(saved), saved.numbers["pc"]).answers[FETCH]
    if answer.address is None:
        return None, None, answer.wrong
    return saved.word_at(answer.address, 4), answer.address, ""


def stale_entries(saved: saves.Saved) -> list[tuple[int, int, str, Walk]]:
    """Each cached translation that differs from its table as RAM is: the key of its space, its page, how it
    differs in words, and the walk of the table."""
    found = []
    for key, entries in saved.spaces:
        shape, view = Shape(key, True), View(saved, "HS", False)
        for page, frame, flags in entries:
            walk = Walk(shape, page << 12, view.read)
            words = stale_of((frame, flags), walk)
            if words:
                found.append((key, page, words, walk))
    return found


def view_of_first(saved: saves.Saved, entry: saves.First) -> View:
    """What the accesses see that a cached translation of the first stage is for."""
    return View(saved, "VS" if entry.v else "HS", tables=(entry.hgatp, entry.atp))


def stale_first_entries(saved: saves.Saved) -> list[tuple[saves.First, str, Walk]]:
    """Each cached translation of the first stage that differs from its table, as the next walk would find it:
    the translation, how it differs in words, and the walk."""
    found = []
    for entry in saved.first:
        walk = view_of_first(saved, entry).first_walk(entry.page << 12)
        words = first_stale_of((entry.frame, entry.flags), walk)
        if words:
            found.append((entry, words, walk))
    return found


class Range:
    """Addresses that are mapped alike: from `start` on `size` bytes, to `to` on, with rights in letters, and
    why they cannot be used. `is_device` where they lead to the device page."""

    def __init__(self, start: int, size: int, to: int, rights: str, wrong: str,
                 is_device: bool = False) -> None:
        self.start, self.size, self.to, self.rights, self.wrong = start, size, to, rights, wrong
        self.is_device = is_device

    def takes(self, other: "Range") -> bool:
        """Whether the next range continues this one; then this one takes it in."""
        goes_on = self.start + self.size == other.start and self.to + self.size == other.to
        is_alike = (self.rights, self.wrong, self.is_device) == (other.rights, other.wrong, other.is_device)
        if goes_on and is_alike:
            self.size += other.size
            return True
        return False


class Map:
    """The ranges of a table, in order. `is_cut` where it has more tables or ranges than are shown, as one
    that names itself may have."""

    def __init__(self, shape: Shape, read_table: ReadTable, places: Sequence[tuple[int, int]] = ()) -> None:
        self.shape, self.read_table, self.places = shape, read_table, places
        self.tables, self.is_cut = 0, False
        self.ranges: list[Range] = []
        if shape.levels:
            self.read(shape.root, shape.levels - 1, 0)

    def read(self, place: int, level: int, start: int) -> None:
        """Reads a table at this place, whose first entry is for the address `start`."""
        count = self.shape.root_entries if level == self.shape.levels - 1 else 512
        self.tables += 1
        if self.tables > MOST_TABLES:
            self.is_cut = True
            return
        entries = self.read_table(place, count)
        if entries is None:
            self.put(Range(start, count << 12 + 9 * level, 0, "---",
                           f"the table at {place:x} cannot be read"))
        for index, entry in enumerate(entries or ()):
            if not entry & V or self.is_cut:
                continue
            size = 1 << 12 + 9 * level
            if entry & (R | W | X) or entry_wrong(entry, level):
                self.add(start + index * size, size, entry, level)
            else:
                self.read(frame_of(entry) << 12, level - 1, start + index * size)

    def add(self, start: int, size: int, entry: int, level: int) -> None:
        """Adds what an entry maps, in the parts that are in RAM, on the device page, and neither."""
        wrong = entry_wrong(entry, level)
        if self.shape.is_second and not wrong and not entry & U:
            wrong = "U clear"
        has = (entry & R, entry & W and entry & D, entry & X, entry & U)
        rights = "".join(letter if bit else "-" for letter, bit in zip("rwxu", has))
        to, rights = frame_of(entry) << 12, rights[:3] if self.shape.is_second else rights
        for at, length, is_there in self.parts(to, size):
            is_device = is_there and not wrong and bool(self.places) and to + at == saves.DEVICE
            self.put(Range(start + at, length, to + at, rights, wrong or ("" if is_there else "not in RAM"),
                           is_device))

    def parts(self, to: int, size: int) -> list[tuple[int, int, bool]]:
        """Addresses from `to` on, cut where a place begins and ends, as RAM does: each part's offset and
        size, and whether it is in such a place."""
        if not self.places:
            return [(0, size, True)]
        parts, end = [], 0
        for begin, length in self.places:
            first, last = (min(max(edge - to, 0), size) for edge in (begin, begin + length))
            parts += [(end, first - end, False), (first, last - first, True)]
            end = last
        return [part for part in [*parts, (end, size - end, False)] if part[1]]

    def put(self, made: Range) -> None:
        if not self.shape.is_second and made.start >> self.shape.bits - 1:
            made.start |= 2**64 - (1 << self.shape.bits)
        if not (self.ranges and self.ranges[-1].takes(made)):
            self.ranges.append(made)
        self.is_cut = self.is_cut or len(self.ranges) > MOST_RANGES


def table_reader(saved: saves.Saved) -> ReadTable:
    """Reads tables at physical places."""
    def read(place: int, count: int) -> tuple[int, ...] | None:
        at = place - saves.RAM
        if not 0 <= at <= len(saved.ram) - 8 * count:
            return None
        return struct.unpack(f"<{count}Q", saved.ram[at:at + 8 * count])
    return read


def map_of(saved: saves.Saved, atp: int, is_second: bool = False) -> Map:
    """The map of a table whose entries are at physical places."""
    places = [(saves.DEVICE, 4096)] if saved.numbers["device"] else []
    return Map(Shape(atp, is_second), table_reader(saved), [*places, (saves.RAM, len(saved.ram))])


def nested_map(saved: saves.Saved) -> Map:
    """The map of vsatp, whose tables lie at guest physical places, to guest physical addresses."""
    view, read = View(saved, "VS"), table_reader(saved)

    def read_nested(place: int, count: int) -> tuple[int, ...] | None:
        answer = Second(view, place, True).answer(IMPLICIT)
        return None if answer.address is None else read(answer.address, count)
    return Map(view.first, read_nested)
