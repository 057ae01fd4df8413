"""Files of saved guests, as `nesthv save` writes them: 624 bytes and more of numbers and lists, and RAM
after them. docs/saved.md has the table. Numbers have 8 bytes, the lowest first. Files of older versions are
read too: the second lacks the cached translations of the first stage, and the first the number for the device
page as well.
"""
import copy
import mmap
import struct
from collections.abc import Iterable, Iterator
from typing import NamedTuple, Self

Entry = tuple[int, int, int]  # of a space: page, frame, flags
Spaces = list[tuple[int, list[Entry]]]
Bytes = bytes | mmap.mmap

BLOCK = 2097152
MOST_BYTES = 68798705  # that the program reads: one more than a good file has
PAGE = 4096
PIECE = 1 << 18  # bytes of RAM that are compared at a time
LETTERS = (b"NESTHV01", b"NESTHV02", b"NESTHV03")  # of each version
RAM, DEVICE_FRAME, DEVICE = 0x80000000, 0x10000, 0x10000000
STATUSES, MODES = ["running", "waiting", "stopped"], ["HS", "U", "VS", "VU"]
HEAD = ["blocks", "spaces", "entries", "console", "device", "status", "steps", "clock", "timer", "mode", "pc"]
ANY = 2**64 - 1
# Which bits of each register a file may have, and which it has always.
REGISTERS = {
    "sstatus": (0xC0122, 2 << 32), "sie": (0x222, 0), "stvec": (ANY - 2, 0), "scounteren": (2, 0),
    "senvcfg": (1, 0), "sscratch": (ANY, 0), "sepc": (ANY - 3, 0), "scause": (ANY, 0), "stval": (ANY, 0),
    "sip.SSIP": (1, 0), "satp": (ANY, 0), "vsstatus": (0xC0122, 2 << 32), "vstvec": (ANY - 2, 0),
    "vsscratch": (ANY, 0), "vsepc": (ANY - 3, 0), "vscause": (ANY, 0), "vstval": (ANY, 0), "vsatp": (ANY, 0),
    "hstatus": (0x7003C0, 2 << 32), "hedeleg": (0xB1FF, 0), "hideleg": (0x444, 0), "hie": (0x444, 0),
    "htimedelta": (ANY, 0), "hcounteren": (2, 0), "henvcfg": (1, 0), "htval": (ANY, 0), "hvip": (0x444, 0),
    "htinst": (ANY, 0), "hgatp": (0xF << 60 | 0x7F << 44 | (1 << 44) - 4, 0)}
NAMES = [*HEAD, *(f"x{number}" for number in range(1, 32)), *REGISTERS, "reservation width",
         "reservation address"]
NAMES_1 = [name for name in NAMES if name != "device"]
RANGES = {"blocks": (1, 32), "spaces": (1, 8), "entries": (16, 256), "console": (0, 1048576),
          "device": (0, 1), "status": (0, 2), "steps": (0, 2**60), "mode": (0, 3)}
MOST_INPUTS, MOST_FIRST = 65536, 32


class Wrong(Exception):
    """Why bytes are not a saved guest, in words."""


def demand(is_right: object, words: str) -> None:
    if not is_right:
        raise Wrong(words)


class Reader:
    """Takes the bytes of a file from its start on."""

    def __init__(self, data: Bytes) -> None:
        self.data, self.at = data, 0

    def take(self, count: int, what: str) -> bytes:
        demand(len(self.data) - self.at >= count,
              f"it has {len(self.data):,} bytes, and ends within {what}, which begin at offset {self.at:,}")
        self.at += count
        return self.data[self.at - count:self.at]

    def numbers(self, count: int, what: str) -> tuple[int, ...]:
        return struct.unpack(f"<{count}Q", self.take(8 * count, what))

    def count(self, most: int, what: str) -> int:
        number, = self.numbers(1, what)
        demand(number <= most,
               f"at offset {self.at - 8:,} the number of {what} is {number}: at most {most:,}")
        return number


class First(NamedTuple):
    """A cached translation of the first stage: for whom it is, by V, hgatp (0 where V is 0) and satp or
    vsatp; the page; and what the leaf has."""

    v: int
    hgatp: int
    atp: int
    page: int
    frame: int
    flags: int


class Ram:
    """The bytes of RAM, after the front of a file, which may be mapped: they are copied when they are asked
    for. Pages that differ from the file stand beside it, by their offsets."""

    def __init__(self, data: Bytes, front: int, pages: dict[int, bytes] | None = None) -> None:
        self.data, self.front, self.pages = data, front, pages or {}

    def __len__(self) -> int:
        return len(self.data) - self.front

    def __getitem__(self, part: slice) -> bytes:
        start, end, _ = part.indices(len(self))
        found = self.data[self.front + start:self.front + end]
        return self.patched(found, start) if self.pages else found

    def patched(self, found: bytes, start: int) -> bytes:
        """What the file has from an offset on, with the pages that differ."""
        end, made = start + len(found), bytearray(found)
        for page in range(start // PAGE * PAGE, end, PAGE):
            if page in self.pages:
                low, high = max(page, start), min(page + PAGE, end)
                made[low - start:high - start] = self.pages[page][low - page:high - page]
        return bytes(made)

    def changed(self, address: int, data: bytes) -> "Ram":
        """The RAM that has these bytes at a physical address, all in one page."""
        at = address - RAM
        page = at // PAGE * PAGE
        whole = bytearray(self[page:page + PAGE])
        whole[at - page:at - page + len(data)] = data
        return Ram(self.data, self.front, {**self.pages, page: bytes(whole)})

    def is_same(self, other: "Ram") -> bool:
        return len(self) == len(other) and not any(True for _ in pieces_that_differ(self, other))

    def forget(self) -> None:
        """Gives back the memory of a file that is mapped, until its bytes are asked for again."""
        if isinstance(self.data, mmap.mmap):
            self.data.madvise(mmap.MADV_DONTNEED)


def pieces_that_differ(one: Ram, other: Ram) -> Iterator[tuple[int, bytes, bytes]]:
    """The pieces that differ of two RAMs, each with where it begins."""
    places: Iterable[int] = range(0, min(len(one), len(other)), PIECE)
    size = PIECE
    if one.data is other.data and one.front == other.front:
        places, size = sorted({*one.pages, *other.pages}), PAGE
    try:
        for at in places:
            first, second = one[at:at + size], other[at:at + size]
            if first != second:
                yield at, first, second
    finally:
        one.forget()
        other.forget()


class Saved:
    """A saved guest: its numbers by name, its console, its unread inputs, its spaces, its cached translations
    of the first stage, and its RAM with where it begins."""

    def __init__(self, data: Bytes) -> None:
        reader = Reader(data)
        demand(len(data) > 0, "the file is empty")
        self.letters = reader.take(8, "its letters")
        demand(self.letters in LETTERS, f"it does not begin with `{LETTERS[-1].decode()}`, or as an older "
              "version does, so `nesthv save` has not written it")
        names = names_of(self.letters)
        self.numbers = {"device": 0, **dict(zip(names, reader.numbers(len(names), "the numbers")))}
        test_numbers(self.numbers, names)
        self.console = reader.take(reader.count(self.numbers["console"], "console bytes"), "console bytes")
        count = reader.count(MOST_INPUTS, "unread inputs")
        pairs = struct.iter_unpack("<QB", reader.take(9 * count, "unread inputs"))
        self.inputs = [(moment, byte) for moment, byte in pairs]
        test_inputs(self.inputs)
        self.spaces: Spaces = []
        for _ in range(reader.count(self.numbers["spaces"], "spaces")):
            key, = reader.numbers(1, "spaces")
            count = reader.count(self.numbers["entries"], "entries of a space")
            found = struct.iter_unpack("<3Q", reader.take(24 * count, "entries"))
            self.spaces.append((key, [(page, frame, flags) for page, frame, flags in found]))
        test_spaces(self.numbers, self.spaces)
        self.first: list[First] = []
        if self.has_first():
            count = reader.count(MOST_FIRST, "translations of the first stage")
            found = struct.iter_unpack("<6Q", reader.take(48 * count, "translations of the first stage"))
            self.first = [First(*numbers) for numbers in found]
        test_first(self.first)
        self.front, self.ram = reader.at, Ram(data, reader.at)
        has, ram = len(data) - self.front, self.numbers["blocks"] * BLOCK
        demand(has == ram, f"{has:,} bytes stand from offset {self.front:,} on, and RAM has {ram:,}: it is "
              + ("cut" if has < ram else "too long"))

    def has_first(self) -> bool:
        """Whether the file tells the cached translations of the first stage: whether the program has any."""
        return self.letters >= LETTERS[2]

    def form(self) -> bytes:
        """The bytes of a file that has all this, which a program of its version reads; that of the first
        version is one of the second."""
        return self.head() + self.ram[:]

    def head(self) -> bytes:
        """What such a file has in front of RAM."""
        number = self.numbers
        made = [max(self.letters, LETTERS[1]),
                struct.pack(f"<{len(NAMES)}Q", *(number[name] for name in NAMES)),
                struct.pack("<Q", len(self.console)), self.console, struct.pack("<Q", len(self.inputs))]
        made += [struct.pack("<QB", *pair) for pair in self.inputs]
        made.append(struct.pack("<Q", len(self.spaces)))
        for key, entries in self.spaces:
            made.append(struct.pack("<QQ", key, len(entries)))
            made += [struct.pack("<3Q", *entry) for entry in entries]
        if self.has_first():
            made.append(struct.pack("<Q", len(self.first)))
            made += [struct.pack("<6Q", *entry) for entry in self.first]
        return b"".join(made)

    def changed(self, numbers: dict[str, int], spaces: Spaces | None = None,
                first: list[First] | None = None) -> Self:
        """The saved guest that has other numbers, by name, and other spaces and translations of the first
        stage, but else the same."""
        other = copy.copy(self)
        other.numbers = {**self.numbers, **numbers}
        other.spaces = self.spaces if spaces is None else spaces
        other.first = self.first if first is None else first
        return other

    def mode(self) -> str:
        return MODES[self.numbers["mode"]]

    def word_at(self, address: int, width: int = 8) -> int | None:
        """The number at this physical address, or none where it is not all in RAM."""
        at = address - RAM
        if not 0 <= at <= len(self.ram) - width:
            return None
        return int.from_bytes(self.ram[at:at + width], "little")

    def frames(self) -> int:
        """How many frames of machine memory the guest needs."""
        number = self.numbers
        return 512 * number["blocks"] + 5 + number["spaces"] * (4 + 3 * number["entries"])


def names_of(letters: bytes) -> list[str]:
    """The names of the numbers after these letters."""
    return NAMES_1 if letters == LETTERS[0] else NAMES


def offset_of(name: str, names: list[str]) -> int:
    return 8 + 8 * names.index(name)


def status_of(data: Bytes) -> int:
    """The status in the bytes of a file."""
    status, = struct.unpack_from("<Q", data, offset_of("status", names_of(data[:8])))
    return int(status)


def test_numbers(numbers: dict[str, int], names: list[str]) -> None:
    """Tests numbers of a file that has those of these names."""
    def test(name: str, is_right: object, words: str) -> None:
        demand(is_right, f"at offset {offset_of(name, names)} {name} is {numbers[name]:#x}: {words}")
    for name in filter(RANGES.get, names):
        least, most = RANGES[name]
        demand(least <= numbers[name] <= most, f"at offset {offset_of(name, names)} {name} is "
              f"{numbers[name]}: it must be {least:,} to {most:,}")
    test("clock", numbers["clock"] <= 2**62 + numbers["steps"], "at most 2^62 more than the steps")
    test("pc", numbers["pc"] % 4 == 0, "it must be a multiple of 4")
    for name, (bits, fixed) in REGISTERS.items():
        test(name, numbers[name] & ~bits == fixed, f"of the bits outside {bits:#x} it must have {fixed:#x}")
    for name in ("satp", "vsatp", "hgatp"):
        test(name, numbers[name] >> 60 in (8, 9) or numbers[name] == 0,
             "its MODE must be 8 or 9, or all bits 0")
    width, address = numbers["reservation width"], numbers["reservation address"]
    test("reservation width", width in (0, 4, 8), "it must be 4 or 8, or 0 for none")
    in_ram = RAM <= address <= RAM + numbers["blocks"] * BLOCK - width
    test("reservation address", width and in_ram and address % width == 0 or not width and address == 0,
         "it must be in RAM, at a multiple of its width, or 0 for none")


def test_inputs(inputs: list[tuple[int, int]]) -> None:
    before = 0
    for number, (moment, _) in enumerate(inputs):
        demand(before <= moment < 2**62, f"the moment of unread input {number} is {moment}: moments do not "
              "fall, and are below 2^62")
        before = moment


def test_spaces(numbers: dict[str, int], spaces: Spaces) -> None:
    keys = [key for key, _ in spaces]
    bits = REGISTERS["hgatp"][0]
    for number, (key, entries) in enumerate(spaces):
        demand(key >> 60 in (8, 9) and not key & ~bits, f"the key of space {number} is {key:#x}, which hgatp "
              "cannot hold, or which is Bare")
        demand(keys.index(key) == number, f"the key of space {number}, {key:#x}, is that of one before")
        test_entries(numbers, number, 38 if key >> 60 == 9 else 29, entries)
    if numbers["mode"] >= 2 and numbers["hgatp"]:
        demand(keys[:1] == [numbers["hgatp"]], "in VS or VU the first space is that of hgatp, "
              f"{numbers['hgatp']:#x}")


def test_entries(numbers: dict[str, int], number: int, bits: int, entries: list[Entry]) -> None:
    pages, first = set(), RAM >> 12
    for index, (page, frame, flags) in enumerate(entries):
        what = f"entry {index} of space {number}: "
        demand(page < 1 << bits and page not in pages, f"{what}the page {page:#x} must be below 2^{bits}, "
              "and may stand only once")
        in_ram = first <= frame < first + numbers["blocks"] * 512
        demand(in_ram or numbers["device"] and frame == DEVICE_FRAME,
               f"{what}the frame {frame:#x} is not in RAM"
              + (", nor that of the device page" if numbers["device"] else ""))
        demand(flags >> 3 <= (3 if bits == 38 else 2) and flags & 7 in (1, 3, 4, 5, 7),
              f"{what}the flags are {flags:#x}: w needs r, r or x is set, and the level is 0 to "
              + ("3" if bits == 38 else "2"))
        pages.add(page)


def test_first(first: list[First]) -> None:
    keys, bits = set(), REGISTERS["hgatp"][0]
    for index, entry in enumerate(first):
        what = f"translation {index} of the first stage: "
        is_storable = not entry.hgatp or entry.hgatp >> 60 in (8, 9) and not entry.hgatp & ~bits
        demand(entry.v < 2 and (is_storable if entry.v else not entry.hgatp),
              f"{what}V is {entry.v} and hgatp {entry.hgatp:#x}: V is 0 or 1, and hgatp is 0 where V is 0, "
              "else a "
              "value that it can hold")
        demand(entry.atp >> 60 in (8, 9), f"{what}satp or vsatp is {entry.atp:#x}: its MODE must be 8 or 9")
        demand(entry.page < 2**52 and entry[:4] not in keys, f"{what}the page {entry.page:#x} must be below "
              "2^52, and may stand only once for the same accesses")
        demand(entry.frame < 2**44, f"{what}the frame {entry.frame:#x} must be below 2^44")
        most = 3 if entry.atp >> 60 == 9 else 2
        demand(entry.flags < 64 and entry.flags >> 3 & 3 <= most and entry.flags & 7 in (1, 3, 4, 5, 7),
              f"{what}the flags are {entry.flags:#x}: w needs r, r or x is set, and the level is 0 to {most}")
        keys.add(entry[:4])


def wrong(data: bytes) -> str | None:
    """Why these bytes are not a saved guest, in words, or none."""
    try:
        Saved(data)
    except Wrong as why:
        return str(why)
    return None
