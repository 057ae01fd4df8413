"""Follows the code of an image from its first instruction, as far as the image alone says where it goes. It
finds what is not an instruction of four bytes there: compressed code, or none.
"""
import struct
from collections.abc import Callable

from nesthv_tools import csrs

RAM = 0x80000000
MOST_RAM = 1 << 26
MOST_STEPS = 4096
STVEC, SATP = csrs.NUMBERS["stvec"], csrs.NUMBERS["satp"]
CALL, STOP = 17, 8  # a7, and the call that stops the guest
ECALL, WFI = 0x00000073, 0x10500073
LOADS_AND_SUMS = (0x03, 0x1B, 0x2F, 0x33, 0x3B)


def signed(value: int, bits: int) -> int:
    return (value & (1 << bits) - 1) - (value >> bits - 1 & 1) * (1 << bits)


def jump_offset(word: int) -> int:
    low = (word >> 20 & 1) << 11 | (word >> 21 & 0x3FF) << 1
    return signed(word >> 31 << 20 | (word >> 12 & 0xFF) << 12 | low, 21)


def branch_offset(word: int) -> int:
    low = (word >> 25 & 0x3F) << 5 | (word >> 8 & 0xF) << 1
    return signed(word >> 31 << 12 | (word >> 7 & 1) << 11 | low, 13)


class Path:
    """One path through the code: its address, and the registers whose values the code itself says."""

    def __init__(self, at: int, known: dict[int, int] | None = None) -> None:
        self.at, self.known = at, dict(known or {})

    def set(self, register: int, value: int | None) -> None:
        self.known.pop(register, None)
        if register and value is not None:
            self.known[register] = value & 2**64 - 1

    def get(self, register: int) -> int | None:
        return 0 if register == 0 else self.known.get(register)

    def sum_of(self, register: int, number: int) -> int | None:
        value = self.get(register)
        return None if value is None else value + number & 2**64 - 1


def paths_after(path: Path, word: int) -> list[Path]:
    """The paths that go on after this word of a path. Where it cannot be told whether code follows, there is
    none."""
    kind, target, source, form = word & 0x7F, word >> 7 & 31, word >> 15 & 31, word >> 12 & 7
    following = path.at + 4
    if kind == 0x6F:
        return [Path(path.at + jump_offset(word), path.known)]
    if kind == 0x67:
        place = path.sum_of(source, signed(word >> 20, 12))
        return [] if place is None else [Path(place & ~1, path.known)]
    if kind == 0x63:
        taken = Path(path.at + branch_offset(word), path.known)
        is_always = form in (0, 5, 7) and source == word >> 20 & 31
        return [taken] if is_always else [taken, Path(following, path.known)]
    if kind == 0x73:
        return paths_after_system(path, word)
    if kind == 0x17:
        path.set(target, path.at + signed(word & ~0xFFF, 32))
    elif kind == 0x37:
        path.set(target, signed(word & ~0xFFF, 32))
    elif kind == 0x13:
        path.set(target, path.sum_of(source, signed(word >> 20, 12)) if form == 0 else None)
    elif kind in LOADS_AND_SUMS:
        path.set(target, None)
    elif kind != 0x23 and word & 0x707F != 0x0F:  # after FENCE.I may be code that the image does not have
        return []
    path.at = following
    return [path]


def paths_after_system(path: Path, word: int) -> list[Path]:
    number, target, source, form = word >> 20, word >> 7 & 31, word >> 15 & 31, word >> 12 & 7
    entries = []
    if word == ECALL:
        if path.get(CALL) in (None, STOP):
            return []
        path.set(10, None)
        path.set(11, None)
    elif form == 0 and word != WFI:
        return []
    elif form:
        if number == SATP:
            return []
        handler = path.get(source) if number == STVEC and form == 1 else None
        entries = [] if handler is None else [Path(handler & ~3, {})]
        path.set(target, None)
    path.at += 4
    return [path, *entries]


def wrong_place(read: Callable[[int, int], bytes]) -> int | None:
    """The first address on these paths where no instruction of four bytes is, or none."""
    paths, seen = [Path(RAM)], set[int]()
    while paths and len(seen) < MOST_STEPS:
        path = paths.pop()
        if path.at in seen or not RAM <= path.at < RAM + MOST_RAM:
            continue
        seen.add(path.at)
        code = read(path.at - RAM, 4) if path.at % 4 == 0 else b"\0"
        if path.at % 4 or len(code) == 4 and code[0] & 3 != 3:
            return path.at
        if len(code) == 4:
            paths += paths_after(path, struct.unpack("<I", code)[0])
    return None
