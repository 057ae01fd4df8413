"""What changes from one state to another: where two states differ, which cached translations came and went,
and the trap that a step took.
"""
from collections.abc import Container, Iterator
from dataclasses import dataclass
from typing import Any, NamedTuple

from nesthv_tools import registers, reports, saves, walks

Trap = dict[str, Any]

SHOWN_WORDS = 4  # of RAM, in a list of differences
MEMORY = "memory"
DECIMAL = ("clock", "unread inputs")
SIZES = ("blocks", "spaces", "entries", "console", "device", "steps")


def words_that_differ(one: saves.Ram, other: saves.Ram, ignored: Container[int] = ()) -> Iterator[int]:
    """The places of the doublewords that differ of two RAMs, except for those to be ignored."""
    for start, first, second in saves.pieces_that_differ(one, other):
        for page in range(0, len(first), 4096):
            if first[page:page + 4096] == second[page:page + 4096]:
                continue
            for at in range(page, page + 4096, 8):
                if first[at:at + 8] != second[at:at + 8] and start + at + saves.RAM not in ignored:
                    yield start + at + saves.RAM


@dataclass(frozen=True)
class Change:
    """What differs of two states: a register, a doubleword of RAM at `place`, a byte of the console of number
    `place`, or a count."""

    name: str
    one: int | str
    other: int | str
    place: int | None = None

    def value(self) -> dict[str, Any]:
        """As JSON has it."""
        where = {} if self.place is None else {"place": self.place}
        return {"name": self.name, **where, "values": [self.one, self.other]}

    def line(self, mark: str) -> str:
        """The name and the two values, with a mark between them."""
        one, other = (f"{each:x}" if isinstance(each, int) and self.name not in DECIMAL else f"{each}"
                      for each in (self.one, self.other))
        return f"{self.shown_name()} {one} {mark} {other}".rstrip(f" {mark}")

    def shown_name(self) -> str:
        if self.place is None:
            return self.name
        return f"[{self.place:x}]" if self.name == MEMORY else f"{self.name} {self.place}"


def line_of(value: dict[str, Any], mark: str) -> str:
    """The line of what JSON has of a change."""
    one, other = value["values"]
    return Change(value["name"], one, other, value.get("place")).line(mark)


def numbers_that_differ(one: saves.Saved, other: saves.Saved) -> Iterator[Change]:
    """The registers that differ of two states, by the standard's names."""
    for name, value in one.numbers.items():
        if name not in SIZES and value != other.numbers[name]:
            yield change_of(name, value, other.numbers[name])


def change_of(name: str, one: int, other: int) -> Change:
    """The change of a number of a state, by the standard's name."""
    words = {"mode": saves.MODES, "status": saves.STATUSES}.get(name)
    if words:
        return Change(name, words[one], words[other])
    is_integer = name[0] == "x" and name[1:].isdigit()
    return Change(registers.INTEGER[int(name[1:])] if is_integer else name, one, other)


def console_difference(one: bytes, other: bytes) -> list[Change]:
    """What each of two consoles has from the first byte on that differs."""
    if one == other:
        return []
    at = reports.place_of(one, other)
    shown = [reports.quoted(each[at:at + 16]) if each[at:] else "its end" for each in (one, other)]
    return [Change("console byte", shown[0], shown[1], at)]


def differences(one: saves.Saved, other: saves.Saved, ignored: Container[int] = ()) -> list[Change]:
    """What differs of two states. Spaces may differ."""
    found = [*numbers_that_differ(one, other), *console_difference(one.console, other.console)]
    if one.inputs != other.inputs:
        found.append(Change("unread inputs", len(one.inputs), len(other.inputs)))
    for count, place in enumerate(words_that_differ(one.ram, other.ram, ignored)):
        if count == SHOWN_WORDS:
            found.append(Change("more of RAM", "", ""))
            break
        found.append(Change(MEMORY, one.word_at(place) or 0, other.word_at(place) or 0, place))
    return found


class CacheChange(NamedTuple):
    """A cached translation that a step filled or dropped: what it did, and the addresses of the page and of
    the frame. Of the first stage it has the register of the table too."""

    what: str
    page: int
    frame: int


def cache_changes(before: saves.Saved, after: saves.Saved) -> list[CacheChange]:
    """Which cached translations a step filled and dropped."""
    found = []
    for collected in (entries_of, firsts_of):
        sets = [collected(saved) for saved in (before, after)]
        for what, entries in (("filled", sets[1] - sets[0]), ("dropped", sets[0] - sets[1])):
            for entry in sorted(entries):
                found.append(CacheChange(f"{what} {entry[0]}".rstrip(), entry[-3] << 12, entry[-2] << 12))
    return found


def entries_of(saved: saves.Saved) -> set[tuple[Any, ...]]:
    """The cached translations of the second stage, each after no register and its key."""
    return {("", key, *entry) for key, entries in saved.spaces for entry in entries}


def firsts_of(saved: saves.Saved) -> set[tuple[Any, ...]]:
    """The cached translations of the first stage, each after the register of its table."""
    return {("vsatp" if entry.v else "satp", *entry) for entry in saved.first}


def trap_of(before: saves.Saved, after: saves.Saved) -> Trap | None:
    """The trap that a step took: where to, its cause and its values, or none."""
    for mode, bank in (("HS", ""), ("VS", "vs")):
        number = {name: after.numbers[bank + name if bank else "s" + name] for name in
                  ("status", "epc", "cause", "tval")}
        vector = before.numbers[f"{bank}tvec" if bank else "stvec"]
        code = number["cause"] & 2**63 - 1
        goes_to = (vector & ~3) + (4 * code if number["cause"] >> 63 and vector & 1 else 0) & 2**64 - 1
        is_from = before.mode()[0] == "V"
        came = is_from if bank else after.numbers["hstatus"] >> 7 & 1 == is_from
        places = after.numbers["pc"], number["epc"]
        if came and after.mode() == mode and places == (goes_to, before.numbers["pc"]) \
                and is_status_of_trap(before, number["status"], bank) and not is_made(before, after):
            return {"to": mode, "cause": number["cause"], "words": registers.cause_of(number["cause"]),
                    "tval": number["tval"], "htval": after.numbers["htval"] if mode == "HS" else 0,
                    "htinst": after.numbers["htinst"] if mode == "HS" else 0}
    return None


def is_status_of_trap(before: saves.Saved, status: int, bank: str) -> bool:
    """Whether a trap leaves this in sstatus or vsstatus."""
    was = before.numbers["vsstatus" if bank else "sstatus"]
    spp = before.mode() in ("HS", "VS")
    return status >> 8 & 1 == spp and not status & 2 and status >> 5 & 1 == was >> 1 & 1


def is_made(before: saves.Saved, after: saves.Saved) -> bool:
    """Whether the step may have made its instruction: it has changed no register that a trap writes, and the
    instruction may have led to this pc."""
    names = ("mode", "hstatus", "sstatus", "scause", "stval", "sepc", "vsstatus", "vscause", "vstval",
             "vsepc")
    if any(before.numbers[name] != after.numbers[name] for name in names):
        return False
    word, _, _ = walks.fetched(before)
    is_jump = word is not None and word & 0x7F in (0x63, 0x67, 0x6F)
    return word is not None and (is_jump or after.numbers["pc"] == before.numbers["pc"] + 4)
