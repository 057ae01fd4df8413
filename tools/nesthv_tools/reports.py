"""Reads a report: its sections, each with its console by the number of bytes that its header has."""
import re
from collections.abc import Sequence
from typing import Any, NamedTuple

from nesthv_tools import saves

Section = dict[str, Any]

MOST = 33554432
HEADER = re.compile(rb"guest (\w+) (\w+) steps (\d+) bytes (\d+)\n")


def sections_of(report: bytes) -> list[Section] | None:
    """The sections of a report, in order, or none where it is not a report. Each character of `console` is
    one byte."""
    sections, at = [], 0
    while at < len(report):
        found = HEADER.match(report, at)
        if not found:
            return None
        end = found.end() + int(found[4])
        if report[end:end + 1] != b"\n":
            return None
        sections.append({"name": found[1].decode(), "status": found[2].decode(), "steps": int(found[3]),
                         "bytes": int(found[4]), "console": report[found.end():end].decode("latin-1")})
        at = end + 1
    return sections


class Told(NamedTuple):
    """What a report tells of the state of a guest, by the names that a saved guest has."""
    numbers: dict[str, int]
    console: bytes


def told_in(report: bytes) -> Told | None:
    """What a report of one guest tells, or none where it is not one."""
    sections = sections_of(report)
    if not sections or sections[0]["status"] not in saves.STATUSES:
        return None
    numbers = {"status": saves.STATUSES.index(sections[0]["status"]), "steps": sections[0]["steps"]}
    return Told(numbers, sections[0]["console"].encode("latin-1"))


def bytes_of(path: str) -> bytes | None:
    """The bytes of a stored report, as many as `replay` reads, or none where it cannot be read."""
    try:
        with open(path, "rb") as file:
            return file.read(MOST)
    except OSError:
        return None


def quoted(data: bytes) -> str:
    """Bytes of a console, in quotes."""
    return repr(data.decode("latin-1"))


def place_of(one: Sequence[object], other: Sequence[object]) -> int:
    """The first place where two texts differ, or the length of the shorter where the other goes on."""
    same = (at for at, pair in enumerate(zip(one, other)) if pair[0] != pair[1])
    return next(same, min(len(one), len(other)))


def difference_of(stored: Section, made: Section) -> str:
    """What differs of two sections of the same guest, in words."""
    words = [f"{key} {stored[key]} -> {made[key]}" for key in ("name", "status", "steps", "bytes")
             if stored[key] != made[key]]
    if stored["console"] != made["console"]:
        at = place_of(stored["console"], made["console"])
        shown = [repr(each["console"][at:at + 16]) if at < len(each["console"]) else "its end"
                 for each in (stored, made)]
        words.append(f"console byte {at}: {shown[0]} -> {shown[1]}")
    return ", ".join(words)


def differences(stored: bytes, made: bytes) -> list[str]:
    """What differs of two reports, the stored one first, a line for each guest."""
    if stored == made:
        return []
    before, after = sections_of(stored), sections_of(made)
    if before is None or not stored:
        return [f"the stored report is not a whole report, and differs at byte {place_of(stored, made)}"]
    if after is None:
        return ["what the program wrote is not a report"]
    pairs = [pair for pair in zip(before, after) if pair[0] != pair[1]]
    lines = [f"guest {one['name']}: {difference_of(one, other)}" for one, other in pairs]
    if len(before) != len(after):
        lines.append(f"guests {len(before)} -> {len(after)}")
    return lines
