"""Compares lines of cases, and says of each difference whether the standard leaves it open."""
import collections
import re
from typing import NamedTuple

GVA = 0x40


class Case(NamedTuple):
    """A case's line: its number, what it is, the choice that it rests on or `-`, and its values by name."""
    number: str
    head: str
    choice: str
    values: dict


class Difference(NamedTuple):
    """A case that two machines do not answer alike. `choice` is empty where the standard decides it."""
    number: str
    head: str
    values: tuple
    choice: str
    expected: dict
    actual: dict


def parsed(line):
    """The case of a line, or none where the line is not that of a case."""
    head, separator, rest = line.partition(" :")
    words = head.split()
    values = dict(re.findall(r"(~?\w+)=([0-9A-F]+)", rest))
    if not separator or len(words) < 3 or not words[0].isdigit() or not values:
        return None
    return Case(words[0], " ".join(words[1:-1]), words[-1], values)


def choice_of(name, expected, actual, values):
    """The choice that lets a value be another one, or an empty text. `values` are the other machine's."""
    writes_no_htval = values.get("~htval") == "0"
    writes_no_tval = values.get("tval") == "0"
    if name in ("tval", "vstval"):
        return "sstvala" if actual == "0" else ""
    if name == "~htval" or name == "~htinst" and writes_no_htval:
        return "shtvala" if actual == "0" else ""
    if name == "~htinst":
        return ""
    if name == "hstatus" and writes_no_tval and int(expected, 16) ^ int(actual, 16) == GVA:
        return "sstvala"
    return name[1:] if name.startswith("~") else ""


def difference(expected, actual):
    """The difference of two lines of one case, or none."""
    here, there = parsed(expected), parsed(actual)
    if here == there:
        return None
    if here is None or there is None or here[:3] != there[:3] or list(here.values) != list(there.values):
        return Difference(expected.split()[0], "no such line", (("line", expected, actual),), "", {}, {})
    values = tuple((name, here.values[name], there.values[name]) for name in here.values
                   if here.values[name] != there.values[name])
    if here.choice != "-" and all(name.startswith("~") for name, _, _ in values):
        choice = here.choice
    else:
        choices = [choice_of(name, *two, there.values) for name, *two in values]
        choice = "" if "" in choices else ",".join(sorted(set(choices)))
    return Difference(here.number, here.head, values, choice, here.values, there.values)


def class_of(instruction):
    """What the instructions of one sort have in common."""
    for name in ("amo", "hlvx", "hlv", "hsv"):
        if instruction.startswith(name):
            return name
    is_plain = re.fullmatch(r"[ls][bhwd]u?", instruction)
    return {"l": "load", "s": "store"}[instruction[0]] if is_plain else instruction


def outcome_of(values):
    """The code of a case's trap, in decimal, of an interrupt after `i`, or `done` where it makes its
    instruction."""
    cause, guest = (int(next((values[name] for name in (key, "~" + key) if name in values), "0"), 16)
                    for key in ("cause", "vscause"))
    code = guest or cause
    if code >> 63:
        return f"i{code & 63}"
    return "done" if guest == 0 and cause in (8, 10, 0xFF) else f"{code}"


def group_of(found):
    """Words that are the same for differences of one sort: the instruction's class, codes, or names."""
    names = " ".join(name.lstrip("~") for name, _, _ in found.values)
    codes = [outcome_of(values) for values in (found.expected, found.actual)]
    what = f"in {names}" if codes[0] == codes[1] else " -> ".join(codes)
    return f"{class_of(found.head.split()[0])} {what}"


def tally(lines):
    """How many cases there are by class of instruction, mode and outcome, and how many rest on a choice."""
    counts = collections.Counter()
    for case in map(parsed, lines):
        instruction, mode = case.head.split()[:2]
        counts[class_of(instruction), mode, outcome_of(case.values), case.choice != "-"] += 1
    keys = sorted({key[:3] for key in counts},
                  key=lambda key: (key[0], key[1], not key[2].isdigit(), key[2].zfill(20)))
    return [f"{name} {mode} {outcome}: {counts[name, mode, outcome, False]} decided, "
            f"{counts[name, mode, outcome, True]} by choices" for name, mode, outcome in keys]
