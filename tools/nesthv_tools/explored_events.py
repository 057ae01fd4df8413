"""What hardware may do at a step: the events that `explore` tries, each a change of a saved state to another
one that the written architecture allows there. docs/explore.md has the sentence of the standard for each.
"""
from collections.abc import Callable
from typing import NamedTuple

from nesthv_tools import fences, registers, saves

TIMER_BIT, INPUT_BIT = 0x20, 0x200  # of sie: STIE and SEIE
SIE = 2  # of sstatus
MOST_CLOCK = 1 << 62  # more than the steps, of a saved guest
BY = 1000  # steps of the clock, by which `late` moves it


class Setting(NamedTuple):
    """How events are made: by how much `late` moves the clock, and whether the guest reads it. A guest
    that does would see that its timer fired before its moment, which no hardware does: then `timer` moves
    the clock to that moment."""
    by: int
    reads_time: bool


Change = Callable[[saves.Saved, Setting], saves.Saved | None]


class Kind(NamedTuple):
    """A kind of events: what it does, in words, and the changed state, or none where it changes nothing."""
    words: str
    change: Change


def is_taken(saved: saves.Saved, bit: int) -> bool:
    """Whether an interrupt of HS would be taken before the next step, once it is pending. In modes below HS
    it is, whatever SIE is; hideleg can't delegate it (4.1.1, 8.2.2)."""
    number = saved.numbers
    is_let = saved.mode() != "HS" or number["sstatus"] & SIE
    return bool(not number["status"] and number["sie"] & bit and is_let)


def fired(saved: saves.Saved, setting: Setting) -> saves.Saved | None:
    number = saved.numbers
    is_armed = number["clock"] < number["timer"] != registers.NEVER
    if not is_armed or not is_taken(saved, TIMER_BIT):
        return None
    if not setting.reads_time:
        return saved.changed({"timer": number["clock"]})
    is_savable = number["timer"] <= MOST_CLOCK
    return saved.changed({"clock": number["timer"]}) if is_savable else None


def came(saved: saves.Saved, _: Setting) -> saves.Saved | None:
    clock = saved.numbers["clock"]
    if not saved.inputs or saved.inputs[0][0] <= clock or not is_taken(saved, INPUT_BIT):
        return None
    made = saved.changed({})
    made.inputs = [(clock, saved.inputs[0][1]), *saved.inputs[1:]]
    return made


def delayed(saved: saves.Saved, setting: Setting) -> saves.Saved | None:
    number = saved.numbers
    clock = number["clock"] + setting.by
    if number["status"] or clock > MOST_CLOCK + number["steps"]:
        return None
    return saved.changed({"clock": clock})


def woken(saved: saves.Saved, _: Setting) -> saves.Saved | None:
    """The state after the WFI that is next, as if it were a NOP."""
    number = saved.numbers
    if saves.STATUSES[number["status"]] == "stopped":
        return None
    return saved.changed({"status": 0, "pc": number["pc"] + 4, "steps": number["steps"] + 1,
                          "clock": number["clock"] + 1})


def unreserved(saved: saves.Saved, _: Setting) -> saves.Saved | None:
    if not saved.numbers["reservation width"]:
        return None
    return saved.changed({"reservation width": 0, "reservation address": 0})


def dropped(saved: saves.Saved, _: Setting) -> saves.Saved | None:
    if not saved.first and not any(entries for _, entries in saved.spaces):
        return None
    return fences.without_translations(saved)


KINDS = {
    "timer": Kind("the timer fires", fired),
    "input": Kind("the next input comes", came),
    "late": Kind("the instruction before took long", delayed),
    "wake": Kind("WFI ends at once", woken),
    "reservation": Kind("the reservation is lost", unreserved),
    "translations": Kind("the cached translations are dropped", dropped)}
DEFAULT = tuple(kind for kind in KINDS if kind != "late")
# The state tells where these change something, and the log where the others do.
AT_STATES = ("timer", "input", "late")
