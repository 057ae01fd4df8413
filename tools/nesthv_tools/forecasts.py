"""The state after a step, foretold of the state before it and the registers after it: what the step stores,
reserves, and has cached. The rules of the cached translations are those of the definition of the machine.
"""
from collections.abc import Callable
from typing import NamedTuple

from nesthv_tools import saves, state_changes, walks

MOST = 2**64
LOAD, STORE, ATOMIC, SYSTEM = 0x03, 0x23, 0x2F, 0x73
RESERVE, CONDITIONAL = 2, 3  # of funct5
SRET = 0x10200073
ILLEGAL = (2, 22)  # causes of an instruction that makes no access
OPERATIONS: dict[int, Callable[[int, int], int]] = {
    0: lambda held, given: held + given, 1: lambda held, given: given, 4: lambda held, given: held ^ given,
    8: lambda held, given: held | given, 12: lambda held, given: held & given,
    16: min, 20: max, 24: min, 28: max}
SIGNED = (16, 20)  # the operations that compare signed numbers


class Access(NamedTuple):
    """An access to data: its address and width, and its kind as walks have it."""
    address: int
    width: int
    kind: str


def signed(value: int, bits: int) -> int:
    """The signed number that the low bits of this one stand for."""
    value &= (1 << bits) - 1
    return value - (1 << bits) if value >> bits - 1 else value


def register(state: saves.Saved, number: int) -> int:
    """The value of the integer register of this number."""
    return state.numbers[f"x{number}"] if number else 0


def access_of(state: saves.Saved, word: int) -> Access | None:
    """The access to data that an instruction makes in the mode of its state, or none."""
    base, width = register(state, word >> 15 & 31), 1 << (word >> 12 & 3)
    if word & 0x7F == LOAD:
        return Access((base + signed(word >> 20, 12)) % MOST, width, walks.LOAD)
    if word & 0x7F == STORE:
        return Access((base + signed(word >> 25 << 5 | word >> 7 & 31, 12)) % MOST, width, walks.STORE)
    if word & 0x7F == ATOMIC:
        return Access(base, width, walks.LOAD if word >> 27 == RESERVE else walks.STORE)
    return None


def is_plain(word: int | None) -> bool:
    """Whether what an instruction does beside registers can be foretold: of the system ones, that of those
    which read or write a register, or return from a trap."""
    if word is None or word & 0x7F != SYSTEM:
        return True
    return word >> 12 & 3 != 0 or word == SRET


def with_filled(state: saves.Saved, address: int, kind: str) -> saves.Saved:
    """A state that has cached what an access of a kind to an address finds."""
    found = walks.Translation(walks.View(state), address)
    is_known, view = found.is_by_first(kind), found.view
    if found.first and not is_known:
        for met in found.first.met:
            state = with_second(state, met.reached, walks.IMPLICIT)
        wrong = found.first.wrong or view.user_wrong(found.first.leaf, kind) \
            or walks.right_wrong(found.first.leaf, kind, view.mxr)
        if wrong:
            return state
        flags = walks.first_flags(found.first)
        entry = saves.First(*view.key(), address >> 12, found.first.address >> 12, flags)
        kept = [each for each in state.first if each[:4] != entry[:4]]
        state = state.changed({}, first=[*kept, entry][-saves.MOST_FIRST:])
    return with_second(state, found.cached_second if is_known else found.second, kind)


def with_second(state: saves.Saved, second: walks.Second | None, kind: str) -> saves.Saved:
    """A state that has cached what the second stage gives an access of a kind."""
    if second is None or second.walk is None or not state.spaces:
        return state
    cached = walks.cached_of(state, second.view.hgatp).get(second.address >> 12)
    if cached and walks.permits(cached[1], kind, second.view.hs_mxr):
        return state
    flags = walks.table_flags(second.walk)
    if flags is None or second.answer(kind).address is None:
        return state
    (key, entries), *others = state.spaces
    entry = second.address >> 12, second.walk.address >> 12, flags
    kept = [each for each in entries if each[0] != entry[0]]
    return state.changed({}, spaces=[(key, [*kept, entry][-state.numbers["entries"]:]), *others])


def modified(word: int, width: int, held: int, given: int) -> int:
    """What an atomic memory operation stores."""
    function, bits = word >> 27, 8 * width
    if function in SIGNED:
        held, given = signed(held, bits), signed(given, bits)
    else:
        held, given = (each & (1 << bits) - 1 for each in (held, given))
    return OPERATIONS.get(function, OPERATIONS[1])(held, given)


def with_stored(state: saves.Saved, before: saves.Saved, word: int, access: Access) -> saves.Saved | None:
    """A state after an access to data that is made: what it has stored and reserved. None where it is one to
    the device page."""
    answer = walks.Translation(walks.View(before), access.address).answers[access.kind]
    if answer.address is None or answer.device is not None:
        return None
    is_atomic, function = word & 0x7F == ATOMIC, word >> 27
    if is_atomic and function == RESERVE:
        return state.changed({"reservation width": access.width, "reservation address": answer.address})
    if access.kind == walks.LOAD:
        return state
    value = register(before, word >> 20 & 31)
    if is_atomic and function == CONDITIONAL:
        state = state.changed({"reservation width": 0, "reservation address": 0})
        number = before.numbers
        if (number["reservation width"], number["reservation address"]) != (access.width, answer.address):
            return state
    elif is_atomic:
        value = modified(word, access.width, before.word_at(answer.address, access.width) or 0, value)
    made = state.changed({})
    data = (value % (1 << 8 * access.width)).to_bytes(access.width, "little")
    made.ram = state.ram.changed(answer.address, data)
    return made


def forecast(before: saves.Saved, numbers: dict[str, int]) -> saves.Saved | None:
    """The state after a step that leaves these registers, or none where that cannot be foretold."""
    word, _, _ = walks.fetched(before)
    number = before.numbers
    state = before.changed({**numbers, "steps": number["steps"] + 1, "clock": number["clock"] + 1})
    trap = state_changes.trap_of(before, state)
    if trap and trap["cause"] >> 63:
        return state
    if not trap and not is_plain(word) or number["mode"] < 2 <= numbers["mode"]:
        return None
    filled = with_filled(before, number["pc"], walks.FETCH)
    access = None if word is None or trap and trap["cause"] in ILLEGAL else access_of(before, word)
    if access and access.address % access.width == 0:
        filled = with_filled(filled, access.address, access.kind)
    state = state.changed({}, filled.spaces, filled.first)
    return state if word is None or access is None or trap else with_stored(state, before, word, access)
