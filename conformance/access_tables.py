"""The tables of both stages of a case of `accesses`, as its line tells them."""
from typing import Callable

import two_stages

# Where the tables lie here: in frames of no superpage, as those of an image do.
NAMES = ("guest-root", "wide-guest-root", "root", "middle", "leaves", "wide-root", "upper", "guest-upper",
         "data-middle", "data-leaves", "table-middle", "table-leaves", "stub-middle", "stub-leaves")
PLACES = {name: 0x80104000 + 0x4000 * number for number, name in enumerate(NAMES)}
IMAGE = 0x80000000
TABLES = 0x40000000             # where the first stage's tables lie for the walk: the image's address there
ALL = 0xDF                      # V, R, W, X, U, A and D


def entry(place: int, bits: int = two_stages.V) -> int:
    return place >> 12 << 10 | bits


def chain(tables: list[str], indices: list[int], level: int, leaf: int, pointers: list[int],
          place: Callable[[str], int]) -> dict[int, int]:
    """Entries from a root down to the leaf of this level. One that is told without a frame names the next table."""
    made = {}
    for at in reversed(range(len(tables))):
        value = leaf
        if at > 0 and at != level:
            value = pointers.pop(0) if pointers else two_stages.V
            value += 0 if two_stages.frame(value) else entry(place(tables[at - 1]), 0)
        made[PLACES[tables[at]] + 8 * indices[at]] = value
    return made


def told(words: list[str], name: str) -> list[int]:
    return [int(words[at + 1], 16) for at, word in enumerate(words) if word == name]


def of_stubs() -> dict[int, int]:
    """The first 2 MiB of RAM, each page at its own address."""
    made = {PLACES["guest-root"] + 8 * 2: entry(PLACES["stub-middle"]), PLACES["stub-middle"]: entry(
        PLACES["stub-leaves"])}
    return made | {PLACES["stub-leaves"] + 8 * page: entry(IMAGE + (page << 12), ALL) for page in range(512)}


def of_tables(bits: list[int], level: int) -> dict[int, int]:
    """The second stage of the first stage's tables, by a leaf of this level."""
    leaves = {page: ALL for page in range(512)}
    leaves |= {PLACES[name] >> 12 & 511: one for name, one in zip(("middle", "leaves", "upper"), bits)}
    made = {PLACES["table-leaves"] + 8 * page: entry(IMAGE + (page << 12), one) for page, one in leaves.items()}
    made[PLACES["guest-root"] + 8] = entry(IMAGE, ALL) if level == 2 else entry(PLACES["table-middle"])
    made[PLACES["table-middle"]] = entry(IMAGE, ALL) if level == 1 else entry(PLACES["table-leaves"])
    return made


def of_first_stage(words: list[str], address: int, pointers: list[int],
                   place: Callable[[str], int]) -> dict[int, int]:
    top = address >> 39 & 511 if words[4] == "sv48" else 0
    tables = ["leaves", "middle", "upper" if top else "root"] + (["wide-root"] if top else [])
    indices = [address >> 12 & 511, 1, address >> 30 & 511, top]
    level, leaf = told(words, "level")[0], told(words, "leaf")[0]
    return {PLACES["wide-root"]: entry(place("root"))} | chain(tables, indices, level, leaf, pointers, place)


def of_second_stage(words: list[str], page: int, top: int, index: int, pointers: list[int]) -> dict[int, int]:
    tables = ["data-leaves", "data-middle", "guest-upper" if top else "guest-root"] + (
        ["wide-guest-root"] if top else [])
    level, leaf = told(words, "level")[1], told(words, "leaf")[1]
    made = chain(tables, [page, 1, index & 511 if top else index, top], level, leaf, pointers, PLACES.__getitem__)
    return {PLACES["wide-guest-root"]: entry(PLACES["guest-root"])} | of_stubs() | made


def stages_of(words: list[str], state: dict[str, int]) -> two_stages.Stages:
    """The tables of a case. An entry of the second stage is at the page to which the first stage's leaf leads."""
    first, second, address = words[4], words[7], state["at"]
    pointers, is_flat = told(words, "pointer"), second == "flat"

    def place(name: str) -> int:
        return PLACES[name] - (0 if is_flat else IMAGE - TABLES)

    memory: dict[int, int] = {}
    if first != "bare":
        memory |= of_first_stage(words, address, pointers, place)
    if not is_flat:
        memory |= of_second_stage(words, state["slot"], state["top"], state["index"], pointers)
        memory |= of_tables(told(words, "table"), state["tables"])
    roots = place("wide-root" if first == "sv48" else "root"), PLACES[
        "wide-guest-root" if second == "sv48x4" else "guest-root"]
    return two_stages.Stages(first, second, *roots, memory)
