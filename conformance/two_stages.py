"""Where an access goes through both stages of translation, by 4.3.2, 4.4.1, 4.5.1, 8.3.1 and 8.5 of Privileged
Architecture 20211203."""
from typing import Callable, NamedTuple

V, R, W, X, U, A, D = 1, 2, 4, 8, 16, 64, 128
RESERVED = 1023 << 54
LEVELS = {"sv39": 3, "sv48": 4, "sv39x4": 3, "sv48x4": 4}
RAM = range(0x80000000, 0x80400000)


class Fault(Exception):
    """Why an access is not made: `page` of the first stage, `guest` of the second, or `access`. `address` is the guest
    physical one, and `is_implicit` tells that it is an entry's."""

    def __init__(self, kind: str, address: int = 0, is_implicit: bool = False):
        super().__init__(kind)
        self.kind, self.address, self.is_implicit = kind, address, is_implicit


class Access(NamedTuple):
    """`kind` is fetch, load, store, or execute, which is HLVX."""
    kind: str
    is_user: bool
    may_use: bool           # SUM
    first_readable: bool    # MXR of the first stage, and of the second
    second_readable: bool


class Stages(NamedTuple):
    """The modes, `bare` or `flat` for none, where the roots lie, and entries by their physical addresses."""
    first: str
    second: str
    first_root: int
    second_root: int
    memory: dict[int, int]


def frame(entry: int) -> int:
    return (entry >> 10 & (1 << 44) - 1) << 12


def leaf_of(read: Callable[[int], int], root: int, levels: int, wider: int, address: int) -> tuple[int, int]:
    """The leaf of an address and its level. The root has 2^`wider` times as many entries as another table."""
    for level in reversed(range(levels)):
        bits = 9 + (wider if level == levels - 1 else 0)
        entry = read(root + 8 * (address >> 12 + 9 * level & (1 << bits) - 1))
        if not entry & V or entry & (R | W) == W or entry & RESERVED:
            break
        if entry & (R | X):
            return entry, level
        if entry & (A | D | U):
            break
        root = frame(entry)
    raise Fault("page")


def place_of(leaf: int, level: int, address: int) -> int:
    """Where a leaf of this level leads. It has to name a place that is a multiple of its size."""
    size = 1 << 12 + 9 * level
    if frame(leaf) % size != 0:
        raise Fault("page")
    return frame(leaf) | address % size


def permits(leaf: int, kind: str, is_readable: bool) -> bool:
    """What R, W, X, A and D permit."""
    right = {"fetch": X, "execute": X, "store": W}.get(kind, R | (X if is_readable else 0))
    return leaf & right != 0 and leaf & A != 0 and (kind != "store" or leaf & D != 0)


def in_memory(stages: Stages, place: int) -> int:
    if place not in RAM:
        raise Fault("access")
    return stages.memory.get(place, 0)


def second_stage(stages: Stages, address: int, kind: str, is_readable: bool, is_implicit: bool) -> int:
    if stages.second == "flat":
        return address
    levels = LEVELS[stages.second]
    try:
        if address >> 14 + 9 * levels != 0:
            raise Fault("page")
        leaf, level = leaf_of(lambda place: in_memory(stages, place), stages.second_root, levels, 2, address)
        if not leaf & U or not permits(leaf, kind, is_readable):
            raise Fault("page")
        return place_of(leaf, level, address)
    except Fault as fault:
        if fault.kind == "page":
            raise Fault("guest", address, is_implicit) from None
        raise


def first_stage(stages: Stages, address: int, access: Access) -> int:
    if stages.first == "bare":
        return address
    levels = LEVELS[stages.first]
    if address >> 11 + 9 * levels not in (0, (1 << 53 - 9 * levels) - 1):
        raise Fault("page")

    def read(place: int) -> int:
        return in_memory(stages, second_stage(stages, place, "load", False, True))

    leaf, level = leaf_of(read, stages.first_root, levels, 0, address)
    is_of_user = leaf & U != 0
    is_open = is_of_user if access.is_user else not is_of_user or access.may_use and access.kind != "fetch"
    if not is_open or not permits(leaf, access.kind, access.first_readable):
        raise Fault("page")
    return place_of(leaf, level, address)


def translated(stages: Stages, address: int, access: Access) -> int:
    """Where an access goes, or a fault."""
    guest = first_stage(stages, address, access)
    place = second_stage(stages, guest, access.kind, access.second_readable, False)
    if place not in RAM:
        raise Fault("access")
    return place
