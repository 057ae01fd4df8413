"""What the standard decides of control and status registers: of which bits, and which of these a write changes.
Sections are those of Privileged Architecture 20211203."""
from typing import Callable

from nesthv_tools.csrs import NUMBERS

TIME = NUMBERS["time"]
ALL = (1 << 64) - 1
STATUS, EMPTY_OF_STATUS = 0xC0122, 0x21899      # SIE, SPIE, SPP, SUM and MXR; bits that are 0 (4.1.1, 8.2.11)
INTERRUPTS, EMPTY_OF_INTERRUPTS = 0x222, 0x1CCC
OF_GUESTS = 0x444
# Each register by the bits that are decided, and by those of them that a write changes.
DECIDED = {
    "sstatus": (STATUS | EMPTY_OF_STATUS, STATUS), "vsstatus": (STATUS | EMPTY_OF_STATUS, STATUS),
    "sie": (INTERRUPTS | EMPTY_OF_INTERRUPTS, INTERRUPTS), "vsie": (INTERRUPTS | EMPTY_OF_INTERRUPTS, INTERRUPTS),
    "sip": (INTERRUPTS | EMPTY_OF_INTERRUPTS, 2), "vsip": (INTERRUPTS | EMPTY_OF_INTERRUPTS, 2),    # 4.1.3, 8.2.12
    "stvec": (0, 0), "vstvec": (0, 0), "scounteren": (0, 0), "hcounteren": (0, 0), "htval": (0, 0), "htinst": (0, 0),
    "senvcfg": (1, 1), "henvcfg": (1, 1),       # FIOM (4.1.10, 8.2.5)
    "sscratch": (ALL, ALL), "vsscratch": (ALL, ALL), "htimedelta": (ALL, ALL),
    "sepc": (ALL, ALL), "vsepc": (ALL, ALL), "scause": (ALL, ALL), "vscause": (ALL, ALL), "stval": (ALL, ALL),
    "vstval": (ALL, ALL), "vsatp": (ALL, ALL), "hgatp": (ALL, ALL),
    "satp": (ALL, 0),                           # a MODE that there is not changes nothing (4.1.11)
    "hstatus": (0x7003C0, 0x7003C0), "hedeleg": (0xF0BFFE, 0xB1FE),         # 8.2.1, 8.2.2
    "hideleg": (OF_GUESTS | 0x1222, OF_GUESTS), "hie": (OF_GUESTS | INTERRUPTS, OF_GUESTS),     # 8.2.2, 8.2.3
    "hip": (OF_GUESTS | INTERRUPTS, 4), "hvip": (OF_GUESTS | INTERRUPTS, OF_GUESTS),
    "hgeie": (1, 0), "hgeip": (1, 0)}           # 8.2.4
NAMES = {number: name for name, number in NUMBERS.items() if name in DECIDED}
OPERATIONS: dict[str, Callable[[int, int], int]] = {
    "csrrw": lambda held, value: value, "csrrs": lambda held, value: held | value,
    "csrrc": lambda held, value: held & ~value}


def is_written(operation: str, value: int) -> bool:
    """CSRRS and CSRRC of x0, or of the immediate 0, do not write (9.1 of the unprivileged standard)."""
    return operation != "csrr" and not (operation in ("csrrsi", "csrrci") and value == 0)


def is_left_open(name: str, operation: str) -> bool:
    """Whether a case may write a value that not each machine holds: an immediate, or bits of two codes (2.3)."""
    is_code, is_immediate = name in ("scause", "vscause"), operation.endswith("i")
    is_narrow = is_code or name in (
        "stvec", "vstvec", "sepc", "vsepc", "stval", "vstval", "satp", "vsatp", "hgatp")
    return is_immediate and is_narrow or is_code and operation in ("csrrs", "csrrc")


def reached(number: int, mode: str) -> int:
    """In VS the numbers of S are of VS, where VS has such a register (8.2.11 to 8.2.18)."""
    has_other = number >> 8 == 1 and NAMES[number] not in ("scounteren", "senvcfg")
    return number + 0x100 if mode == "VS" and has_other else number


def code_of(number: int, mode: str, writes: bool, is_kept: bool) -> int | None:
    """Why an access traps, by 2.1, 8.2.1 and 8.6.1; or none. `is_kept` says that satp is kept from VS."""
    if writes and number >> 10 == 3:
        return 2
    if mode == "HS" or mode == "VS" and number >> 8 == 1 and not (is_kept and NAMES[number] == "satp"):
        return None
    return 2 if mode == "U" else 22


def held(name: str, operation: str, before: int, value: int, hideleg: int) -> int:
    """What a register holds after a write. vsie and vsip have the bits that hideleg has."""
    decided, changes = DECIDED[name]
    if name in ("vsie", "vsip"):
        changes &= hideleg >> 1
    made = OPERATIONS[operation.rstrip("i") if operation != "csrw" else "csrrw"](before, value)
    return (before & ~changes | made & changes) & decided
