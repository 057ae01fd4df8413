"""What instructions, traps and SRET make of the control and status registers, by the Privileged Architecture,
and by the bits that this machine has. Registers have the names of a saved guest.
"""
from nesthv_tools import csrs, saves

Numbers = dict[str, int]

NAMES = {number: name for name, number in csrs.NUMBERS.items()}
VIRTUAL = frozenset((0x100, 0x104, 0x105, 0x140, 0x141, 0x142, 0x143, 0x144, 0x180))  # with V = 1 those of VS
TABLES = ("satp", "vsatp", "hgatp")  # whose write of a MODE that there is not changes nothing
MODES = (0, 8, 9)
VS_BITS = 0x444
SIE, SPIE, SPP, SPV, SPVP, GVA = 1 << 1, 1 << 5, 1 << 8, 1 << 7, 1 << 8, 1 << 6


def name_of(word: int, is_nested: bool) -> str:
    """The name of the register that an instruction on one names, which is in its top 12 bits."""
    number = word >> 20
    return NAMES.get(number + 0x100 if is_nested and number in VIRTUAL else number, "")


def is_csr(word: int) -> bool:
    """Whether it is one of CSRRW to CSRRCI."""
    return word & 0x7F == 0x73 and word >> 12 & 3 != 0


def shown(numbers: Numbers, name: str) -> int:
    """What an instruction reads of a register."""
    if name in numbers:
        return numbers[name]
    delegated = numbers["hideleg"]
    return {"sip": numbers["sip.SSIP"] << 1, "vsie": (numbers["hie"] & delegated) >> 1,
            "vsip": (numbers["hvip"] & delegated) >> 1, "hip": numbers["hvip"]}.get(name, 0)


def asked(word: int, source: int, before: int) -> int | None:
    """The value that an instruction writes, or none where it only reads. `source` is the value of rs1, and
    `before` what is read."""
    given = word >> 15 & 31
    value = given if word >> 14 & 1 else source
    kind = word >> 12 & 3
    if kind == 1:
        return value
    if not given:
        return None
    return before | value if kind == 2 else before & ~value


def written(numbers: Numbers, name: str, value: int) -> tuple[str, int] | None:
    """The register that a write changes, which may have another name, and what it then has; or none."""
    delegated = numbers["hideleg"]
    if name == "sip":
        return "sip.SSIP", value >> 1 & 1
    if name == "vsie":
        return "hie", numbers["hie"] & ~delegated | value << 1 & delegated
    if name in ("vsip", "hip"):
        bit = 4 & (delegated if name == "vsip" else VS_BITS)
        return "hvip", numbers["hvip"] & ~bit | (value << 1 if name == "vsip" else value) & bit
    if name not in numbers or name in TABLES and value >> 60 not in MODES:
        return None
    mask, always = saves.REGISTERS[name]
    return name, value & mask | always


def of_trap(numbers: Numbers, mode: str, pc: int, level: str, cause: int, tval: int,
            page: int | None, gva: int, htinst: int) -> Numbers:
    """What a trap from a mode and pc changes."""
    front, status = ("vs", "vsstatus") if level == "VS" else ("s", "sstatus")
    was, is_supervisor = numbers[status], mode in ("HS", "VS")
    now = was & ~(SIE | SPIE | SPP) | (SPIE if was & SIE else 0) | (SPP if is_supervisor else 0)
    made = {status: now, f"{front}epc": pc, f"{front}cause": cause, f"{front}tval": tval}
    if level == "HS":
        is_nested = mode in ("VS", "VU")
        hstatus = numbers["hstatus"] & ~(SPV | GVA | (SPVP if is_nested else 0))
        made["hstatus"] = hstatus | (SPV if is_nested else 0) | (GVA if gva else 0) \
            | (SPVP if is_nested and is_supervisor else 0)
        made.update(htval=(page or 0) >> 2, htinst=htinst)
    return made


def of_sret(numbers: Numbers, mode: str) -> Numbers:
    """What SRET changes in HS or VS."""
    status = "vsstatus" if mode == "VS" else "sstatus"
    was = numbers[status]
    made = {status: was & ~(SIE | SPP) | (SIE if was & SPIE else 0) | SPIE}
    if mode == "HS":
        made["hstatus"] = numbers["hstatus"] & ~SPV
    return made
