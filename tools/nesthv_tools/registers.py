"""Registers by the standard's names: their fields, the causes of traps, and interrupts."""
from nesthv_tools import saves

INTEGER = ("zero ra sp gp tp t0 t1 t2 s0 s1 a0 a1 a2 a3 a4 a5 a6 a7 s2 s3 s4 s5 s6 s7 s8 s9 s10 s11 t3 t4 t5 "
           "t6").split()
NEVER = 2**64 - 1  # of the timer
STATUS = {"SIE": (1, 1), "SPIE": (5, 5), "SPP": (8, 8), "SUM": (18, 18), "MXR": (19, 19), "UXL": (33, 32)}
TRANSLATION = {"MODE": (63, 60), "ASID": (59, 44), "PPN": (43, 0)}
LINES = {"VSS": (2, 2), "VST": (6, 6), "VSE": (10, 10)}
FIELDS = {
    "sstatus": STATUS, "vsstatus": STATUS,
    "sie": {"SSIE": (1, 1), "STIE": (5, 5), "SEIE": (9, 9)},
    "scounteren": {"TM": (1, 1)}, "hcounteren": {"TM": (1, 1)},
    "senvcfg": {"FIOM": (0, 0)}, "henvcfg": {"FIOM": (0, 0)},
    "satp": TRANSLATION, "vsatp": TRANSLATION,
    "hgatp": {"MODE": (63, 60), "VMID": (57, 44), "PPN": (43, 0)},
    "hstatus": {"GVA": (6, 6), "SPV": (7, 7), "SPVP": (8, 8), "HU": (9, 9), "VTVM": (20, 20), "VTW": (21, 21),
                "VTSR": (22, 22), "VSXL": (33, 32)},
    "hie": {name + "IE": bits for name, bits in LINES.items()},
    "hideleg": {name + "I": bits for name, bits in LINES.items()},
    "hvip": {name + "IP": bits for name, bits in LINES.items()}}
EXCEPTIONS = {
    0: "instruction address misaligned", 1: "instruction access fault", 2: "illegal instruction",
    3: "breakpoint", 4: "load address misaligned", 5: "load access fault", 6: "store/AMO address misaligned",
    7: "store/AMO access fault", 8: "ECALL from U or VU", 10: "ECALL from VS", 12: "instruction page fault",
    13: "load page fault", 15: "store/AMO page fault", 20: "instruction guest-page fault",
    21: "load guest-page fault", 22: "virtual instruction", 23: "store/AMO guest-page fault"}
INTERRUPTS = {1: "supervisor software", 2: "VS software", 5: "supervisor timer", 6: "VS timer",
              9: "supervisor external", 10: "VS external"}
# Each interrupt: its bit, what it is called when it is pending, and what enables it.
PENDING = [(1, "SSIP", "sie.SSIE"), (5, "STIP", "sie.STIE"), (9, "SEIP", "sie.SEIE"),
           (2, "VSSIP", "hie.VSSIE"), (6, "VSTIP", "hie.VSTIE"), (10, "VSEIP", "hie.VSEIE")]


def fields_of(name: str, value: int) -> dict[str, int]:
    """The fields of a register that are not zero, by name."""
    found = {}
    for field, (high, low) in FIELDS.get(name, {}).items():
        part = value >> low & (1 << high - low + 1) - 1
        if part:
            found[field] = part
    return found


def translation_of(name: str, value: int) -> str:
    """What satp, vsatp or hgatp says, in words."""
    mode = {0: "Bare", 8: "Sv39", 9: "Sv48"}[value >> 60]
    if not value:
        return mode
    root = (value & (1 << 44) - 1) << 12
    if name == "hgatp":
        return f"{mode}x4, VMID {value >> 44 & 0x7F}, root {root:x}"
    return f"{mode}, ASID {value >> 44 & 0xFFFF}, root {root:x}"


def cause_of(value: int) -> str:
    """What scause or vscause says, in words."""
    code = value & 2**63 - 1
    if value >> 63:
        return f"{INTERRUPTS[code]} interrupt" if code in INTERRUPTS else f"interrupt {code}"
    return EXCEPTIONS.get(code, f"exception {code}")


def meaning_of(name: str, value: int) -> str:
    """What a register's value says, in words, or nothing."""
    if name in ("satp", "vsatp", "hgatp"):
        return translation_of(name, value)
    if name in ("scause", "vscause"):
        return cause_of(value) if value else ""  # 0 is there before the first trap too
    if name in ("stvec", "vstvec"):
        return "vectored" if value & 1 else "direct"
    if name == "hedeleg":
        return " ".join(str(code) for code in range(16) if value >> code & 1)
    if name == "htval" and value:
        return f"guest physical {value << 2 & 2**64 - 1:x}"
    return " ".join(f"{field}={part:x}" for field, part in fields_of(name, value).items())


def pending_of(saved: saves.Saved) -> int:
    """The bits of the interrupts that are pending: those of sip and of hip."""
    number = saved.numbers
    bits = number["sip.SSIP"] << 1 | number["hvip"]
    if number["clock"] >= number["timer"]:
        bits |= 1 << 5
    if saved.inputs and saved.inputs[0][0] <= number["clock"]:
        bits |= 1 << 9
    return bits


def why_not_taken(saved: saves.Saved, bit: int, enable: str) -> str:
    """Why the next step does not take an interrupt that is pending, or nothing where nothing keeps it."""
    number, mode = saved.numbers, saved.mode()
    if not (number["sie"] | number["hie"]) >> bit & 1:
        is_hidden = enable.startswith("hie") and not number["hideleg"] >> bit & 1
        return f"{enable} is clear" + \
            (", which VS cannot set in its sie: hideleg does not have it" if is_hidden else "")
    if number["hideleg"] >> bit & 1:
        if mode in ("HS", "U"):
            return f"hideleg has it, and V is 0 in {mode}"
        if mode == "VS" and not number["vsstatus"] & 2:
            return "hideleg has it, and vsstatus.SIE is clear in VS"
    elif mode == "HS" and not number["sstatus"] & 2:
        return "sstatus.SIE is clear in HS"
    return ""


def lines_of_pending(saved: saves.Saved) -> list[tuple[str, str]]:
    """What is pending, each with what the next step does of it, in words."""
    bits = pending_of(saved)
    found = {bit: (name, why_not_taken(saved, bit, enable))
             for bit, name, enable in PENDING if bits >> bit & 1}
    taken = first_of(saved, [bit for bit, (_, why) in found.items() if not why])
    return [(name, f"not taken: {why}" if why else what_comes(saved, bit, bit == taken))
            for bit, (name, why) in found.items()]


def what_comes(saved: saves.Saved, bit: int, is_taken: bool) -> str:
    """What the next step does of an interrupt that can be taken."""
    target = "VS" if saved.numbers["hideleg"] >> bit & 1 else "HS"
    return f"the next step takes it into {target}" if is_taken else "another interrupt goes first"


def first_of(saved: saves.Saved, ready: list[int]) -> int | None:
    """Which of these interrupts, which can be taken, is."""
    to_vs = saved.numbers["hideleg"]
    order = [bit for bit in (9, 1, 5, 10, 2, 6) if not to_vs >> bit & 1]
    order += [bit for bit in (10, 2, 6) if to_vs >> bit & 1]
    return next((bit for bit in order if bit in ready), None)
