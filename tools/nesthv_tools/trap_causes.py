"""Why a trap was taken, as far as the states up to it say."""
import re
from collections.abc import Callable, Iterator

from nesthv_tools import csr_effects, csrs, logged_timer, registers, registers_at, saves, searches, walks
from nesthv_tools.sessions import Session
from nesthv_tools.state_changes import Trap

Question = Callable[[registers_at.State], object]


class IsTimer:
    """Asks whether the timer of a state is this moment."""

    def __init__(self, timer: int) -> None:
        self.timer = timer

    def __call__(self, state: registers_at.State) -> object:
        return state.numbers["timer"] == self.timer


TIME, SATP = csrs.NUMBERS["time"], csrs.NUMBERS["satp"]
WFI, SRET = 0x10500073, 0x10200073
VTVM, VTW, VTSR = 1 << 20, 1 << 21, 1 << 22
ACCESSES = {1: walks.FETCH, 5: walks.LOAD, 7: walks.STORE}  # by the code of an access fault
MRET = 0x30200073
NAMES = {**csr_effects.NAMES, 0x001: "fflags", 0x002: "frm", 0x003: "fcsr", 0x10C: "sstateen0", 0x14D: "stimecmp",
         0x24D: "vstimecmp", 0x301: "misa", 0x302: "medeleg", 0x303: "mideleg", 0x304: "mie", 0x305: "mtvec",
         0x306: "mcounteren", 0x30A: "menvcfg", 0x340: "mscratch", 0x341: "mepc", 0x342: "mcause", 0x343: "mtval",
         0x344: "mip", 0x3A0: "pmpcfg0", 0x3B0: "pmpaddr0", 0x60C: "hstateen0", 0xC02: "instret", 0xF11: "mvendorid",
         0xF12: "marchid", 0xF13: "mimpid"}
EXTENSIONS = {0x10: "base", 0x54494D45: "TIME", 0x735049: "IPI", 0x52464E43: "RFENCE", 0x48534D: "HSM",
              0x53525354: "SRST", 0x4442434E: "DBCN", 0x504D55: "PMU", 0x4E41434C: "NACL"}
CALL_0 = ": call 0 sets the timer"
INSTEAD = {0xF14: ": there is one hart, of number 0", 0x14D: CALL_0, 0x24D: ": a hypervisor sets hvip.VSTIP",
           0x304: ": sie enables interrupts", 0x305: ": stvec has the handler", 0xC00: ": time counts steps",
           0xC02: ": time counts steps"}
CONSOLE = "call 1 puts a byte, and so does the device page of a guest that has it"
DEVICES = [(0x10000000, 0x1000, "a UART", CONSOLE), (0x09000000, 0x1000, "a UART", CONSOLE),
           (0x02000000, 0x10000, "the CLINT", "time is the clock, and call 0 sets the timer"),
           (0x0C000000, 0x4000000, "the PLIC", "inputs are interrupt 9, and call 2 reads them"),
           (0x00100000, 0x1000, "a register that ends the machine", "call 8 stops it"),
           (0x10001000, 0x8000, "virtio devices", "there are none")]
FLOATING = (0x07, 0x27, 0x43, 0x47, 0x4B, 0x4F, 0x53)


def is_csr(word: int, number: int) -> bool:
    return word & 0x7F == 0x73 and word >> 12 & 3 != 0 and word >> 20 == number


def why_refused(saved: saves.Saved, word: int | None, code: int) -> str:
    """Why an instruction is illegal (2) or virtual (22) in this state, in words, or nothing."""
    number, mode = saved.numbers, saved.mode()
    if word is None:
        return ""
    if is_csr(word, TIME):
        clear = [name for name in ("hcounteren", "scounteren") if not number[name] & 2
                 and mode in (("VS", "VU") if name == "hcounteren" else ("U", "VU"))]
        return " and ".join(f"{name}.TM" for name in clear) + " is clear" if clear else ""
    if code != 22:
        return why_illegal(word, mode)
    is_fence = word >> 25 == 9 and word & 0x7FFF == 0x73
    for is_it, bit, name in ((is_fence or is_csr(word, SATP), VTVM, "VTVM"), (word == WFI, VTW, "VTW"),
                             (word == SRET, VTSR, "VTSR")):
        if mode == "VS" and is_it and number["hstatus"] & bit:
            return f"hstatus.{name} is set"
    return "HS may make it, and VS may not" if mode == "VS" else "VU may not make it"


def why_illegal(word: int, mode: str) -> str:
    """Why a word is an illegal instruction, as far as the word says, or nothing."""
    if word == 0:
        return "it is 0, as memory is that nobody wrote"
    if word & 3 != 3:
        return "its low half is a compressed instruction"
    if word & 0x7F in FLOATING:
        return "it is of floating point"
    if word == MRET:
        return "MRET is of M-mode, which there is not: a guest starts in HS"
    if word & 0x7F == 0x73 and word >> 12 & 3:
        return why_no_csr(word >> 20, mode)
    return "U may not make it" if word & 0x7F == 0x73 and mode == "U" else ""


def why_no_csr(number: int, mode: str) -> str:
    """Why there is no register of a number in a mode, in words."""
    name = NAMES.get(number, f"register {number:03x}")
    if number >> 8 & 3 == 3:
        return f"{name} is of M-mode, which there is not" + INSTEAD.get(number, "")
    if number >> 8 & 3 == 0 and number < 4:
        return f"{name} is of floating point, which there is not"
    if number in csrs.NUMBERS.values() and mode in ("U", "VU"):
        return f"{mode} may not reach {name}"
    return f"there is no {name} here{INSTEAD.get(number, '')}"


def why_place(address: int) -> str:
    """What other machines have at a physical address, and what is here in place of it, or nothing."""
    if address < 4096:
        return f"{address:x} is where a pointer of 0 leads, and there is no memory"
    return next((f"{address:x} is where many machines have {what}: here {instead}"
                 for low, size, what, instead in DEVICES if low <= address < low + size), "")


def why_no_access(saved: saves.Saved, word: int | None, trap: Trap) -> str:
    """Why an access is a fault that leads to the device page of a guest that has it, or to no memory, in words, or
    nothing."""
    view = walks.view_of_access(saved, word)
    answer = walks.Translation(view, trap["tval"]).answers[ACCESSES[trap["cause"]]]
    if answer.device is None:
        reached = re.match("([0-9a-f]+) is not in RAM", answer.wrong)
        why = why_place(int(reached[1], 16)) if reached else ""
        is_bare = saved.mode()[0] == "V" and not saved.numbers["hgatp"]
        return "hgatp is 0, so guest physical addresses are physical ones" if is_bare else why
    return "the device page serves a load and a store of 1 byte at offset " \
        "0, and a load of 8 bytes at offset 8: any other access is an access fault"


def conditions_of(saved: saves.Saved, cause: int, target: str) -> Iterator[tuple[str, Question | None]]:
    """What lets the next step take an interrupt, each in words and as a question of a state."""
    bit = (cause & 2**63 - 1) + (target == "VS")
    name = next(name for each, name, _ in registers.PENDING if each == bit)
    if bit == 5:
        timer = saved.numbers["timer"]
        yield f"the clock is {saved.numbers['clock']}, and the timer {timer}", IsTimer(timer)
        register = "sie"
    elif bit == 9:
        moment, byte = saved.inputs[0]
        yield f"the clock is {saved.numbers['clock']}, and the input {byte} of {moment} is unread", None
        register = "sie"
    elif bit == 1:
        yield "sip.SSIP is set", lambda state: state.numbers["sip.SSIP"]
        register = "sie"
    else:
        yield f"hvip.{name} is set", lambda state: state.numbers["hvip"] >> bit & 1
        register = "hie"
    yield f"{register}.{name[:-1]}E is set", lambda state: state.numbers[register] >> bit & 1


def reasons_of(session: Session, before: saves.Saved, word: int | None, trap: Trap) -> list[str]:
    """Why the step after this state took a trap, each a line."""
    step = before.numbers["steps"]
    if trap["cause"] >> 63:
        return [words + (since(session, holds, step) if holds else "")
                for words, holds in conditions_of(before, trap["cause"], trap["to"])]
    why = why_refused(before, word, trap["cause"]) if trap["cause"] in (2, 22) else \
        why_no_access(before, word, trap) if trap["cause"] in ACCESSES else ""
    return [why] if why else []


def since(session: Session, holds: Question, step: int) -> str:
    """From which step on something holds that does at `step`, in words."""
    runs = session.runs
    made: int | None
    if not isinstance(holds, IsTimer):
        made = registers_at.last_change(runs, lambda state: bool(holds(state)), step, session.tell)
    elif runs.tracer:
        made = logged_timer.changed_to(runs, holds.timer, step)
    else:
        made = searches.last_change(lambda each: bool(holds(runs.at(each))), runs.first, step, session.tell)
    return f", since {session.line(runs.at(made - 1))}" if made else ", since the start"


def registers_of(trap: Trap) -> list[str]:
    """The registers that say what a trap was."""
    return ["vsepc", "vscause", "vstval"] if trap["to"] == "VS" else ["sepc", "scause", "stval", "htval"]


def repetition_of(session: Session, after: saves.Saved, trap: Trap) -> int | None:
    """From which step on the registers of a trap have what it wrote, where they had it before; else none."""
    names, runs, step = registers_of(trap), session.runs, after.numbers["steps"]

    def is_same(each: int) -> bool:
        return all(runs.at(each).numbers[name] == after.numbers[name] for name in names)
    if step == runs.first or not is_same(step - 1):
        return None
    made = searches.last_change(is_same, runs.first, step, session.tell)
    return made if made and made < step else None
