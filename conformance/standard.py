"""What the standard decides of cases, told from the words of their lines alone. The tests compare it with
what the program makes of them. Sections are those of Privileged Architecture 20211203, if not said otherwise.
"""
import re

import access_tables
import csr_bits
import rv64ima
import two_stages

SIE, SPIE, SPP = 2, 0x20, 0x100
GVA, SPV, SPVP, HU = 0x40, 0x80, 0x100, 0x200
VTVM, VTW, VTSR = 1 << 20, 1 << 21, 1 << 22
SUM, MXR = 1 << 18, 1 << 19
NOWHERE = 0x1000000000          # an address outside RAM
HANDLER, TABLE = 0x10, 0x400    # where traps into VS go, and where they go if vstvec is vectored
NO_TRAP = 0xFF
ADDRESSED = {0, 1, 3, 4, 5, 6, 7, 12, 13, 15, 20, 21, 23}   # codes with an address in stval


def told(words):
    """The numbers of a case's words, by the word before each."""
    pairs = re.findall(r"([a-z]+) ([0-9A-F]+)(?= |$)", " ".join(words))
    return {name: int(number, 16) for name, number in pairs}


def is_virtual(mode):
    return mode in ("VS", "VU")


def interrupt(mode, state):
    """The code of the interrupt that is taken, and whether it goes to VS, by 8.2.3; or none."""
    pending = state["sie"] & state["sip"] | state["hie"] & state["hvip"]
    if mode != "HS" or state["sstatus"] & SPIE:
        for code in (9, 1, 5, 12, 10, 2, 6):
            if pending & ~state["hideleg"] & 1 << code:
                return code, False
    if mode == "VU" or mode == "VS" and state["vsstatus"] & SIE:
        for code in (10, 2, 6):
            if pending & state["hideleg"] & 1 << code:
                return code - 1, True
    return None


def after_return(status):
    """sstatus or vsstatus after SRET, by 3.1.6.1."""
    return status & ~(SIE | SPP) | SPIE | (SIE if status & SPIE else 0)


def after_trap(status, is_supervisor):
    """sstatus or vsstatus after a trap from this privilege, by 3.1.6.1."""
    return status & ~(SIE | SPIE | SPP) | (SPIE if status & SIE else 0) | (SPP if is_supervisor else 0)


def trapped(mode, code, state, value=0, place=0, is_guests=False):
    """The registers after an exception with this stval at this place, by 8.2.1, 8.2.2 and 8.6.2. Where it goes to
    VS, the handler there ends by ECALL. `is_guests` says that stval is an address of the guest's also with V = 0."""
    values = dict(state)
    if is_virtual(mode) and state["hedeleg"] >> code & 1:
        values |= {"vscause": code, "vstval": value, "vsepc": place,
                   "vsstatus": after_trap(state["vsstatus"], mode == "VS")}
        return trapped("VS", 10, values | {"hedeleg": 0}, 0, HANDLER)
    values |= {"cause": code, "tval": value, "epc": place,
               "sstatus": after_trap(state["sstatus"], mode in ("HS", "VS"))}
    hypervisor = state["hstatus"] & ~(GVA | SPV)
    if is_virtual(mode):
        hypervisor = hypervisor & ~SPVP | SPV | (SPVP if mode == "VS" else 0)
    has_address = code in ADDRESSED and (is_virtual(mode) or is_guests)
    values["hstatus"] = hypervisor | (GVA if has_address else 0)
    return values


def ended(mode, state, place=4):
    """The registers at the call that ends a case, or in HS at its jump."""
    if mode == "HS":
        return state | {"cause": NO_TRAP, "tval": 0, "epc": 0}
    return trapped(mode, 10 if mode == "VS" else 8, state, 0, place)


def of_returns(words):
    """SRET, by 3.3.2, 8.2.1 and 8.6.4."""
    mode, target, state = words[1], words[3], told(words)
    state["vscause"] = 0
    if mode != "HS":
        state["sstatus"] = after_return(state["sstatus"])
    if mode == "U":
        values = trapped(mode, 2, state)
    elif mode == "VU" or mode == "VS" and state["hstatus"] & VTSR:
        values = trapped(mode, 22, state)
    else:
        name = "sstatus" if mode == "HS" else "vsstatus"
        state[name] = after_return(state[name])
        state["hstatus"] &= ~SPV
        is_nowhere = state["at"] == NOWHERE
        values = trapped(target, 1, state) if is_nowhere else ended(target, state)
    return {name: values[name] for name in ("cause", "sstatus", "hstatus", "vscause", "vsstatus")}


def exception(name, mode):
    """The code of an instruction's exception, by 3.1.15 and 8.6.1; or none."""
    if name == "hlv.d":
        return {"HS": None, "U": 2}.get(mode, 22)
    codes = {"ebreak": 3, "zeros": 2, "mret": 2, "ecall": 10 if mode == "VS" else 8}
    return codes.get(name, None if mode == "HS" else codes["ecall"])


def of_vectors(words):
    """Where a trap begins, by 4.1.2 and 8.2.13. `entry` is 1 more than the entry's number."""
    mode, state = words[1], told(words)
    taken = interrupt(mode, state)
    if taken is None:
        code, is_guests, number = exception(words[0], mode), False, 0
        if code is None:
            return {"cause": NO_TRAP, "entry": 0, "vscause": 0}
        is_guests = is_virtual(mode) and state["hedeleg"] >> code & 1
    else:
        code, is_guests = taken
        number, code = code, code | 1 << 63
    if is_guests:
        return {"cause": 10, "entry": 1, "vscause": code, "epc": TABLE + 4 * number * state["vstvec"]}
    return {"cause": code, "entry": 1 + number * state["stvec"], "vscause": 0}


def written(name, value, state):
    """The registers of interrupts after a write of one of them, by 4.1.3, 8.2.2, 8.2.3 and 8.2.12."""
    state = dict(state)
    moved = value << 1 & state["hideleg"]
    if name == "sie":
        state["sie"] = value & 0x222
    elif name == "sip":
        state["sip"] = value & 2
    elif name == "hie":
        state["hie"] = value & 0x444
    elif name == "hip":
        state["hvip"] = state["hvip"] & ~4 | value & 4
    elif name == "hvip":
        state["hvip"] = value & 0x444
    elif name == "vsie":
        state["hie"] = state["hie"] & ~state["hideleg"] | moved
    else:
        state["hvip"] = state["hvip"] & ~(state["hideleg"] & 4) | moved & 4
    return state


def shown(state):
    """What all registers of interrupts read, by the same sections."""
    return {"sie": state["sie"], "sip": state["sip"], "hie": state["hie"], "hip": state["hvip"],
            "hvip": state["hvip"], "vsie": (state["hie"] & state["hideleg"]) >> 1,
            "vsip": (state["hvip"] & state["hideleg"]) >> 1}


def of_aliases(words):
    """A write of a register of interrupts. In VS those of S are those of VS, and an interrupt may come before
    the write or after it."""
    operation, mode, name = words[:3]
    state = told(words) | {"sstatus": 0}
    taken = interrupt(mode, state)
    if taken is None:
        name = f"v{name}" if mode == "VS" else name
        reads = shown(state)[name]
        value = {"csrrw": state["value"], "csrrs": reads | state["value"],
                 "csrrc": reads & ~state["value"]}[operation]
        state = written(name, value, state)
        taken = interrupt(mode, state)
    else:
        reads = 0
    expected = shown(state) | {"reads": reads, "vscause": 0}
    if taken is None:
        return expected | {"cause": NO_TRAP if mode == "HS" else 10}
    code, is_guests = taken
    return expected | ({"cause": 10, "vscause": 1 << 63 | code} if is_guests else {"cause": 1 << 63 | code})


def of_clock(words):
    """A read or write of time, by 4.1.5, 8.2.6, 8.2.7, 8.6.1 and, for a write, 2.1."""
    operation, mode = words[:2]
    counters = {name: number & 2 for name, number in told(words).items() if name.endswith("counteren")}
    is_open = (mode in ("HS", "U") or counters["hcounteren"]) and (
        mode in ("HS", "VS") or counters["scounteren"])
    if operation == "csrrw" or not is_open and mode == "U":
        cause = 2
    else:
        cause = {"HS": NO_TRAP, "VS": 10}.get(mode, 8) if is_open else 22
    return {"cause": cause, "within": 1}


def of_pairs(words):
    """LR and SC, by 8.2 and 8.3 of the unprivileged standard: the SC of a loop of these instructions succeeds
    at last; one without a reservation fails, and writes nothing; each writes exactly where it answers 0."""
    kind, state = words[0], told(words)
    if kind not in ("loop", "read", "again", "alone"):
        return {"agrees": 1}
    size, shift = int(words[4]), (state["at"] & 4) * 8
    mask = (1 << size * 8) - 1
    before, value = state["before"] >> shift & mask, state["value"]
    loaded = before if before >> size * 8 - 1 == 0 else before - mask - 1
    made = {0x00B60633: loaded + value, 0x00B64633: loaded ^ value, 0x00B66633: loaded | value,
            0x00B67633: loaded & value, 0x00058613: value}.get(state.get("word"), value) & mask
    if kind in ("read", "alone"):
        made = before
    memory = state["before"] & ~(mask << shift) | made << shift
    return {"a2": {"loop": 0, "read": loaded % (1 << 64)}.get(kind, 1), "memory": memory}


def is_ordered(change, is_global, fence, address, space):
    """Whether a change is seen, by 4.2.1, 8.2.10 and 8.3.2."""
    if change in ("bare", "flag") or fence == "both":
        return True
    if change == "remapped" or "other" in (address, space):
        return False
    if address == "own" and change in ("table", "root", "guest-table", "guest-root"):
        return False
    if change.startswith("guest-"):
        return fence == "hfence.gvma"
    return fence in ("sfence.vma", "hfence.vvma") and not (is_global and space == "own")


def of_fences(words):
    """What both accesses come to: page A or B, or a fault of the first stage, F1, or of the second, F2."""
    change, mode, first, second = words[:4]
    kind = change.removeprefix("guest-")
    fault = 0xF2 if change.startswith("guest-") else 0xF1
    old = {"made": fault, "flag": 0xA if first == "fetch" else fault}.get(kind, 0xA)
    new = {"made": 0xA, "flag": 0xA, "dropped": fault,
           "rights": 0xA if second == "fetch" else fault}.get(kind, 0xB)
    expected = {"first": old, "either": 1}
    if is_ordered(change, words[8] == "global", *words[9:12]):
        codes = {0xF1: {"fetch": 12, "store": 15}.get(second, 13),
                 0xF2: {"fetch": 20, "store": 23}.get(second, 21)}
        expected |= {"seen": new, "cause": codes.get(new, {"HS": NO_TRAP, "VS": 10}.get(mode, 8))}
    return expected


def of_instructions(words):
    """An instruction of RV64IMA with any registers. A name with `~` rests on a choice."""
    mode, state = words[1], told(words)
    fields = {name: state[name] for name in rv64ima.Case._fields if name != "mode"}
    made = rv64ima.outcome(rv64ima.Case(mode=mode, **fields))
    value = rv64ima.unsigned(state["target"] if made.value is None else made.value)
    target = state["word"] >> 7 & 31
    changed = 1 << target if target != 0 and value != state["target"] else 0
    is_end = made.code is None
    # What faults and is of SYSTEM is HLV, HLVX or HSV, whose address is the guest's.
    after = trapped(mode, made.code or 0, state | {"hedeleg": 0, "sstatus": 0}, 0, 0, state["word"] & 0x7F == 0x73)
    expected = {"cause": NO_TRAP if is_end else made.code, "end": rv64ima.unsigned(made.pc - rv64ima.CODE),
                "changed": changed, "value": value if target != 0 else 0,
                "bytes": state["bytes"] if made.bytes is None else made.bytes, "beside": 1,
                "sscratch": state["sscratch"], "vsscratch": state["vsscratch"],
                "tval": 0 if is_end else made.tval, "htval": 0, "htinst": 0,
                "hstatus": 0 if is_end else after["hstatus"] & (GVA | SPV | SPVP)}
    if made.scratch is not None:
        expected[made.scratch[0]] = rv64ima.unsigned(made.scratch[1])
    if made.choice == "pair":
        del expected["changed"]
        rest = {"others": 0, "agrees": 1, "~value": expected.pop("value"), "~bytes": expected.pop("bytes")}
        return expected | rest
    return {f"~{name}": value for name, value in expected.items()} if made.choice else expected


def of_registers(words):
    """An instruction on a register. Another machine may have one that this has not; time is that of `clock`."""
    operation, mode, state = words[0], words[1], told(words)
    number, value = state["register"], state["value"]
    if number not in csr_bits.NAMES:
        return {} if number == csr_bits.TIME else {"cause": 2, "epc": 0}
    writes = csr_bits.is_written(operation, value)
    name = csr_bits.NAMES[csr_bits.reached(number, mode)]
    code = csr_bits.code_of(number, mode, writes, state["hstatus"] & VTVM != 0)
    cause = code or {"HS": NO_TRAP, "VS": 10}[mode]
    # The way into the mode writes some registers of HS, and a trap back does.
    before = {"sstatus": SPIE, "hstatus": state["hstatus"]}.get(name, state["before"])
    if writes and csr_bits.is_left_open(name, operation) or name == "sepc" or name in TRAPPED and mode != "HS":
        return {"cause": cause}
    if code is not None:
        return {"cause": code, "epc": 0, "reads": 0x5A, "holds": before}
    decided = csr_bits.DECIDED[name][0]
    holds = csr_bits.held(name, operation, before, value, state["hideleg"]) if writes else before
    return {"cause": cause, "reads": 0x5A & decided if operation == "csrw" else before, "holds": holds}


TRAPPED = {"sstatus", "hstatus", "scause", "stval"}


def code_of(name, mode, state):
    """The code of an instruction that traps in some modes, by 3.3.1, 3.3.2, 8.2.1 and 8.6.1; or none."""
    refused = 2 if mode == "U" else 22
    if name in ("mret", "zeros", "ones"):
        return 2
    if name in ("ecall", "ebreak"):
        return 3 if name == "ebreak" else 10 if mode == "VS" else 8
    if name in ("nop", "fence.i"):
        return None
    if name.startswith(("hlv", "hsv")):
        return None if mode == "HS" or mode == "U" and state["hstatus"] & HU else refused
    if mode == "HS":
        return None
    kept = {"sret": VTSR, "wfi": VTW, "sfence.vma": VTVM}.get(name)
    return None if mode == "VS" and kept is not None and state["hstatus"] & kept == 0 else refused


def of_traps(words):
    """An instruction that traps in some modes. SRET in HS goes to itself in U."""
    name, mode, state = words[0], words[1], told(words)
    is_supervisor = state["vsstatus"] & SPP != 0
    state |= {"sstatus": SPIE, "vscause": 0, "vstval": 0, "vsepc": 4, "a2": 0x5A, "htval": 0, "htinst": 0}
    code = code_of(name, mode, state)
    if name == "sret" and mode == "HS":
        mode, code, state["sstatus"] = "U", 2, after_return(state["sstatus"])
    if code is not None:
        value = {2: state["word"], 22: state["word"], 3: 0xE0}.get(code, 0)
        return only(trapped(mode, code, state, value), TRAP | {"a2", "datum"})
    if name == "sret":
        mode, state["vsstatus"] = "VS" if is_supervisor else "VU", after_return(state["vsstatus"])
    state |= {"hlv.d": {"a2": state["datum"]}, "hlvx.wu": {"a2": state["datum"] & 0xFFFFFFFF},
              "hsv.d": {"datum": state["operand"]}}.get(name, {})
    return only(ended(mode, state), TRAP | {"a2", "datum"})


TRAP = {"cause", "tval", "epc", "hstatus", "sstatus", "vscause", "vstval", "vsepc", "vsstatus"}


def only(values, names):
    return {name: value for name, value in values.items() if name in names}


def access_of(words, state):
    """What an access of `accesses` needs, by 8.3.1 and 8.5."""
    name, mode = words[:2]
    kind = "fetch" if name == "fetch" else "execute" if name.startswith("hlvx") else (
        "load" if name[:2] in ("lb", "lh", "lw", "ld", "lr") or name.startswith("hlv") else "store")
    is_user = mode == "VU" or mode in ("HS", "U") and state["hstatus"] & SPVP == 0
    flags, guests = state["sstatus"], state["vsstatus"]
    return two_stages.Access(kind, is_user, guests & SUM != 0, (flags | guests) & MXR != 0, flags & MXR != 0)


# Misaligned, access, page and guest-page faults (tables 4.2 and 8.6).
CODES = {"fetch": (0, 1, 12, 20), "load": (4, 5, 13, 21), "execute": (4, 5, 13, 21), "store": (6, 7, 15, 23)}


def refusal_of(words, state):
    """The code of the fault of an access, or none, and htval and htinst after it, by 8.2.8 and 8.6.3. Where an
    implicit read faults, htval is an entry's place."""
    access, address, none = access_of(words, state), state["at"], {"htval": 0, "htinst": 0}
    misaligned, refused, page, guest_page = CODES[access.kind]
    if access.kind != "fetch" and address % rv64ima.size_of(state["word"]) != 0:
        return misaligned, none
    try:
        two_stages.translated(access_tables.stages_of(words, state), address, access)
    except two_stages.Fault as fault:
        if fault.kind != "guest":
            return page if fault.kind == "page" else refused, none
        return guest_page, {"htinst": 0x3000} if fault.is_implicit else {"htval": fault.address >> 2, "htinst": 0}
    return None, none


def made_of(name, state):
    """a2 and the doubleword where an access is made. An SC has no reservation."""
    offset = state["at"] % 8
    if name == "fetch":
        mask = 0xFFFFFFFF << 8 * offset
        return {"a2": 0x5A, "bytes": state["bytes"] & ~mask | 0x73 << 8 * offset}
    if name == "sc":
        return {"a2": 1, "bytes": state["bytes"]}
    case = rv64ima.Case(state["word"], "HS", rv64ima.RAM.start + offset, state["operand"], state["bytes"], 0, 0, 0)
    made = rv64ima.outcome(case)
    return {"a2": 0x5A if made.value is None else rv64ima.unsigned(made.value),
            "bytes": state["bytes"] if made.bytes is None else made.bytes}


def of_accesses(words):
    """An access through both stages. A misaligned one traps before any other fault of it."""
    name, mode, state = words[0], words[1], told(words)
    address, is_fetch = state["at"], name == "fetch"
    made = made_of(name, state)
    state |= {"sstatus": after_return(state["sstatus"]), "vscause": 0, "vstval": 0, "vsepc": 0, "a2": 0x5A,
              "bytes": made["bytes"] if is_fetch else state["bytes"]}
    code, hypervisor = refusal_of(words, state)
    if code is None:
        values = ended(mode, state | made, address if is_fetch else 4)
    else:
        values = trapped(mode, code, state, address, address if is_fetch else 0, is_guests=True)
    return only(values, TRAP | {"a2", "bytes"}) | hypervisor


def of_interrupts(words):
    """An instruction that does nothing, with interrupts, by 8.2.3."""
    mode, state = words[1], told(words)
    taken = interrupt(mode, state)
    expected = {"vscause": 0, "hip": state["hvip"], "vsip": (state["hvip"] & state["hideleg"]) >> 1,
                "vsie": (state["hie"] & state["hideleg"]) >> 1}
    if taken is None:
        return expected | {"cause": {"HS": NO_TRAP, "VS": 10}.get(mode, 8)}
    code, is_guests = taken
    return expected | ({"cause": 10, "vscause": 1 << 63 | code} if is_guests else {"cause": 1 << 63 | code})


DECIDED = {"accesses": of_accesses, "registers": of_registers, "interrupts": of_interrupts, "traps": of_traps,
           "returns": of_returns, "vectors": of_vectors, "aliases": of_aliases, "clock": of_clock,
           "pairs": of_pairs, "fences": of_fences, "instructions": of_instructions}
