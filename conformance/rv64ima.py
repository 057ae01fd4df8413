"""What one instruction of RV64IMA makes, told from its word and its operands. Sections are those of the
Unprivileged ISA 20191213, if not said otherwise."""
from typing import Callable, NamedTuple

RAM, CODE, ONES = range(0x80000000, 0x80400000), 0x80308000, 0xFFFFFFFF
ILLEGAL, VIRTUAL = 2, 22
SSCRATCH, VSSCRATCH, HGEIP = 0x140, 0x240, 0xE12
HU = 0x200


class Case(NamedTuple):
    """A word in a mode, the values of the registers that its fields name, and the doubleword that it reaches."""
    word: int
    mode: str
    first: int
    second: int
    bytes: int
    sscratch: int
    vsscratch: int
    hstatus: int

    def bits(self, high: int, low: int) -> int:
        return self.word >> low & (1 << high - low + 1) - 1

    @property
    def function(self) -> int:
        return self.bits(14, 12)

    @property
    def is_supervisors(self) -> bool:
        return self.mode == "HS" or self.mode == "U" and self.hstatus & HU != 0


class Outcome(NamedTuple):
    """What comes out: the code of a trap or none, stval, pc, and what registers and memory get. `choice` is that
    on which it rests."""
    code: int | None = None
    tval: int = 0
    pc: int = CODE + 4
    value: int | None = None        # what rd gets
    bytes: int | None = None        # what the doubleword gets
    scratch: tuple[str, int] | None = None
    choice: str = ""


def unsigned(value: int, bits: int = 64) -> int:
    return value & (1 << bits) - 1


def signed(value: int, bits: int = 64) -> int:
    value = unsigned(value, bits)
    return value - (1 << bits) if value >> bits - 1 else value


def illegal(case: Case, code: int = ILLEGAL) -> Outcome:
    return Outcome(code, case.word, CODE)


def no_instruction(case: Case) -> Outcome:
    """A word of which no instruction is: all ones are illegal (1.5), what others are is left open (2.2)."""
    return illegal(case)._replace(choice="" if case.word == ONES else "word")


def quotient(first: int, second: int) -> int:
    """Rounded towards zero, and -1 by zero (7.2)."""
    if second == 0:
        return -1
    return abs(first) // abs(second) * (1 if (first < 0) == (second < 0) else -1)


def remainder(first: int, second: int) -> int:
    return first if second == 0 else first - second * quotient(first, second)


Binary = Callable[[int, int], int]
# 2.4, 7.1 and 7.2, of operands with their sign, by funct7 and funct3.
OF_NUMBERS: dict[tuple[int, int], Binary] = {
    (0, 0): lambda a, b: a + b, (0x20, 0): lambda a, b: a - b, (0, 2): lambda a, b: a < b,
    (0, 3): lambda a, b: unsigned(a) < unsigned(b), (0, 4): lambda a, b: a ^ b, (0, 6): lambda a, b: a | b,
    (0, 7): lambda a, b: a & b, (0, 1): lambda a, b: a << (b & 63),
    (0, 5): lambda a, b: unsigned(a) >> (b & 63), (0x20, 5): lambda a, b: a >> (b & 63),
    (1, 0): lambda a, b: a * b, (1, 1): lambda a, b: a * b >> 64, (1, 2): lambda a, b: a * unsigned(b) >> 64,
    (1, 3): lambda a, b: unsigned(a) * unsigned(b) >> 64, (1, 4): quotient,
    (1, 5): lambda a, b: quotient(unsigned(a), unsigned(b)), (1, 6): remainder,
    (1, 7): lambda a, b: remainder(unsigned(a), unsigned(b))}
# 5.2 and 7.2, of the low 32 bits.
OF_WORDS: dict[tuple[int, int], Binary] = {
    (0, 0): lambda a, b: a + b, (0x20, 0): lambda a, b: a - b, (0, 1): lambda a, b: a << (b & 31),
    (0, 5): lambda a, b: unsigned(a, 32) >> (b & 31), (0x20, 5): lambda a, b: a >> (b & 31),
    (1, 0): lambda a, b: a * b, (1, 4): quotient,
    (1, 5): lambda a, b: quotient(unsigned(a, 32), unsigned(b, 32)), (1, 6): remainder,
    (1, 7): lambda a, b: remainder(unsigned(a, 32), unsigned(b, 32))}
# 2.5.
TESTS: dict[int, Binary] = {
    0: lambda a, b: a == b, 1: lambda a, b: a != b, 4: lambda a, b: a < b, 5: lambda a, b: a >= b,
    6: lambda a, b: unsigned(a) < unsigned(b), 7: lambda a, b: unsigned(a) >= unsigned(b)}
# 8.4, of numbers with their sign and of those without it.
ATOMICS: dict[int, Binary] = {
    0: lambda a, b: a + b, 1: lambda a, b: b, 4: lambda a, b: a ^ b, 8: lambda a, b: a | b,
    12: lambda a, b: a & b, 16: min, 20: max, 24: min, 28: max}


def registers(case: Case) -> Outcome | None:
    made = OF_NUMBERS.get((case.bits(31, 25), case.function))
    return Outcome(value=made(signed(case.first), signed(case.second))) if made else None


def words(case: Case) -> Outcome | None:
    made = OF_WORDS.get((case.bits(31, 25), case.function))
    return Outcome(value=signed(made(signed(case.first, 32), signed(case.second, 32)), 32)) if made else None


def immediate(case: Case) -> Outcome | None:
    """An amount has six bits, and the others say which shift it is (5.2)."""
    operand, function = signed(case.bits(31, 20), 12), 0
    if case.function in (1, 5):
        operand, function = case.bits(25, 20), case.bits(31, 26) << 1
        if (function, case.function) not in ((0, 1), (0, 5), (0x20, 5)):
            return None
    return Outcome(value=OF_NUMBERS[function, case.function](signed(case.first), operand))


def word_immediate(case: Case) -> Outcome | None:
    operand, function = signed(case.bits(31, 20), 12), 0
    if case.function in (1, 5):
        operand, function = case.bits(24, 20), case.bits(31, 25)
    if (function, case.function) not in ((0, 0), (0, 1), (0, 5), (0x20, 5)):
        return None
    return Outcome(value=signed(OF_WORDS[function, case.function](signed(case.first, 32), operand), 32))


def upper(case: Case) -> Outcome:
    base = CODE if case.bits(6, 0) == 0x17 else 0
    return Outcome(value=base + signed(case.word & 0xFFFFF000, 32))


def jump(target: int, link: int | None) -> Outcome:
    """A target that is not a multiple of 4 is a fault of the jump (2.5), one outside RAM of the fetch there."""
    target = unsigned(target)
    if target % 4 != 0:
        return Outcome(0, target, CODE, choice="ialign")
    return Outcome(None if target in RAM else 1, target, target, link)


def jal(case: Case) -> Outcome:
    offset = case.bits(31, 31) << 20 | case.bits(19, 12) << 12 | case.bits(20, 20) << 11 | case.bits(30, 21) << 1
    return jump(CODE + signed(offset, 21), CODE + 4)


def jalr(case: Case) -> Outcome | None:
    target = case.first + signed(case.bits(31, 20), 12)
    return jump(target & ~1, CODE + 4) if case.function == 0 else None


def branch(case: Case) -> Outcome | None:
    test = TESTS.get(case.function)
    if test is None:
        return None
    offset = case.bits(31, 31) << 12 | case.bits(7, 7) << 11 | case.bits(30, 25) << 5 | case.bits(11, 8) << 1
    return jump(CODE + signed(offset, 13), None) if test(signed(case.first), signed(case.second)) else Outcome()


def fault(address: int, size: int, is_store: bool) -> Outcome | None:
    """A misaligned access traps before any other fault of it, and there is nothing outside RAM."""
    address = unsigned(address)
    if address % size != 0:
        return Outcome(6 if is_store else 4, address, CODE, choice="misaligned")
    return None if address in RAM else Outcome(7 if is_store else 5, address, CODE)


def load(case: Case, offset: int, size: int, is_signed: bool) -> Outcome:
    address = case.first + offset
    held = unsigned(case.bytes >> address % 8 * 8, 8 * size)
    return fault(address, size, False) or Outcome(value=signed(held, 8 * size) if is_signed else held)


def with_stored(case: Case, address: int, size: int, value: int) -> int:
    shift, mask = address % 8 * 8, (1 << 8 * size) - 1
    return case.bytes & ~(mask << shift) | (value & mask) << shift


def store(case: Case, offset: int, size: int) -> Outcome:
    address = case.first + offset
    return fault(address, size, True) or Outcome(bytes=with_stored(case, address, size, case.second))


def loads(case: Case) -> Outcome | None:
    if case.function == 7:
        return None
    return load(case, signed(case.bits(31, 20), 12), 1 << case.function % 4, case.function < 4)


def stores(case: Case) -> Outcome | None:
    offset = signed(case.bits(31, 25) << 5 | case.bits(11, 7), 12)
    return store(case, offset, 1 << case.function) if case.function < 4 else None


def atomics(case: Case) -> Outcome | None:
    """LR, SC and AMOs (8.2 and 8.4). An SC that can be made has an LR before it."""
    size, operation = 1 << case.function, case.bits(31, 27)
    if size not in (4, 8):
        return None
    if operation == 2:
        return load(case, 0, size, True) if case.bits(24, 20) == 0 else None
    if operation == 3:
        refused = fault(case.first, size, True)
        made = refused or Outcome(value=0, bytes=with_stored(case, case.first, size, case.second))
        return made if made.choice else made._replace(choice="sc" if refused else "pair")
    if operation not in ATOMICS:
        return None
    extended = unsigned if operation >= 24 else signed
    held = load(case, 0, size, True).value or 0
    number = ATOMICS[operation](extended(held, 8 * size), extended(case.second, 8 * size))
    return fault(case.first, size, True) or Outcome(
        value=held, bytes=with_stored(case, case.first, size, number))


def memory_order(case: Case) -> Outcome | None:
    return Outcome() if case.function < 2 else None


def guest_access(case: Case) -> Outcome | None:
    """HLV, HLVX and HSV (Privileged Architecture 20211203, 8.3.1 and 8.6.1)."""
    function, variant = case.bits(31, 25), case.bits(24, 20)
    size = 1 << (function & 7) // 2
    is_store = function % 2 == 1
    if function >> 3 != 6:
        return None
    if case.bits(11, 7) != 0 if is_store else variant not in {1: (0, 1), 2: (0, 1, 3), 4: (0, 1, 3), 8: (0,)}[size]:
        return None
    if not case.is_supervisors:
        return illegal(case, ILLEGAL if case.mode == "U" else VIRTUAL)
    return store(case, 0, size) if is_store else load(case, 0, size, variant == 0)


def fences(case: Case) -> Outcome | None:
    """SFENCE.VMA, HFENCE.VVMA and HFENCE.GVMA (the same standard, 4.2.1, 8.3.2 and 8.6.1)."""
    function = case.bits(31, 25)
    if function not in (0x09, 0x11, 0x31) or case.bits(11, 7) != 0:
        return None
    if case.mode == "HS" or case.mode == "VS" and function == 0x09:
        return Outcome()
    return illegal(case, ILLEGAL if case.mode == "U" else VIRTUAL)


def on_register(case: Case) -> Outcome:
    """CSRRW, CSRRS and CSRRC (9.1), on registers of the same standard (2.1, 8.2 and 8.6.1)."""
    number, operation, field = case.bits(31, 20), case.function & 3, case.bits(19, 15)
    writes = operation == 1 or field != 0
    if number == HGEIP and writes:
        return illegal(case)
    if case.mode != "HS" and (case.mode != "VS" or number != SSCRATCH):
        return illegal(case, ILLEGAL if case.mode == "U" else VIRTUAL)
    name = "sscratch" if number == SSCRATCH and case.mode == "HS" else "vsscratch"
    held = 0 if number == HGEIP else case.sscratch if name == "sscratch" else case.vsscratch
    operand = field if case.function & 4 else case.first
    made = {1: operand, 2: held | operand, 3: held & ~operand}[operation]
    return Outcome(value=held, scratch=(name, made) if writes else None)


def system(case: Case) -> Outcome | None:
    if case.function == 0:
        return fences(case)
    return guest_access(case) if case.function == 4 else on_register(case)


MAKERS: dict[int, Callable[[Case], Outcome | None]] = {
    0x03: loads, 0x0F: memory_order, 0x13: immediate, 0x17: upper, 0x1B: word_immediate, 0x23: stores,
    0x2F: atomics, 0x33: registers, 0x37: upper, 0x3B: words, 0x63: branch, 0x67: jalr, 0x6F: jal, 0x73: system}


def size_of(word: int) -> int:
    """How many bytes an access to data has."""
    if word & 0x7F == 0x73:
        return 1 << (word >> 25 & 7) // 2
    return 1 << (word >> 12 & 3)


def outcome(case: Case) -> Outcome:
    """What a word makes, by the tables of chapter 24."""
    maker = MAKERS.get(case.bits(6, 0))
    return (maker(case) if maker else None) or no_instruction(case)
