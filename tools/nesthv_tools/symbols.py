"""Symbols of ELF files, and instructions in words, as far as there are ELF files and `objdump`."""
import bisect
import re
import shutil
import struct
import subprocess
import tempfile
from collections.abc import Iterable, Iterator

from nesthv_tools import code_paths, registers

OBJDUMP = "riscv64-linux-gnu-objdump"
LINE = re.compile(r"\s*([0-9a-f]+):\s+[0-9a-f]{8}\s+(\S.*)")
LOADS = {(0x30, 0): "hlv.b", (0x30, 1): "hlv.bu", (0x32, 0): "hlv.h", (0x32, 1): "hlv.hu",
         (0x32, 3): "hlvx.hu", (0x34, 0): "hlv.w", (0x34, 1): "hlv.wu", (0x34, 3): "hlvx.wu",
         (0x36, 0): "hlv.d"}
STORES = {0x31: "hsv.b", 0x33: "hsv.h", 0x35: "hsv.w", 0x37: "hsv.d"}
FENCES = {0x09: "sfence.vma", 0x11: "hfence.vvma", 0x31: "hfence.gvma"}
HIDDEN = ("$", ".L")


class Elf:
    """The sections that an ELF file has in memory, where in them its instructions are, its symbols there, and
    whether it tells lines of the sources."""

    def __init__(self, data: bytes) -> None:
        if data[:6] != b"\x7fELF\x02\x01":
            raise ValueError("not an ELF file of 64 bits, little endian")
        offset, = struct.unpack_from("<Q", data, 40)
        size, count = struct.unpack_from("<2H", data, 58)
        headers = [struct.unpack_from("<2I4Q2I2Q", data, offset + size * index) for index in range(count)]
        self.sections, code, named = [], [], {}
        for index, (_, kind, flags, address, at, length, *_) in enumerate(headers):
            if flags & 2 and kind == 1:
                part = data[at:at + length]
                self.sections.append((address, part))
                code += [(address, address + len(part))] * bool(flags & 4)
                named[index] = address, length
        self.has_lines = b".debug_line\0" in data
        found = sorted(self.symbols_of(data, headers, named))
        self.symbols = [each for each in found if not each[1].startswith(HIDDEN)]
        self.places = [place for place, _ in self.symbols]
        marks = [(place, name.startswith("$x")) for place, name in found if name.startswith(("$x", "$d"))]
        self.code = sorted(part for start, end in code for part in instructions_in(start, end, marks))

    def symbols_of(self, data: bytes, headers: list[tuple[int, ...]],
                   named: dict[int, tuple[int, int]]) -> Iterator[tuple[int, str]]:
        """The symbols of the sections that are named by number, each its address and name."""
        for _, kind, _, _, at, length, link, _, _, _ in headers:
            if kind != 2 or link >= len(headers):
                continue
            names = headers[link][4]
            for symbol in range(at, at + length - 23, 24):
                name_at, info, _, section, address, _ = struct.unpack_from("<IBBHQQ", data, symbol)
                end = data.find(b"\0", names + name_at)
                name = data[names + name_at:end].decode(errors="replace")
                start, size = named.get(section, (0, 0))
                if info & 15 < 3 and name and start <= address < start + size:
                    yield address, name

    def word_at(self, address: int) -> int | None:
        """The word that the file has at an address, or none."""
        for start, data in self.sections:
            if start <= address <= start + len(data) - 4:
                word, = struct.unpack_from("<I", data, address - start)
                return int(word)
        return None

    def symbol_at(self, address: int) -> str:
        """The last symbol that is not after an address, with the distance."""
        index = bisect.bisect_right(self.places, address) - 1
        if index < 0:
            return ""
        place, name = self.symbols[index]
        return name if place == address else f"{name}+{address - place:#x}"


def instructions_in(start: int, end: int, marks: list[tuple[int, bool]]) -> Iterator[tuple[int, int]]:
    """The parts of a section from `start` to `end` that are instructions, by the marks in it: each is a
    place, and whether instructions begin there, or data."""
    is_code = True
    for place, begins_code in marks:
        if start <= place < end:
            if is_code and start < place:
                yield start, place
            start, is_code = place, begins_code
    if is_code and start < end:
        yield start, end


def elf_at(path: str) -> Elf | None:
    """The ELF file at this path, or none where it cannot be read as one."""
    try:
        with open(path, "rb") as file:
            return Elf(file.read())
    except (OSError, ValueError, OverflowError, struct.error, IndexError):
        return None


def system_text(word: int) -> str:
    """What an instruction of the hypervisor extension is, which not each `objdump` knows, or nothing."""
    if word & 0x7F != 0x73:
        return ""
    form, function, target = word >> 12 & 7, word >> 25, word >> 7 & 31
    address, value, rd = (registers.INTEGER[word >> at & 31] for at in (15, 20, 7))
    if form == 0 and function in FENCES and target == 0:
        return f"{FENCES[function]} {address}, {value}"
    if form == 4 and (function, word >> 20 & 31) in LOADS:
        return f"{LOADS[function, word >> 20 & 31]} {rd}, ({address})"
    if form == 4 and function in STORES and target == 0:
        return f"{STORES[function]} {value}, ({address})"
    return ""


def with_target(text: str, word: int, pc: int) -> str:
    """The text of a jump or branch with the address that it goes to."""
    kind = word & 0x7F
    if kind not in (0x63, 0x6F):
        return text
    offset = code_paths.jump_offset(word) if kind == 0x6F else code_paths.branch_offset(word)
    target = pc + offset & 2**64 - 1
    return re.sub(r"(0x)?[0-9a-f]+$", f"{target:x}", text)


class Disassembler:
    """Instructions in words. Without `objdump` a word stays as it is."""

    def __init__(self) -> None:
        self.program = shutil.which(OBJDUMP) or shutil.which("objdump")
        self.known: dict[int, str] = {}

    def learn(self, words: Iterable[int | None]) -> None:
        """Has `objdump` say of these words what they are, all at once."""
        new = sorted(word for word in set(words) if word is not None and word not in self.known)
        self.known.update((word, system_text(word)) for word in new)
        left = [word for word in new if not self.known[word]]
        if not left or not self.program:
            return
        with tempfile.NamedTemporaryFile() as file:
            file.write(struct.pack(f"<{len(left)}I", *left))
            file.flush()
            ran = subprocess.run([self.program, "-D", "-z", "-b", "binary", "-m", "riscv:rv64", file.name],
                                 capture_output=True)
        for line in ran.stdout.decode(errors="replace").splitlines():
            found = LINE.match(line)
            if found and int(found[1], 16) // 4 < len(left) and not found[2].startswith("."):
                text = found[2].split("#")[0].strip().replace("\t", " ")
                self.known[left[int(found[1], 16) // 4]] = re.sub(",(?! )", ", ", text)

    def text_of(self, word: int, pc: int) -> str:
        self.learn([word])
        return with_target(self.known[word], word, pc) or f".word {word:#010x}"
