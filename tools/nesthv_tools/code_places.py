"""Where in the sources the instructions of an ELF file come from, by its symbols and by addr2line, which also
tells of calls that the compiler has inlined.
"""
import bisect
import os
import re
import shutil
import subprocess
import tempfile
from collections.abc import Iterable, Iterator
from typing import NamedTuple

from nesthv_tools import code_paths, elf_images, symbols

ADDR2LINE = "riscv64-linux-gnu-addr2line"
PACKAGE = "apt-get install binutils-riscv64-linux-gnu"
ADDRESS = re.compile("0x[0-9a-f]{16}")
STRAIGHT = (0x13, 0x17, 0x1B, 0x33, 0x37, 0x3B)  # opcodes of instructions that neither jump nor trap


class Failed(Exception):
    """Why places are not known, in words."""


class Frame(NamedTuple):
    """A place in the sources: a function, a file, and a line. What is not known is empty, or 0."""
    function: str
    file: str
    line: int


# The place of an instruction, and after it the places of the calls by which it was inlined, the innermost
# first.
Frames = tuple[Frame, ...]


def program() -> str | None:
    """The addr2line to take, or none."""
    return shutil.which(ADDR2LINE) or shutil.which("addr2line")


class Code:
    """The instructions of an ELF file, which have virtual addresses."""

    def __init__(self, path: str, elf: symbols.Elf, segments: list[elf_images.Segment]) -> None:
        self.path, self.elf, self.segments = path, elf, segments
        self.starts = [start for start, _ in elf.code]

    def has(self, address: int) -> bool:
        """Whether there is an instruction at an address."""
        index = bisect.bisect_right(self.starts, address) - 1
        return index >= 0 and address < self.elf.code[index][1]

    def address_of(self, pc: int) -> int | None:
        """The address of an instruction that is executed at pc, which is virtual, or physical where there is
        no translation yet; or none where the file has none there."""
        if self.has(pc):
            return pc
        for place, address, _, length, _ in self.segments:
            if place <= pc < place + length and self.has(address + pc - place):
                return address + pc - place
        return None

    def next_of(self, address: int) -> int | None:
        """The address of what is executed after an instruction, or none where that is not certain: it may
        trap, or go two ways."""
        word = self.elf.word_at(address) or 0
        if word & 0x7F in STRAIGHT:
            return address + 4
        return address + code_paths.jump_offset(word) if word & 0x7F == 0x6F else None

    def addresses(self) -> Iterator[int]:
        """The addresses of all its instructions."""
        for start, end in self.elf.code:
            yield from range(start + 3 & ~3, end - 3, 4)

    def frames_of(self, addresses: Iterable[int]) -> dict[int, Frames]:
        """The places of the instructions at these addresses. Without addr2line there are functions alone."""
        wanted = sorted(addresses)
        found = program()
        if not found or not wanted:
            return {address: (self.frame_of(address, "", "??:0"),) for address in wanted}
        with tempfile.TemporaryFile("w+") as file:
            file.writelines(f"{address:#x}\n" for address in wanted)
            file.seek(0)
            words = [found, "-a", "-f", "-i", "-e", self.path]
            with subprocess.Popen(words, stdin=file, stdout=subprocess.PIPE, stderr=subprocess.DEVNULL,
                                  text=True, errors="backslashreplace") as process:
                assert process.stdout
                made = dict(self.read(process.stdout))
        if process.returncode:
            name, status = os.path.basename(found), process.returncode
            raise Failed(f"{name} cannot read {self.path}: its status is {status}")
        return {address: made.get(address) or (self.frame_of(address, "", "??:0"),) for address in wanted}

    def read(self, output: Iterable[str]) -> Iterator[tuple[int, Frames]]:
        """The addresses and places that addr2line tells: the address, and then two lines for each place."""
        address = -1
        frames: list[Frame] = []
        known: dict[Frames, Frames] = {}  # few of them differ
        lines = (line.rstrip("\n") for line in output)
        for line in lines:
            if ADDRESS.fullmatch(line):
                if frames:
                    yield address, known.setdefault(tuple(frames), tuple(frames))
                address, frames = int(line, 16), []
            else:
                frames.append(self.frame_of(address, line, next(lines, "??:0")))
        if frames:
            yield address, known.setdefault(tuple(frames), tuple(frames))

    def frame_of(self, address: int, function: str, place: str) -> Frame:
        """The frame that addr2line tells by a function and by `FILE:LINE`, with a word more after it."""
        file, _, rest = place.rpartition(":")
        number = rest.split(" ")[0]
        if function in ("", "??"):
            function = self.elf.symbol_at(address).partition("+")[0]
        known = file not in ("", "??") and number.isdecimal()
        return Frame(function, os.path.normpath(file) if known else "", int(number) if known else 0)


def code_at(path: str) -> Code | None:
    """The ELF file at this path, or none where it cannot be read as one."""
    elf = symbols.elf_at(path)
    if not elf:
        return None
    try:
        with open(path, "rb") as file:
            data = file.read()
        return Code(path, elf, list(elf_images.segments_of(data, elf_images.header_of(data))))
    except (OSError, elf_images.Wrong):
        return None
