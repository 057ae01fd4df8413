"""Names the places of a guest's instructions by the ELF files of its worlds: the guest itself, and the guests
that it has. An instruction of HS is never named by the file of a guest's guest. One of VS or VU is named by
that, or by the guest's own file where the memory that it is fetched from has instructions of that file.
"""
import contextlib
import os
import subprocess
from collections.abc import Iterable

from nesthv_tools import children, code_places
from nesthv_tools.code_places import Code, Frames

MARK = 1  # an address at which no instruction is, which ends an answer of addr2line


class Lines:
    """The places in the sources of the instructions of an ELF file, by addr2line, which runs as long as it is
    asked."""

    def __init__(self, code: Code) -> None:
        self.code = code
        self.known: dict[int, Frames] = {}
        self.process: subprocess.Popen[bytes] | None = None
        self.program = code_places.program() if code.elf.has_lines else None

    def of(self, address: int) -> Frames:
        """The place of an instruction, and those of the calls by which it was inlined, the innermost first;
        or nothing, where they are not known."""
        if self.program and address not in self.known:
            try:
                self.known[address] = self.asked(address)
            except OSError:
                self.program = None
        return self.known.get(address, ())

    def asked(self, address: int) -> Frames:
        """What addr2line answers."""
        assert self.program
        if not self.process:
            words = [self.program, "-a", "-f", "-i", "-e", os.path.abspath(self.code.path)]
            self.process = children.start(words, ".")
        assert self.process.stdin and self.process.stdout
        self.process.stdin.write(f"{address:#x}\n{MARK:#x}\n".encode())
        self.process.stdin.flush()
        lines = []
        for data in self.process.stdout:
            lines.append(data.decode(errors="backslashreplace"))
            if len(lines) > 2 and lines[-3] == f"{MARK:#018x}\n":
                found = [frames for place, frames in self.code.read(lines[:-3]) if place == address]
                return tuple(each for each in (found[0] if found else ()) if each.line)
        raise OSError("addr2line has ended")

    def close(self) -> None:
        if self.process:
            with contextlib.suppress(OSError):
                children.stop(self.process)


class Symbols:
    """The ELF file of the guest itself, or none, those of its guests, which its image has in it, and others,
    which a user names. Those are of guests too, or, where there is no own one, of the guest itself."""

    def __init__(self, own: Code | None, nested: Iterable[Code], others: Iterable[Code]) -> None:
        given, known = list(others), list(nested)
        paths = {os.path.realpath(code.path) for code in known}
        new = [code for code in given if os.path.realpath(code.path) not in paths]
        self.own = [own] if own else new
        self.nested = [*known, *new]
        self.lines = {code: Lines(code) for code in [*self.own, *self.nested]}

    def close(self) -> None:
        for each in self.lines.values():
            each.close()

    def symbol_of(self, word: int, virtual: int, physical: int, mode: str) -> str:
        """The place of an instruction, where an ELF file of its world has the word that RAM has; else
        nothing. Where two have it by other names, none is taken."""
        found = [self.name(code, address) for code in self.nested if mode != "HS"
                 for address in places_in(code, virtual, word)]
        if mode in ("HS", "U"):
            own = [self.name(code, address) for code in self.own for place in (virtual, physical)
                   for address in places_in(code, place, word)]
            return next(iter(own), "") or only(found)
        return only(found) or only([self.name(code, address) for code in self.own
                                    for address in places_in(code, physical, word) if code.has(address)])

    def symbol_at_virtual(self, word: int, virtual: int, mode: str) -> str | None:
        """The place of an instruction by its virtual address, or none where that does not tell it."""
        if not self.own and not self.nested:
            return ""
        addresses = [(code, address) for code in self.own for address in places_in(code, virtual, word)]
        return self.name(*addresses[0]) if addresses and mode in ("HS", "U") else None

    def name(self, code: Code, address: int) -> str:
        """The function with the offset; and the file and line, where they are known, of the instruction.
        Where it was inlined, they are of the call in that function, and after it of each inlined function."""
        frames = self.lines[code].of(address)
        shown = [f"{frame.function} ({os.path.basename(frame.file)}:{frame.line})" for frame in frames[:-1]]
        place = f" ({os.path.basename(frames[-1].file)}:{frames[-1].line})" if frames else ""
        return " > ".join([code.elf.symbol_at(address) + place, *reversed(shown)])


def places_in(code: Code, place: int, word: int) -> list[int]:
    """The addresses in an ELF file of an instruction that is executed at a place, which is virtual, or
    physical, where the file has its word."""
    addresses = [place, *(segment.address + place - segment.place for segment in code.segments
                          if segment.place <= place < segment.place + segment.length)]
    return [address for address in dict.fromkeys(addresses) if code.elf.word_at(address) == word]


def only(names: list[str]) -> str:
    """The name that all of these are, or nothing."""
    return names[0] if len(set(names)) == 1 else ""
