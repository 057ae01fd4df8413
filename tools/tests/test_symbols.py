"""Tests of the symbols, lines and words by which instructions are shown."""
import os
import re
import shutil
import struct
from unittest import mock

from helper import LETTER, ToolTest
from nesthv_tools import code_places, symbols, world_symbols


class SymbolTest(ToolTest):
    def elf(self):
        """An ELF file with LETTER at 80000000, and the symbols `start` there and `call` at 80000008."""
        names, count = b"\0start\0call\0", 4
        symbols = bytes(24) + b"".join(struct.pack("<IBBHQQ", name, 0, 0, 1, 0x80000000 + at, 0)
                                       for name, at in ((1, 0), (7, 8)))
        places = [64 + 64 * count]
        for data in (LETTER, symbols):
            places.append(places[-1] + len(data))
        header = b"\x7fELF\x02\x01\x01" + bytes(9)
        header += struct.pack("<2HI3QI6H", 2, 243, 1, 0, 0, 64, 0, 64, 0, 0, 64, count, 0)
        sections = [(0, 0, 0, 0, 0, 0, 0, 0, 0, 0),
                    (0, 1, 6, 0x80000000, places[0], len(LETTER), 0, 0, 4, 0),
                    (0, 2, 0, 0, places[1], len(symbols), 3, 1, 8, 24),
                    (0, 3, 0, 0, places[2], len(names), 0, 0, 1, 0)]
        header += b"".join(struct.pack("<2I4Q2I2Q", *each) for each in sections)
        return header + LETTER + symbols + names

    def test_symbols(self):
        elf = symbols.elf_at(self.put("a.elf", self.elf()))
        self.assertEqual([elf.symbol_at(0x80000000 + at) for at in (0, 4, 8, 12)],
                         ["start", "start+0x4", "call", "call+0x4"])

    def code(self, name, *symbol_names):
        """The ELF file of these names of the first and the third instruction."""
        data = self.elf()
        for old, new in zip((b"start", b"call\0"), symbol_names):
            data = data.replace(old, new)
        return code_places.code_at(self.put(name, data))

    def test_symbols_by_mode(self):
        """An instruction of HS has no symbol of a guest's guest. One of VS has one of the hypervisor's file alone
        where it is fetched from that file's instructions, and no other file has it."""
        own, nested, other = self.code("own.elf"), self.code("nested.elf", b"entry"), self.code("other.elf", b"first")
        own_here, word = 0x80000008, 0x73
        cases = [  # the files; the virtual and physical address, and the mode; and the symbol
            (own, [], [], own_here, own_here, "HS", "call"), (own, [], [], 0x1008, own_here, "HS", "call"),
            (own, [], [], own_here, 0x80010000, "HS", "call"), (own, [], [], own_here, 0x80010000, "U", "call"),
            (own, [], [], own_here, 0x80010000, "VS", ""), (own, [], [], 0x1008, own_here, "VS", "call"),
            (own, [], [], 0x1008, 0x80010000, "HS", ""), (None, [nested], [], own_here, own_here, "HS", ""),
            (None, [nested], [], own_here, own_here, "VU", "call"), (None, [nested], [], own_here, 0x1008, "U", "call"),
            (None, [], [other], own_here, own_here, "HS", "call"), (own, [], [other], own_here, 0x1008, "VS", "call"),
            (None, [], [], own_here, own_here, "HS", "")]
        for its, guests, more, virtual, physical, mode, expected in cases:
            with self.subTest((virtual, physical, mode)):
                found = world_symbols.Symbols(its, guests, more)
                self.assertEqual(found.symbol_of(word, virtual, physical, mode), expected)
                self.assertEqual(found.symbol_of(word + 1, virtual, physical, mode), "")
        both = world_symbols.Symbols(own, [nested, other], [])
        start, = struct.unpack_from("<I", LETTER)
        for mode, expected in (("HS", "start"), ("VS", ""), ("U", "start")):  # entry and first are two names
            self.assertEqual(both.symbol_of(start, 0x80000000, 0x80200000, mode), expected)
        for mode, expected in (("HS", "call"), ("U", "call"), ("VS", None)):
            self.assertEqual(both.symbol_at_virtual(word, own_here, mode), expected)

    def test_lines_of_sources(self):
        """With lines in the ELF file, a place has its file and line, and those of inlined calls."""
        if not shutil.which("riscv64-linux-gnu-gcc") or not code_places.program():
            self.skipTest("the GNU tools for RISC-V are not installed")
        source = ["static volatile int total;", "static inline __attribute__((always_inline)) void note(int more)",
                  "{", "    total += more;", "}", "int main(void)", "{", "    note(5);", "    return 0;", "}", ""]
        self.put("lines.c", "\n".join(source))
        ran = self.tool("examples/build", "-g", "lines.c")
        self.assertEqual(ran.returncode, 0, ran.lines)
        code = code_places.code_at(os.path.join(self.folder, "lines.elf"))
        found = world_symbols.Symbols(code, [], [])
        self.addCleanup(found.close)
        names = {found.symbol_of(code.elf.word_at(address), address, address, "HS") for address in code.addresses()}
        self.assertTrue(any(re.fullmatch(r"main(\+0x[0-9a-f]+)? \(lines.c:8\) > note \(lines.c:4\)", name)
                            for name in names), names)
        self.assertTrue(any(re.fullmatch(r"main(\+0x[0-9a-f]+)? \(lines.c:(9|10)\)", name) for name in names), names)

    def test_addr2line_that_ends(self):
        """Without an answer of addr2line there are functions alone."""
        code = self.code("a.elf")
        code.elf.has_lines = True
        for program in ("/bin/true", "/no/such/program", "/bin/cat"):
            with mock.patch.object(code_places, "program", lambda program=program: program):
                found = world_symbols.Symbols(code, [], [])
                self.assertEqual(found.symbol_of(0x73, 0x80000008, 0x80000008, "HS"), "call")
                found.close()

    def test_files_that_are_none(self):
        whole = self.elf()
        for length in range(0, len(whole), 3):
            symbols.elf_at(self.put("a.elf", whole[:length]))
        self.assertIsNone(symbols.elf_at(os.path.join(self.folder, "a.bin")))

    def test_without_objdump(self):
        told = symbols.Disassembler()
        told.program = None
        self.assertEqual(told.text_of(0x13, 0), ".word 0x00000013")
        self.assertEqual(told.text_of(0x62628073, 0), "hfence.gvma t0, t1")

    def test_objdump(self):
        told = symbols.Disassembler()
        if not told.program or "riscv" not in told.program:
            self.skipTest("binutils for RISC-V are not installed")
        told.learn([0x13, 0x0000006F, 0, 0x00628023])
        self.assertEqual([told.text_of(word, 0x80000010) for word in (0x13, 0x6F, 0, 0x00628023)],
                         ["nop", "j 80000010", ".word 0x00000000", "sb t1, 0(t0)"])
