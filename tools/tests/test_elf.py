"""Tests of ELF files and images that stand in place of a configuration."""
import os
import shutil
import struct
import tomllib
import unittest

from elf_files import RAM, elf, with_headers
from helper import LETTER, LETTER_REPORT, LOOP, ToolTest
from nesthv_tools import symbols

# What cannot be a guest, and what is said of it.
REFUSED = [
    (elf(front=b"\x7fELF\1\1\1"), "it is an ELF file of 32 bits, and a guest has 64"),
    (elf(front=b"\x7fELF\2\2\1"), "it is big endian, and a guest is little endian"),
    (elf(machine=62), "it is for another machine than RISC-V: e_machine is 62"),
    (elf(kind=1), "it is an object file: link it with"),
    (elf(kind=3), "it is dynamic: link it with `-static -no-pie`"),
    (elf(kind=4), "it is not an executable: e_type is 4"),
    (elf((RAM, LETTER), (0, b"", 0, 2)), "it is dynamic: link it with `-static -no-pie`"),
    (elf((RAM, LETTER), (0, b"", 0, 3)), "it is dynamic: link it with `-static -no-pie`"),
    (elf(flags=1), "it has compressed instructions, which a guest does not have"),
    (elf(flags=4), "it takes floating-point registers, which a guest does not have"),
    (elf((RAM - 4096, LETTER)), "its segment at 0x7ffff000 is below RAM, which begins at 0x80000000"),
    (elf((RAM, LETTER, 1 << 27)), "ends at 0x88000000, and the guest's RAM at 0x84000000"),
    (elf((2**64 - 4096, LETTER), (RAM, LETTER)), "ends at 0xfffffffffffff014, and the guest's RAM at 0x84"),
    (elf((RAM, LETTER), (RAM + 16, LETTER)), "its segments at 0x80000000 and 0x80000010 overlap"),
    (elf(entry=RAM + 4), "its entry point is 0x80000004, and a guest starts at 0x80000000"),
    (elf((RAM + 4096, LETTER)), "its entry point is 0x80000000"),
    (elf((RAM, LETTER, 0)), "it has no segment to load"),
    (elf((RAM, LETTER, 4)), "it ends within its segment at 0x80000000"),
    (elf()[:-4], "it ends within its segment at 0x80000000"),
    (elf()[:100], "it ends within its program headers"),
    (elf()[:40], "it ends within the header of an ELF file"),
]


class SymbolsTest(ToolTest):
    def test_sections_that_are_too_far(self):
        """The place of the sections is a number of 64 bits, which need not be one of a file."""
        data = bytearray(elf())
        for at in (2**64 - 1, 2**63, 2**40):
            struct.pack_into("<Q", data, 40, at)
            struct.pack_into("<2H", data, 58, 64, 1)
            self.assertIsNone(symbols.elf_at(self.put("far.elf", bytes(data))))


class ElfTest(ToolTest):
    def test_runs_with_defaults(self):
        self.put("hel-lo.elf", elf())
        ran = self.tool("tools/run", "hel-lo.elf")
        self.check_plain(ran, 0)
        self.assertEqual(ran.stdout, b"guest hello stopped steps 5 bytes 1\nA\n")
        self.assertEqual(self.tool("tools/run", "check", "hel-lo.elf").stdout.split(b"\n")[0],
                         b"guest hello image 20 frames 3605")

    def test_flat_image(self):
        ran = self.tool("tools/run", "a.bin")
        self.assertEqual(ran.stdout, b"guest a stopped steps 5 bytes 1\nA\n")
        self.put("b", LOOP + bytes(4))
        ran = self.tool("tools/run", "b", "--steps", "9")
        self.assertEqual(ran.stdout, b"guest b running steps 9 bytes 0\n\n")
        self.check_said(ran, "`tools/look b --steps 9 doctor`")

    def test_configurations_stay_configurations(self):
        for name, text in (("a.toml", b"\x7fELF"), ("a.conf", b"format = 3\n")):
            self.put(name, text)
            ran = self.tool("tools/run", name)
            self.check_plain(ran, 2)
            self.check_said(ran, "configuration fault")

    def test_refusals(self):
        for data, words in REFUSED:
            self.put("a.elf", data)
            ran = self.tool("tools/run", "a.elf")
            self.check_plain(ran, 2)
            self.assertEqual((ran.stdout, len(ran.lines)), (b"", 1), ran.lines)
            self.check_said(ran, f"a.elf: {words}" if words.startswith("it") else words)
        self.check_plain(self.tool("tools/look", "a.elf", "at", "0"), 2)

    def test_segments_by_their_physical_addresses(self):
        """As a kernel that is linked for high addresses: the segments are placed where they are loaded."""
        high = 0xFFFFFFFF80000000
        self.put("a.elf", elf((RAM + 0x1000, b"data", 0x2000, 1, high + 0x1000), (RAM, LETTER, 20, 1, high),
                              entry=high))
        self.check_plain(self.tool("tools/run", "a.elf", "--write", "kept"), 0)
        with open(os.path.join(self.folder, "kept", "a.bin"), "rb") as file:
            self.assertEqual(file.read(), LETTER + bytes(0x1000 - 20) + b"data")

    def test_headers_below_ram(self):
        """As a linker places a file by -Ttext: its own headers are in the page below the code."""
        self.put("a.elf", with_headers(LETTER))
        ran = self.tool("tools/run", "a.elf", "--write", "kept")
        self.assertEqual(ran.stdout, b"")
        self.check_said(ran, "kept/a.toml is written: tools/run kept/a.toml runs it")
        self.assertEqual(self.tool("tools/run", "kept/a.toml").stdout, LETTER_REPORT)
        with open(os.path.join(self.folder, "kept", "a.bin"), "rb") as file:
            self.assertEqual(file.read(), LETTER)
        self.put("b.elf", with_headers(LETTER, b"data"))
        ran = self.tool("tools/run", "b.elf")
        self.check_plain(ran, 2)
        self.check_said(ran, "its segment at 0x7ffff000 is below RAM")

    @unittest.skipUnless(shutil.which("riscv64-linux-gnu-gcc"), "riscv64-linux-gnu-gcc is not installed")
    def test_file_of_the_gnu_tools(self):
        source = self.put("a.s", "li a7, 1\nli a0, 65\necall\nli a7, 8\necall\n")
        self.check_plain(self.tool("examples/build", source), 0)
        ran = self.tool("tools/run", "a.elf")
        self.assertEqual(ran.stdout, LETTER_REPORT)

    def test_options_and_write(self):
        self.put("a.elf", elf())
        self.put("in", struct.pack("<QB", 7, 65))
        words = "--steps 9000000000 --blocks 2 --spaces 3 --entries 17 --console 44 --input in --device " \
            "--write kept".split()
        for _ in range(2):  # the same files may be there
            self.check_plain(self.tool("tools/run", "a.elf", *words), 0)
        self.assertEqual(sorted(os.listdir(os.path.join(self.folder, "kept"))),
                         ["a.bin", "a.elf", "a.inputs", "a.toml"])
        with open(os.path.join(self.folder, "kept", "a.toml"), "rb") as file:
            made = tomllib.load(file)
        guest = {"name": "a", "image": "a.bin", "blocks": 2, "spaces": 3, "entries": 17, "console": 44,
                 "device": 1, "input": "a.inputs"}
        turns = [[0, 2**32], [0, 2**32], [0, 9 * 10**9 - 2**33]]
        self.assertEqual(made, {"format": 2, "turns": turns, "guest": [guest]})
        ran = self.tool("tools/run", "a.elf", "--write", "kept")
        self.check_plain(ran, 2)
        self.check_said(ran, "kept/a.toml is there, and is another file: name another folder")

    def test_ram_has_room_behind_the_file(self):
        self.put("a.elf", elf((RAM, LETTER, 7 << 20)))
        self.check_plain(self.tool("tools/run", "a.elf", "--write", "kept"), 0)
        with open(os.path.join(self.folder, "kept", "a.toml"), encoding="utf-8") as file:
            self.assertIn("blocks = 4\n", file.read())
        ran = self.tool("tools/run", "a.elf", "--blocks", "3")
        self.check_said(ran, "ends at 0x80700000, and the guest's RAM at 0x80600000")

    def test_bad_words(self):
        path = self.configure()
        self.put("text", "10 \"a\"\n")
        self.put("a.elf", elf())
        for words, said in ((["--steps", "5", path], "--steps is for an ELF file or an image"),
                            (["--blocks", "33", "a.elf"], "33 is not an integer from 1 to 32"),
                            (["--input", "text", "a.elf"], "`tools/inputs` makes records of it"),
                            (["--input", "none", "a.elf"], "none: No such file or directory")):
            ran = self.tool("tools/run", *words)
            self.assertIn(ran.returncode, (2, 4), ran.lines)
            self.check_said(ran, said)

    def test_look(self):
        self.put("a.elf", elf())
        ran = self.tool("tools/look", "a.elf", "--steps", "100", "at", "2", "--cache-size", "0")
        self.check_plain(ran, 0)
        self.assertIn(b"a at step 2: running in HS", ran.stdout)
        path = self.configure(image='"a.elf"')
        ran = self.tool("tools/look", path, "at", "0")
        self.check_plain(ran, 2)
        self.check_said(ran, "objcopy -O binary")


def console(text, status="stopped"):
    return {"name": "a", "status": status, "steps": 1, "bytes": len(text), "console": text}


class VerdictTest(ToolTest):
    def test_rule(self):
        from nesthv_tools import verdicts
        for text, verdict in (("exit 3\n", 3), ("exit 3", 3), ("a\nexit 12\n", 12), ("", 0),
                              ("exit 3\n\n", 0), ("no exit 3\n", 0), ("exit 0\n", 0), ("exit 999\n", 255),
                              ("exit -1\n", 0)):
            self.assertEqual(verdicts.verdict_of(console(text)), verdict, text)
            self.assertEqual(verdicts.verdict_of(console(text, "running")), 11)
            self.assertEqual(verdicts.verdict_of(console(text, "waiting")), 11)
        self.assertEqual(verdicts.verdict([console(""), console("exit 5\n"), console("exit 6\n")]), 5)

    def program(self, text):
        """An image that puts this text and stops: li a7, 1; li a0, BYTE; ecall; ...; li a7, 8; ecall."""
        letters = [word for byte in text.encode() for word in (byte << 20 | 0x513, 0x73)]
        words = [0x00100893, *letters, 0x00800893, 0x73]
        return struct.pack(f"<{len(words)}I", *words)

    def test_status(self):
        self.put("b.bin", self.program("x\nexit 7\n"))
        path = self.configure("b.toml", image='"b.bin"')
        ran = self.tool("tools/run", "--verdict", path)
        self.check_plain(ran, 7)
        self.check_said(ran, "guest a ended with exit 7")
        self.check_plain(self.tool("tools/run", path), 0)
        self.check_plain(self.tool("tools/run", "--verdict", self.configure()), 0)
        self.put("c.bin", LOOP)
        ran = self.tool("tools/run", "--verdict", self.configure("c.toml", image='"c.bin"'))
        self.check_plain(ran, 11)
        self.check_said(ran, "guest a is running")
        self.check_plain(self.tool("tools/run", "--verdict", self.configure("d.toml", image='"none"')), 3)
        for words in (["--verdict", "check", path], ["--verdict", "--expect", "0", path]):
            self.check_plain(self.tool("tools/run", *words), 2)

    def test_batch(self):
        self.put("b.bin", self.program("exit 7\n"))
        self.configure("b.toml", image='"b.bin"')
        self.configure("a.toml")
        self.put("b.report", b"guest a stopped steps 17 bytes 7\nexit 7\n\n")
        ran = self.tool("tools/batch", ".")
        self.check_plain(ran, 0)
        ran = self.tool("tools/batch", "--verdict", "--junit", "junit.xml", ".")
        self.check_plain(ran, 1)
        self.assertEqual(ran.stdout.decode().splitlines(), [
            "PASS a.toml", "FAIL b.toml exit 7", "# guest a ended with exit 7", "# 1 of 2 passed"])
        with open(os.path.join(self.folder, "junit.xml"), encoding="utf-8") as file:
            made = file.read()
        self.assertIn('<property name="verdict" value="7"/></properties><failure type="FAIL" '
                      'message="exit 7; guest a ended with exit 7"/>', made)
        self.assertIn('<property name="verdict" value="0"/>', made)


class ExitTest(ToolTest):
    """What `exit` of examples/c puts, and what its trap handler does."""

    @unittest.skipUnless(shutil.which("riscv64-linux-gnu-gcc"), "riscv64-linux-gnu-gcc is not installed")
    def test_exit(self):
        source = "_Noreturn void exit(int);\nint main(void) { %s }\n"
        for body, status, last in (("return 0;", 0, b""), ("return 9;", 9, b"\nexit 9\n"),
                                   ("exit(-1);", 255, b"\nexit 255\n"), ("exit(1000);", 232, b"\nexit 232\n"),
                                   ('__asm__("ebreak"); return 0;', 255, b"exit 255\n")):
            self.put("e.c", source % body)
            self.check_plain(self.tool("examples/build", "e.c"), 0)
            ran = self.tool("tools/run", "--verdict", "e.elf", "--steps", "20000")
            self.check_plain(ran, status)
            self.assertTrue(ran.stdout.endswith(last + b"\n"), ran.stdout)
