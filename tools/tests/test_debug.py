"""Tests of tools/debug, by a script that stands for gdb, and by gdb-multiarch where it is installed."""
import os
import shlex
import shutil
import struct
import unittest

from elf_files import RAM, elf, with_headers
from helper import LETTER, TOP, ToolTest

STUB = os.path.join(TOP, "dist", "nesthv-gdb")
MEMORY = ("GLIBC_TUNABLES=${GLIBC_TUNABLES-glibc.malloc.mmap_threshold=1073741824"
          ":glibc.malloc.trim_threshold=1073741824}")
FAKE = '#!/bin/sh\nfor word; do printf "%s\\n" "$word"; done\nexit 3\n'
NESTED = bytes(range(1, 101))
# A guest in VS, and its hypervisor, which has it at its own addresses, by a table of Sv39x4.
GUEST = """
    .globl _start
_start:
    j       guest_work
    .org    0x100
guest_work:
    ecall
    j       guest_work
"""
HYPERVISOR = """
    .globl _start
_start:
    la      t0, trap
    csrw    stvec, t0
    li      t0, 0x8000000000080004
    csrw    hgatp, t0
    li      t0, 0x80            # hstatus.SPV
    csrs    hstatus, t0
    li      t0, 0x100           # sstatus.SPP
    csrs    sstatus, t0
    li      t0, 0x80000000
    csrw    sepc, t0
    sret
    .org    0x80
trap:
    j       own_work
    .org    0x200
own_work:
    csrr    t0, sepc
    addi    t0, t0, 4
    csrw    sepc, t0
    sret
    .org    0x4010
    .dword  0x20002001          # of 80000000 on: the table at 80008000
    .org    0x8000
    .dword  0x20002401          # the table at 80009000
    .org    0x9000
    .dword  0x200040df          # a page of U at 80010000
    .org    0x10000
    .incbin "guest.bin"
"""


class DebugTest(ToolTest):
    def setUp(self):
        super().setUp()
        os.chmod(self.put("fake gdb", FAKE), 0o755)

    def debug(self, *words):
        ran = self.tool("tools/debug", "--gdb", "./fake gdb", *words)
        ran.words = ran.stdout.decode().splitlines()
        return ran

    def test_command(self):
        self.put("deep er/b.bin", LETTER)
        path = self.configure("deep er/b.toml", image='"b.bin"')
        ran = self.debug(path, "--", "-batch")
        self.check_plain(ran, 3)
        self.assertEqual(ran.words[:2], ["-x", os.path.join(TOP, "tools", "debug.gdb")])
        self.assertEqual(ran.words[-1], "-batch")
        folder = shlex.quote(os.path.join(self.folder, "deep er"))
        stub = f"cd {folder} && {MEMORY} {STUB} ./b.toml 0; exec cat >/dev/null"
        self.assertIn(f"target remote | {stub}", ran.words)
        self.check_said(ran, "no ELF file stands beside the image")
        printed = self.debug("--print", path)
        self.check_plain(printed, 0)
        self.assertEqual(shlex.split(printed.stdout.decode())[1:], ran.words[:-1])

    def test_symbols_of_each_world(self):
        """The guest's own ELF file, one of a guest that its image has in it, at other addresses and at the
        same ones, and one that is of neither."""
        self.put("a.bin", LETTER + NESTED)
        self.put("a.elf", elf((RAM, LETTER + NESTED)))
        self.put("low.elf", elf((0x1000, NESTED), entry=0x1000))
        self.put("same.elf", elf((RAM, NESTED)))
        self.put("other.elf", elf((0x1000, bytes(100))))
        ran = self.debug(self.configure())
        self.assertIn(f"exec-file {self.folder}/a.elf", ran.words)
        self.assertIn(f'set $nesthv_vs = "{self.folder}/same.elf"', ran.words)
        self.assertIn("set $nesthv_both = 1", ran.words)
        self.assertEqual([word for word in ran.words if word.startswith("add-")],
                         [f"add-symbol-file {self.folder}/low.elf"])
        self.check_said(ran, f"symbols of a guest of its own: {self.folder}/same.elf, while gdb stops in VS or VU")
        self.check_unsaid(ran, "other.elf")

    def test_other_addresses(self):
        """gdb takes both files for good where no address is in both. Of two guests at the same addresses it takes
        the first, and the other is named with what takes it."""
        self.put("a.bin", LETTER + NESTED)
        self.put("a.elf", elf((RAM, LETTER + NESTED)))
        self.put("low.elf", elf((0x1000, NESTED), entry=0x1000))
        self.put("more.elf", elf((0x1000, NESTED[1:]), entry=0x1000))
        ran = self.debug(self.configure())
        self.assertIn(f"file {self.folder}/a.elf", ran.words)
        self.assertIn(f'set $nesthv_vs = "{self.folder}/low.elf"', ran.words)
        self.assertNotIn("set $nesthv_both = 1", ran.words)
        self.check_said(ran, f"symbols of a guest of its own: {self.folder}/more.elf: `vs {self.folder}/more.elf` takes")

    def test_faults_in_words(self):
        path = self.configure()
        for words, status, said in (
                ([path, "5"], 2, "configuration fault 15 value 5: there is no guest 5: guests are numbered"),
                (["none.toml"], 2, "none.toml: there is no such file"),
                ([self.configure("b.toml", image='"none"')], 3, "read fault 2: the image "),
                ([self.configure("c.toml", blocks=0)], 2, "`blocks` of guest 0 ('a') is 0"),
                (["--gdb", "none", path], 2, "there is no none (apt-get install gdb-multiarch)"),
                (["--stub", "none", path], 2, "none is not a program"),
                (["nothing"], 2, "nothing: there is no such file, nor such an example"),
                (["--print", "a.bin"], 2, "needs --write FOLDER")):
            ran = self.debug(*words)
            self.check_plain(ran, status)
            self.check_said(ran, said)
            self.assertEqual(ran.stdout, b"")

    def test_elf_file_in_place_of_a_configuration(self):
        self.put("k.elf", elf())
        ran = self.debug("k.elf", "--steps", "7", "--write", "kept")
        self.check_plain(ran, 3)
        self.assertIn("file k.elf", ran.words)
        stub = f"cd kept && {MEMORY} {STUB} ./k.toml 0; exec cat >/dev/null"
        self.assertIn(f"target remote | {stub}", ran.words)

    def test_guests_beside_an_elf_file(self):
        """An ELF file in place of a configuration has guests of its own beside it, as an image has; whatever its own
        name is."""
        self.put("here/hv", elf((RAM, LETTER + NESTED)))
        self.put("here/hv.bin", LETTER + NESTED)
        self.put("here/low.elf", elf((0x1000, NESTED), entry=0x1000))
        for given, own in (("here/hv", True), ("here/hv.bin", False)):
            ran = self.debug(given)
            self.assertEqual("file here/hv" in ran.words, own)
            self.assertIn("add-symbol-file here/low.elf", ran.words)

    def build_worlds(self):
        for name, text in (("guest", GUEST), ("hv", HYPERVISOR)):
            self.put(f"{name}.s", text)
            self.check_plain(self.tool("examples/build", f"{name}.s"), 0)

    @unittest.skipUnless(shutil.which("riscv64-linux-gnu-gcc"), "riscv64-linux-gnu-gcc is not installed")
    def test_look_at_both_worlds(self):
        """An ELF file in place of a configuration is looked at with the symbols of both worlds."""
        self.build_worlds()
        ran = self.tool("tools/look", "hv.elf", "trace", "0", "24", "--steps", "24", "--cache", self.folder)
        self.check_plain(ran, 0)
        for name in ("guest_work", "own_work"):
            self.assertIn(name.encode(), ran.stdout)

    @unittest.skipUnless(shutil.which("gdb-multiarch"), "gdb-multiarch is not installed")
    @unittest.skipUnless(shutil.which("riscv64-linux-gnu-gcc"), "riscv64-linux-gnu-gcc is not installed")
    def test_symbols_by_world(self):
        """A hypervisor and its guest with code at the same addresses: gdb names a state by the file of its world, and
        stops at a breakpoint of either."""
        self.build_worlds()
        commands = ["break guest_work", "continue", "print $priv", "info symbol $pc", "break own_work", "continue",
                    "print $priv", "info symbol $pc", "reverse-continue", "info symbol $pc"]
        words = [word for each in commands for word in ("-ex", each)]
        ran = self.tool("tools/debug", "hv.elf", "--steps", "200", "--", "-nx", "-batch", *words)
        self.check_plain(ran, 0)
        shown = [line.split(" in section ")[0] for line in ran.stdout.decode().splitlines()
                 if line.startswith("$") or " in section " in line]
        self.assertEqual(shown, ["$1 = 5", "guest_work", "$2 = 1", "own_work", "guest_work"])

    @unittest.skipUnless(shutil.which("gdb-multiarch"), "gdb-multiarch is not installed")
    def test_gdb(self):
        self.put("a.bin", LETTER + NESTED)
        self.put("a.elf", elf((RAM, LETTER + NESTED)))
        shown = [word for each in ("stepi 2", "print $a0", "monitor goto 1", "print $a0", "vs", "hs")
                 for word in ("-ex", each)]
        ran = self.tool("tools/debug", self.configure(), "--", "-nx", "-batch", *shown)
        self.check_plain(ran, 0)
        self.assertEqual([line for line in ran.stdout.decode().splitlines() if line.startswith("$")],
                         ["$1 = 65", "$2 = 0"])
        self.assertIn(b"no ELF file of a guest in VS stands beside the image", ran.stdout)
        self.check_unsaid(ran, "Remote communication error")


class PlacedTest(unittest.TestCase):
    def test_bytes_in_memory(self):
        from nesthv_tools import elf_images
        self.assertEqual(elf_images.placed(elf((0x2000, b"b"), (0x1000, b"a"))), b"a" + bytes(0xFFF) + b"b")
        self.assertEqual(elf_images.placed(with_headers(b"a")), b"a")
        self.assertEqual(elf_images.placed(elf((0x1000, b"a"), (0x2000, b"", 4096))), b"a")
        for data in (b"", b"none", elf()[:70], elf((0, b"a"), (2**40, b"b")), struct.pack("<I", 0)):
            self.assertEqual(elf_images.placed(data), b"")
