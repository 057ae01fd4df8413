"""Tests of what the tools say of saved guests."""
import os
import random
import re
import shutil
import subprocess
import unittest

from saved_files import HGATP, form
from helper import LETTER, PROGRAM, TOP, ToolTest
from nesthv_tools import faults, saves

TURNS = "format = 2\nturns = [[0, 3]]\n"
FLAT = (0, 0, 0x8000000000080004, 1, 0x80002, 1)
NESTED = (1, HGATP, 0x9000000000000004, 7, 3, 3 + 8 + 32)
RESUMED = {"image": None, "blocks": None, "spaces": None, "entries": None, "console": None, "resume": '"s"'}


class FileTest(ToolTest):
    """What is said of a file."""

    def test_offsets(self):
        self.assertEqual(len(form()), 2097776)
        self.assertEqual([saves.offset_of(name, saves.NAMES) for name in ("blocks", "pc", "x1", "sstatus", "hgatp")],
                         [8, 88, 96, 344, 568])
        data = form(b"A", [(5, 66)], [(HGATP, [(1, 0x80000, 5)])])
        self.assertEqual(saves.Saved(data).front, 624 + 1 + 9 + 40)
        self.assertEqual(saves.Saved(form(first=[FLAT, NESTED])).front, 624 + 2 * 48)

    def test_table(self):
        """The table of docs/saved.md has each number at its offset."""
        other = {"x31": "x31", "SSIP": "sip.SSIP", "width": "reservation width", "its": "reservation address"}
        with open(os.path.join(TOP, "docs", "saved.md"), encoding="utf-8") as file:
            rows = re.findall(r"^\| (\d[\d, to]*) \| ([^|]*) \|", file.read().split("## The numbers")[1], re.M)
        found = {}
        for offsets, words in rows:
            words = [word.strip("`:,") for word in words.split()]
            for index, offset in enumerate(re.findall(r"\d+", offsets)):
                word = words[2 * index] if offsets.count(" to ") else words[index]
                found[other.get(word, word)] = int(offset)
        wanted = {name: saves.offset_of(name, saves.NAMES) for name in saves.NAMES}
        self.assertEqual(found, {name: wanted[name] for name in found})
        self.assertEqual(set(wanted) - set(found), {f"x{number}" for number in range(2, 31)})

    def test_right_files(self):
        for data in (form(), form(b"x" * 100), form(inputs=[(5, 1), (5, 2), (2**62 - 1, 3)]),
                     form(mode=3, hgatp=HGATP, held=[(HGATP, [(2**29 - 1, 0x801FF, 7 + 16)])]),
                     form(steps=2**60, clock=2**62 + 2**60, status=2, reservation_width=8,
                          reservation_address=0x801FFFF8), form(blocks=2, ram=bytes(4194304)),
                     form(first=[FLAT, NESTED, (1, 0, 9 << 60, 2**52 - 1, 2**44 - 1, 4 + 24 + 32)])):
            self.assertIsNone(saves.wrong(data))

    def test_earlier_versions(self):
        """A file without the number for the device page, or without translations of the first stage, is that of a
        guest that has none. One of the first version is written as one of the second."""
        data = form(b"A", steps=7)
        front = saves.Saved(data).front
        second = b"NESTHV02" + data[8:front - 8] + data[front:]
        first = b"NESTHV01" + second[8:40] + second[48:]
        for earlier in (first, second):
            self.assertIsNone(saves.wrong(earlier))
            self.assertEqual(saves.Saved(earlier).numbers, saves.Saved(data).numbers)
            self.assertEqual(saves.Saved(earlier).form(), second)
            self.assertIsNotNone(saves.wrong(earlier[:8] + data[8:]))
        self.assertIn("at offset 80 pc is 0x80000002", saves.wrong(first[:80] + b"\x02" + first[81:]))

    def test_first_stage(self):
        """A file of the third version tells the translations of the first stage, and each form is read and written
        as it is."""
        satp, vsatp = 8 << 60 | 0x80007, 9 << 60 | 5 << 44 | 2
        first = [(0, 0, satp, 1, 0x80008, 3), (1, HGATP, vsatp, 2**52 - 1, 2**44 - 1, 5 + 24 + 32),
                 (1, 0, satp, 1, 0, 1)]
        data = form(b"A", [(5, 66)], [(HGATP, [(1, 0x80000, 5)])], first=first)
        self.assertIsNone(saves.wrong(data))
        saved = saves.Saved(data)
        self.assertEqual((saved.form(), saved.first, saved.front), (data, first, 616 + 1 + 9 + 40 + 8 + 3 * 48))
        self.assertEqual(saved.changed({"x7": 3}, first=first[1:]).form(),
                         form(b"A", [(5, 66)], [(HGATP, [(1, 0x80000, 5)])], first=first[1:], x7=3))
        self.assertEqual((saved.has_first(), saves.Saved(form(first=None)).has_first()), (True, False))
        self.assertEqual(len(form(first=[])), 2097776)
        self.assertIsNone(saves.wrong(form(first=[(0, 0, satp, page, 0, 1) for page in range(32)])))
        many = [(0, 0, satp, page, 0, 1) for page in range(33)]
        twice = [(0, 0, satp, 1, 0, 1), (0, 0, satp, 1, 5, 3)]
        for entries, words in ((many, "of the first stage is 33: at most 32"),
                               ([(2, 0, satp, 1, 0, 1)], "V is 2"),
                               ([(0, HGATP, satp, 1, 0, 1)], "V is 0 and hgatp 0x8"),
                               ([(1, HGATP | 1, satp, 1, 0, 1)], "V is 1 and hgatp"),
                               ([(0, 0, 0, 1, 0, 1)], "satp or vsatp is 0x0: its MODE"),
                               ([(0, 0, satp, 2**52, 0, 1)], "the page 0x10000000000000 must be below 2^52"),
                               (twice, "translation 1 of the first stage: the page"),
                               ([(0, 0, satp, 1, 2**44, 1)], "the frame 0x100000000000 must be below 2^44"),
                               ([(0, 0, satp, 1, 0, 2)], "the flags are 0x2"), ([(0, 0, satp, 1, 0, 25)], "is 0 to 2"),
                               ([(0, 0, satp, 1, 0, 65)], "the flags are 0x41")):
            self.assertIn(words, saves.wrong(form(first=entries)) or "")

    def test_device_page(self):
        self.assertIsNone(saves.wrong(form(device=1, held=[(HGATP, [(1, 0x10000, 3)])])))

    def test_wrong_files(self):
        entry = (1, 0x80000, 5)
        for data, words in (
                (b"", "the file is empty"),
                (LETTER, "so `nesthv save` has not written it"),
                (form()[:-1], "2,097,151 bytes stand from offset 624 on, and RAM has 2,097,152: it is cut"),
                (form() + b"\0", "it is too long"),
                (form()[:608], "ends within spaces, which begin at offset 608"),
                (form(blocks=33), "at offset 8 blocks is 33: it must be 1 to 32"),
                (form(entries=15), "at offset 24 entries is 15"),
                (form(steps=2**60 + 1), "at offset 56 steps is"),
                (form(clock=2**62 + 1), "at offset 64 clock is 0x4000000000000001: at most 2^62 more"),
                (form(pc=2), "at offset 88 pc is 0x2: it must be a multiple of 4"),
                (form(sstatus=0), "sstatus is 0x0: of the bits outside 0xc0122 it must have 0x200000000"),
                (form(satp=10 << 60), "its MODE must be 8 or 9"),
                (form(reservation_width=4), "it must be in RAM"),
                (form(b"x" * 101), "at offset 592 the number of console bytes is 101: at most 100"),
                (form(inputs=[(5, 1), (4, 1)]), "the moment of unread input 1 is 4"),
                (form(held=[(0, [])]), "the key of space 0 is 0x0"),
                (form(held=[(HGATP, [])] * 2), "the number of spaces is 2: at most 1"),
                (form(held=[(HGATP, [])] * 2, spaces=2), "the key of space 1, 0x8000100000080004, is that of"),
                (form(held=[(HGATP, [entry, entry])]), "entry 1 of space 0: the page 0x1"),
                (form(held=[(HGATP, [(1, 0x80200, 5)])]), "the frame 0x80200 is not in RAM"),
                (form(held=[(HGATP, [(1, 0x10000, 3)])]), "the frame 0x10000 is not in RAM"),
                (form(device=1, held=[(HGATP, [(1, 0x10001, 3)])]), "0x10001 is not in RAM, nor that of the"),
                (form(device=2), "at offset 40 device is 2: it must be 0 to 1"),
                (form(held=[(HGATP, [(1, 0x80000, 2)])]), "the flags are 0x2"),
                (form(mode=2, hgatp=HGATP), "the first space is that of hgatp"),
                (form()[:616], "ends within translations of the first stage, which begin at offset 616")):
            self.assertIn(words, saves.wrong(data) or "")

    def test_saved(self):
        held = [(HGATP, [(1, 0x80000, 5), (2, 0x80001, 7 + 8)])]
        self.put("s", form(b"Hi\n", [(5, 65)], held, [FLAT, NESTED], x10=7))
        ran = self.tool("tools/saved", "s")
        self.check_plain(ran, 0)
        for line in ("running in HS, steps 0, clock 0, timer 18446744073709551615",
                     "blocks 1, spaces 1, entries 16, console 100, device 0",
                     "3 console bytes, 1 unread inputs, 1 of 1 spaces", "RAM from offset 796 to 2097948",
                     "input 65 at 5", "space 8000100000080004: 2 entries, oldest first",
                     "  page 1 frame 80000 r-x level 0", "  page 2 frame 80001 rwx level 1",
                     "first stage: 2 entries, oldest first",
                     "  satp 8000000000080004 page 1 frame 80002 r--- level 0",
                     "  hgatp 8000100000080004 vsatp 9000000000000004 page 7 frame 3 rw-u level 1"):
            self.assertIn(line, ran.stdout.decode().splitlines())
        self.assertEqual(self.tool("tools/saved", "--console", "s").stdout, b"Hi\n")
        self.assertEqual(self.tool("tools/saved", "--ram", "s").stdout, bytes(2097152))
        with open(os.path.join(self.folder, "s"), "rb") as file:
            self.assertEqual(self.tool("tools/saved", "-", stdin=file).stdout, ran.stdout)

    def test_saved_first_stage(self):
        self.put("s", form(first=[(0, 0, 8 << 60 | 7, 1, 0x80008, 35), (1, HGATP, 9 << 60 | 2, 5, 6, 20)]))
        lines = self.tool("tools/saved", "s").stdout.decode().splitlines()
        self.assertEqual(lines[-3:], [
            "first stage: 2 entries, oldest first", "  satp 8000000000000007 page 1 frame 80008 rw-u level 0",
            "  hgatp 8000100000080004 vsatp 9000000000000002 page 5 frame 6 --x- level 2"])
        self.put("s", form(first=None))
        self.assertNotIn("first stage", self.tool("tools/saved", "s").stdout.decode())

    def test_saved_refuses(self):
        ran = self.tool("tools/saved", "a.bin")
        self.check_plain(ran, 2)
        self.check_said(ran, "a.bin is not a saved guest: it does not begin with `NESTHV03`, or as an older version does")
        self.check_plain(self.tool("tools/saved", "none"), 2)


class FaultTest(ToolTest):
    """What is said of a line of the program."""

    def explained(self, line, front=TURNS, **keys):
        path = self.configure(front=front, **keys)
        return faults.explained("nesthv: " + line, path, faults.text_of(path))

    def test_faults(self):
        fault = "configuration fault "
        self.put("s", form()[:-1])
        for line, words, keys in (
                ("14 guest 0", "s, which `resume` of guest 0 ('a') names, is not a saved guest: 2,097,151", {}),
                ("14 guest 0", "nor a regular file", {"resume": '"none"'}),
                ("4 guest 0 key resume", "`resume` of guest 0 ('a') is '': it must be the name of a file",
                 {"resume": '""'}),
                ("4 guest 0 key resume value 5", "is 5: it must be the name of a file", {"resume": 5}),
                ("8 guest 0", "`blocks` (the file that `resume` names tells it), and its keys are name, "
                 "resume, weight", {"blocks": 1}),
                ("8 guest 0", "has `wieght`, and its keys are name, resume, weight", {"wieght": 1}),
                ("3 guest 0 key image", "lacks `image`", {"resume": None}),
                ("3 guest 0 key image", "has `resume` in its place", {"resume": None})):
            self.assertIn(words, self.explained(fault + line, **{**RESUMED, **keys}))

    def test_number_of_no_guest(self):
        self.assertIn("there is no guest 7: guests are numbered from 0, and the last one is 0",
                      self.explained("configuration fault 15 value 7"))

    def test_frames(self):
        self.put("s", form(spaces=8, entries=256))
        self.assertIn("By guest: 0: 6693", self.explained("configuration fault 11 value 131073", **RESUMED))
        self.put("s", b"")
        self.assertIn("By guest: 0: ?", self.explained("configuration fault 11 value 131073", **RESUMED))

    def test_read_fault(self):
        words = self.explained("read fault 2", **{**RESUMED, "resume": '"none"'})
        self.assertIn("the saved file", words)
        self.assertIn("none of guest 0 cannot be read: there is no such file", words)

    def test_other_format(self):
        front = "format = 1\nturns = []\n"
        self.assertIn("`resume` (a key of `format = 2`)",
                      self.explained("configuration fault 8 guest 0", front=front, resume='"s"'))

    @unittest.skipUnless(shutil.which("qemu-system-riscv64"), "qemu-system-riscv64 is not installed")
    def test_qemu(self):
        ran = self.tool("tools/qemu-run", self.configure(front=TURNS, **RESUMED))
        self.check_plain(ran, 2)
        self.check_said(ran, "goes on from a saved one")


class ProgramTest(ToolTest):
    """Saves by the program."""

    def save(self, *words, **options):
        return self.tool("tools/run", "save", *words, **options)

    def test_save_and_resume(self):
        ran = self.save(self.configure(front=TURNS), "0")
        self.check_plain(ran, 0)
        ram, first = LETTER.ljust(2097152, b"\0"), [] if ran.stdout[:8] == b"NESTHV03" else None
        self.assertEqual(ran.stdout, form(b"A", ram=ram, first=first, steps=3, clock=3, x17=1, pc=0x8000000C))
        self.put("s", ran.stdout)
        ran = self.tool("tools/run", self.configure(front=TURNS, **RESUMED))
        self.check_plain(ran, 0)
        self.assertEqual(ran.stdout, b"guest a stopped steps 5 bytes 1\nA\n")

    def test_refused(self):
        path = self.configure(front=TURNS)
        ran = self.save(path, "1")
        self.check_plain(ran, 2)
        self.check_said(ran, "there is no guest 1: guests")
        self.check_plain(self.save(path, "x"), 2)
        self.check_plain(self.save(path), 2)
        self.check_plain(self.save("--json", path, "0"), 2)
        self.put("s", b"")
        ran = self.tool("tools/run", "check", self.configure(front=TURNS, **RESUMED))
        self.check_plain(ran, 2)
        self.check_said(ran, "is not a saved guest: the file is empty")

    def test_changed_files(self):
        """The tool finds a fault exactly where the program does."""
        chosen = random.Random(41)
        first = [(0, 0, 8 << 60 | 7, 1, 0x80008, 35), (1, HGATP, 9 << 60 | 2, 5, 6, 20)]
        has_first = self.save(self.configure(front=TURNS), "0").stdout[:8] == b"NESTHV03"
        wholes = [form(b"x" * 20, [(5, 1), (7, 2)], [(HGATP, [(1, 0x80000, 5), (2, 0x80001, 7 + 8)])], first=each,
                       mode=2, hgatp=HGATP, reservation_width=4, reservation_address=0x80000000)
                  for each in ([None, first] if has_first else [None])]
        path = self.configure(front=TURNS, **RESUMED)
        for number in range(300):
            whole = wholes[number % len(wholes)]
            data = bytearray(whole)
            data[chosen.randrange(saves.Saved(whole).front)] ^= 1 << chosen.randrange(8)
            data = data[:chosen.choice([len(data)] * 9 + [chosen.randrange(len(data))])]
            self.put("s", bytes(data))
            ran = subprocess.run([PROGRAM, "check", path], cwd=self.folder, capture_output=True)
            self.assertEqual(ran.returncode, 2 if saves.wrong(bytes(data)) else 0, saves.wrong(bytes(data)))
