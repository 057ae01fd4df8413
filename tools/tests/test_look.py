"""Tests of tools/look and of what it stands on."""
import json
import os
import shutil
import signal
import struct
import subprocess
import time
import unittest
from unittest import mock
from xml.dom import minidom

from saved_files import HGATP, form
from helper import LIMIT, LOOP, PROGRAM, TOOLS, TOP, ToolTest, take_signals
from nesthv_tools import (
    drawing, guest_runs, logged_bytes, presentation, programs, registers, saves, searches, state_cache, state_changes,
    tracers, trap_causes, walks)
from nesthv_tools.commands import look

FAKE = os.path.join(TOOLS, "tests", "fake-program")
TABLE = 0x80004000  # of HGATP
GIVEN = 0x80008000
# auipc t0, 0; addi t0, t0, 28; csrw stvec, t0; li a7, 1; li a0, 65; ecall; what is not an instruction; and from
# 28 on li a0, 66; ecall; li a7, 8; ecall
TRAPPING = struct.pack("<11I", 0x00000297, 0x01C28293, 0x10529073, 0x00100893, 0x04100513, 0x73, 0xFFFFFFFF,
                       0x04200513, 0x73, 0x00800893, 0x73)


def program_with_save():
    """The program that NESTHV names, or that of dist/, where it has the command `save`."""
    for path in filter(None, (os.environ.get("NESTHV"), PROGRAM)):
        if os.path.isfile(path) and b"save CONFIG" in subprocess.run([path], capture_output=True).stderr:
            return os.path.abspath(path)
    return None


def ram_of(**words):
    """RAM in which doublewords stand at these places, in hexadecimal after an `at`."""
    made = bytearray(2097152)
    for name, value in words.items():
        struct.pack_into("<Q", made, int(name[2:], 16) - 0x80000000, value)
    return bytes(made)


def pointer(place):
    return place >> 2 | 1


def saved_of(held=(), words=None, **numbers):
    """A saved guest under HGATP, whose table maps page 1 of the guest to GIVEN, with V, R, W, U, A and D."""
    tables = {"at80004000": pointer(0x80005000), "at80005000": pointer(0x80006000),
              "at80006008": GIVEN >> 2 | 0xD7}
    return saves.Saved(form(held=held, ram=ram_of(**{**tables, **(words or {})}),
                            **{"hgatp": HGATP, "spaces": 2, **numbers}))


def answers_of(saved, address, mode="VS"):
    found = walks.Translation(walks.View(saved, mode), address)
    return {kind: answer.wrong or f"{answer.address:x}{'*' * answer.is_cached}"
            for kind, answer in found.answers.items()}


class SavedTest(unittest.TestCase):
    def test_form(self):
        for data in (form(), form(b"Hi", [(5, 65)], [(HGATP, [(1, 0x80000, 5), (2, 0x80001, 7 + 8)])], x3=7)):
            self.assertEqual(saves.Saved(data).form(), data)

    def test_changed(self):
        saved = saves.Saved(form(held=[(HGATP, [(1, 0x80000, 5)])]))
        self.assertEqual(saved.changed({"x7": 3}, [(HGATP, [])]).form(), form(held=[(HGATP, [])], x7=3))
        self.assertEqual(saved.form(), form(held=[(HGATP, [(1, 0x80000, 5)])]))

    def test_word_at(self):
        saved = saved_of()
        self.assertEqual(saved.word_at(TABLE), pointer(0x80005000))
        self.assertEqual([saved.word_at(place) for place in (0x7FFFFFF8, 0x801FFFF9, 0, 2**64 - 8)],
                         [None] * 4)


class WalkTest(unittest.TestCase):
    def test_second_stage(self):
        saved = saved_of()
        self.assertEqual(answers_of(saved, 0x1008),
                         {"fetch": "no X", "load": "80008008", "store": "80008008"})
        self.assertEqual(set(answers_of(saved, 0x2000).values()), {"V clear"})
        self.assertEqual(set(answers_of(saved, 1 << 41).values()), {"the address has more than 41 bits"})

    def test_leaves_that_cannot_be_used(self):
        for bits, words in ((0x97, "A clear"), (0xC7, "U clear"), (0x57, "D clear"), (0xD5, "W set, R clear"),
                            (0xD1, "a pointer with A, D or U set"), (0x01, "a pointer at level 0"),
                            (0xD3, "no W"), (1 << 54 | 0xD7, "bits 63:54 not zero")):
            saved = saved_of(words={"at80006008": GIVEN >> 2 | bits})
            self.assertEqual(answers_of(saved, 0x1000)["store"], words)
        saved = saved_of(words={"at80006008": 0x90000000 >> 2 | 0xD7})
        self.assertEqual(answers_of(saved, 0x1000)["store"], "90000000 is not in RAM")
        saved = saved_of(words={"at80005000": 0x80001000 >> 2 | 0xDF})
        self.assertIn("not a multiple of the 512 frames", answers_of(saved, 0x1000)["load"])

    def test_cached(self):
        saved = saved_of(held=[(HGATP, [(1, 0x80009, 1), (3, 0x8000A, 3)])])
        self.assertEqual(answers_of(saved, 0x1008),
                         {"fetch": "no X", "load": "80009008*", "store": "80008008"})
        self.assertEqual(answers_of(saved, 0x3000)["store"], "8000a000*")
        self.assertEqual([each[1:3] for each in walks.stale_entries(saved)],
                         [(1, "cached 80009000 r--, table says 80008000 rw-"),
                          (3, "cached 8000a000 rw-, table says V clear")])
        saved = saved_of(held=[(HGATP, [(1, 0x80008, 3)])])
        self.assertEqual(walks.stale_entries(saved), [])

    def test_first_stage(self):
        """VS has a table at guest physical 1000, whose leaf of level 2 is for the guest's first GiB."""
        saved = saved_of(words={"at80008008": 0xCB}, vsatp=8 << 60 | 1)
        self.assertEqual(answers_of(saved, 0x40001008),
                         {"fetch": "no X", "load": "80008008", "store": "no W"})
        self.assertEqual(answers_of(saved, 0x40001008, "VU")["load"], "U clear")
        self.assertEqual(answers_of(saved, 0x40002000)["load"], "V clear")
        saved = saved_of(words={"at80008008": 0xDB}, vsatp=8 << 60 | 1)
        self.assertEqual(answers_of(saved, 0x40001000)["load"], "U set, SUM clear")
        self.assertEqual(answers_of(saved, 1 << 38)["load"],
                         "bits 63:39 of the address are not equal to bit 38")
        saved = saved_of(vsatp=8 << 60 | 2)
        self.assertEqual(answers_of(saved, 0)["load"], "at the second stage of the entry's place: V clear")

    def test_supervisor(self):
        saved = saved_of(words={"at80007000": 0x80000000 >> 2 | 0xCF}, satp=8 << 60 | 0x80007)
        self.assertEqual(set(answers_of(saved, 0x123, "HS").values()), {"80000123"})
        self.assertEqual(set(answers_of(saved, 0x123, "U").values()), {"U clear"})
        self.assertEqual(set(answers_of(saved, 0x200123, "HS").values()), {"80200123 is not in RAM"})

    def test_maps(self):
        saved = saved_of(held=[(HGATP, [(1, 0x80009, 1)])],
                         words={"at80006010": GIVEN + 4096 >> 2 | 0xD7, "at80006018": GIVEN >> 2 | 0x97,
                                "at80007000": 0x80000000 >> 2 | 0xCF}, satp=8 << 60 | 0x80007)
        lines = presentation.lines_of_maps(presentation.maps_of(saved))
        for line in ("  0000000000000000    200000  rwx-  -> 80000000",
                     "  0000000000200000  3fe00000  rwx-  -> 80200000  not usable: not in RAM",
                     "  0000000000001000      2000  rw-  -> 80008000",
                     "  0000000000003000      1000  rw-  -> 80008000  not usable: A clear",
                     "  stale 1000: cached 80009000 r--, table says 80008000 rw-"):
            self.assertIn(line, lines)
        drawn = minidom.parseString(drawing.svg_of(presentation.maps_of(saved)))
        kinds = [each.getAttribute("class") for each in drawn.getElementsByTagName("path")]
        self.assertEqual(sorted(kinds), ["band", "band", "stale"])
        texts = [each.firstChild.data for each in drawn.getElementsByTagName("text")]
        for text in ("0x80008000, 4 KiB: satp rwx-, VMID 1 rw-", "0x1000, 8 KiB: rw-",
                     "0x80009000, 4 KiB: satp rwx-, VMID 1 rw-, VMID 1 r-- stale",
                     "dashed: a cached translation that is stale"):
            self.assertIn(text, texts)
        self.check_apart(drawn)
        whole = drawn.documentElement
        sizes = [whole.getAttribute(name) for name in ("width", "height")]
        self.assertEqual(whole.getAttribute("viewBox"), f"0 0 {sizes[0]} {sizes[1]}")
        self.assertEqual(drawn.getElementsByTagName("title")[0].firstChild.data, "Address spaces at step 0")
        self.assertIn("present: hgatp names this table now", texts)
        self.assertFalse([text for text in texts if text.startswith("VS and VU")])  # it has no table
        self.assertEqual([drawing.shown_size(size) for size in (8, 4096, 6 << 20, 5 << 30)],
                         ["8 bytes", "4 KiB", "6 MiB", "5 GiB"])
        endless = saved_of(words={f"at{place:x}": pointer(TABLE)
                                  for place in range(TABLE, TABLE + 0x4000, 8)})
        self.assertTrue(walks.map_of(endless, HGATP, True).is_cut)
        minidom.parseString(drawing.svg_of(presentation.maps_of(endless)))

    def check_apart(self, drawn):
        """Checks that no two texts of a drawing share a place, and that each box is as wide as its text."""
        places = [(int(each.getAttribute("x")), int(each.getAttribute("y")), 7.3 * len(each.firstChild.data))
                  for each in drawn.getElementsByTagName("text")]
        for x, y, width in places:
            self.assertFalse([other for other in places if other[1] == y and x < other[0] < x + width])
        boxes = {(int(each.getAttribute("x")), int(each.getAttribute("y"))): int(each.getAttribute("width"))
                 for each in drawn.getElementsByTagName("rect") if each.getAttribute("x")}
        for x, y, width in places:
            self.assertGreaterEqual(boxes.get((x - 4, y - 14), 2000), width)


class DeviceTest(unittest.TestCase):
    """A guest with the device page, to which the table of HGATP maps page 2, with V, R, W, X, U, A and D."""

    LEAF = {"at80006010": 0x10000000 >> 2 | 0xDF}

    def lines(self, saved, address, mode="VS"):
        found = presentation.translation_of(walks.Translation(walks.View(saved, mode), address), saved)
        json.dumps(found)
        return presentation.lines_of_translation(found)

    def test_served(self):
        none = "10000000 is on the device page, offset 0, where no fetch is served"
        for saved, address, mode in ((saved_of(device=1), 0x10000000, "HS"),
                                     (saved_of(device=1, hgatp=0), 0x10000000, "VS"),
                                     (saved_of(device=1, words=self.LEAF), 0x2000, "VS")):
            self.assertEqual(self.lines(saved, address, mode)[-3:], [
                f"fetch: instruction access fault (1): {none}",
                "load: 10000000, on the device page, offset 0: of 1 byte it reads an input, and any other is "
                "a load access fault (5)",
                "store: 10000000, on the device page, offset 0: of 1 byte it puts a byte, and any other is a "
                "store/AMO access fault (7)"])
        self.assertEqual(self.lines(saved_of(device=1), 0x10000008, "U")[-2:], [
            "load: 10000008, on the device page, offset 8: of 8 bytes it reads the status, and any other is "
            "a load access fault (5)",
            "store: store/AMO access fault (7): 10000008 is on the device page, offset 8, where no store is "
            "served"])
        self.assertEqual(answers_of(saved_of(device=1, words=self.LEAF), 0x2FF8)["load"],
                         "10000ff8 is on the device page, offset ff8, where no load is served")

    def test_beside_the_page(self):
        for saved, address in ((saved_of(), 0x10000000), (saved_of(device=1), 0xFFFFFF8),
                               (saved_of(device=1), 0x10001000)):
            self.assertEqual(set(answers_of(saved, address, "HS").values()), {f"{address:x} is not in RAM"})
        self.assertEqual(set(answers_of(saved_of(words=self.LEAF), 0x2000).values()),
                         {"10000000 is not in RAM"})

    def test_rights(self):
        saved = saved_of(device=1, words={"at80006010": 0x10000000 >> 2 | 0xD3})
        self.assertEqual(answers_of(saved, 0x2000), {"fetch": "no X", "load": "10000000", "store": "no W"})

    def test_cached(self):
        saved = saved_of(device=1, held=[(HGATP, [(2, 0x10000, 7)])])
        self.assertEqual(answers_of(saved, 0x2000)["store"], "10000000*")
        lines = self.lines(saved, 0x2000)
        self.assertIn("    cached   2000 -> 10000000 rwx level 0  the device page  stale: cached 10000000 "
                      "rwx, table says V clear", lines)
        self.assertIn("store: 10000000, by the cached translation, on the device page, offset 0: of 1 byte "
                      "it puts a byte, and any other is a store/AMO access fault (7)", lines)
        self.assertTrue(lines[-3].startswith("fetch: instruction access fault (1): 10000000 is on the dev"))

    def test_tables(self):
        """No entry is read from the page, whichever stage its table is of, and by a cached translation."""
        self.assertEqual(set(answers_of(saved_of(device=1, satp=8 << 60 | 0x10000), 0x1000, "HS").values()),
                         {"the entry's place 10000000 is on the device page"})
        self.assertEqual(set(answers_of(saved_of(device=1, hgatp=8 << 60 | 0x10000), 0x1000).values()),
                         {"the entry's place 10000000 is on the device page"})
        held = [(HGATP, [(2, 0x10000, 3)])]
        for changes in ({"words": self.LEAF}, {"held": held}):
            saved = saved_of(device=1, vsatp=8 << 60 | 2, **changes)
            self.assertEqual(set(answers_of(saved, 0).values()),
                             {"at the second stage of the entry's place: 10000000 is on the device page, "
                              "offset 0, where no implicit read is served"})
            self.assertIn("load: load access fault (5): ", "\n".join(self.lines(saved, 0)))

    def test_maps(self):
        large = {"at80007000": 0xCF, "at80006018": 0x10000000 >> 2 | 0x97}
        saved = saved_of(device=1, words={**self.LEAF, **large}, satp=8 << 60 | 0x80007,
                         held=[(HGATP, [(4, 0x10000, 3)])])
        lines = presentation.lines_of_maps(presentation.maps_of(saved))
        for line in ("  0000000000000000  10000000  rwx-  -> 0  not usable: not in RAM",
                     "  0000000010000000      1000  rwx-  -> 10000000  the device page",
                     "  0000000010001000  2ffff000  rwx-  -> 10001000  not usable: not in RAM",
                     "  0000000000002000      1000  rwx  -> 10000000  the device page",
                     "  0000000000003000      1000  rw-  -> 10000000  not usable: A clear",
                     "  cached 4000 -> 10000000 rw- level 0  the device page"):
            self.assertIn(line, lines)
        texts = [each.firstChild.data for each in
                 minidom.parseString(drawing.svg_of(presentation.maps_of(saved))).getElementsByTagName("text")]
        self.assertIn("0x10000000, 4 KiB: the device page, satp rwx-, VMID 1 rwx, VMID 1 rw- stale", texts)
        saved = saved_of(words={**self.LEAF, **large}, satp=8 << 60 | 0x80007)
        lines = presentation.lines_of_maps(presentation.maps_of(saved))
        self.assertIn("  0000000000000000  40000000  rwx-  -> 0  not usable: not in RAM", lines)
        self.assertFalse([line for line in lines if "device" in line])

    def test_reasons(self):
        """Why an access to the page is a fault: that of a guest without it is one outside memory, and it is said what
        other machines have there."""
        trap = {"cause": 5, "tval": 0x10000000, "to": "HS"}
        words = "the device page serves a load and a store of 1 byte at offset 0, and a load of 8 bytes at " \
            "offset 8: any other access is an access fault"
        uart = "10000000 is where many machines have a UART: here call 1 puts a byte, and so does the device page of a " \
            "guest that has it"
        for numbers, changes, said in (({"device": 1}, {}, [words]), ({}, {}, [uart]), ({}, {"tval": 0x40000000}, []),
                                       ({"device": 1}, {"cause": 7, "tval": 0x10000FFF}, [words]),
                                       ({"device": 1}, {"cause": 1}, [words]),
                                       ({"device": 1}, {"tval": 0x10001000},
                                        ["10001000 is where many machines have virtio devices: here there are none"])):
            found = trap_causes.reasons_of(None, saved_of(**numbers), 0x0002A303, {**trap, **changes})
            self.assertEqual(found, said)
        saved = saved_of(device=1, words=self.LEAF, mode=2, held=[(HGATP, [])])
        self.assertEqual(trap_causes.reasons_of(None, saved, 0x13, {**trap, "tval": 0x2004}), [words])
        saved = saved_of(device=1, words=self.LEAF)
        self.assertEqual(trap_causes.reasons_of(None, saved, 0x6C02C373, {**trap, "tval": 0x2000}), [words])

    def test_differences(self):
        self.assertEqual(state_changes.differences(saved_of(), saved_of(device=1)), [])


class RegisterTest(unittest.TestCase):
    def pending(self, **numbers):
        return dict(registers.lines_of_pending(saved_of(**numbers)))

    def test_pending(self):
        self.assertEqual(self.pending(), {})
        self.assertEqual(self.pending(clock=5, timer=5), {"STIP": "not taken: sie.STIE is clear"})
        self.assertEqual(self.pending(timer=0, sie=0x20), {"STIP": "not taken: sstatus.SIE is clear in HS"})
        self.assertEqual(self.pending(timer=0, sie=0x20, sstatus=2 << 32 | 2),
                         {"STIP": "the next step takes it into HS"})
        self.assertEqual(self.pending(hvip=0x40, hie=0x40, hideleg=0x40),
                         {"VSTIP": "not taken: hideleg has it, and V is 0 in HS"})
        self.assertEqual(self.pending(hvip=0x44, hie=0x44, mode=1),
                         {"VSSIP": "the next step takes it into HS", "VSTIP": "another interrupt goes first"})
        self.assertEqual(self.pending(hvip=0x40)["VSTIP"], "not taken: hie.VSTIE is clear, which VS cannot "
                         "set in its sie: hideleg does not have it")
        self.assertEqual(self.pending(hvip=0x40, hideleg=0x40), {"VSTIP": "not taken: hie.VSTIE is clear"})

    def test_refused_instructions(self):
        time, satp, wfi, sret, hvip = 0xC0102573, 0x18002573, 0x10500073, 0x10200073, 0x64502573
        for mode, word, numbers, words in (
                ("VS", time, {}, "hcounteren.TM is clear"), ("VS", time, {"hcounteren": 2}, ""),
                ("VU", time, {"hcounteren": 2}, "scounteren.TM is clear"),
                ("VS", satp, {"hstatus": 2 << 32 | 1 << 20}, "hstatus.VTVM is set"),
                ("VS", wfi, {"hstatus": 2 << 32 | 1 << 21}, "hstatus.VTW is set"),
                ("VS", sret, {"hstatus": 2 << 32 | 1 << 22}, "hstatus.VTSR is set"),
                ("VS", hvip, {}, "HS may make it, and VS may not"), ("VU", satp, {}, "VU may not make it")):
            saved = saved_of(mode=2 + (mode == "VU"), held=[(HGATP, [])], **numbers)
            self.assertEqual(trap_causes.why_refused(saved, word, 22), words)
        for mode, word, words in ((0, 0, "it is 0, as memory is that nobody wrote"), (0, 0xFFFFFFFF, ""),
                                  (0, 0x45A9, "its low half is a compressed instruction"),
                                  (0, 0x02007053, "it is of floating point"), (1, wfi, "U may not make it")):
            self.assertEqual(trap_causes.why_refused(saved_of(mode=mode), word, 2), words)
        self.assertEqual(trap_causes.why_refused(saved_of(mode=1), time, 2), "scounteren.TM is clear")

    def test_meanings(self):
        for name, value, words in (("scause", 2**63 + 5, "supervisor timer interrupt"),
                                   ("scause", 21, "load guest-page fault"), ("scause", 0, ""),
                                   ("hgatp", HGATP, "Sv39x4, VMID 1, root 80004000"),
                                   ("hstatus", 2 << 32 | 0x80, "SPV=1 VSXL=2"),
                                   ("htval", 0x402, "guest physical 1008"), ("hedeleg", 0x101, "0 8")):
            self.assertEqual(registers.meaning_of(name, value), words)


class CacheTest(ToolTest):
    def test_bound(self):
        cache = state_cache.Cache(self.folder, 100000, "key")
        for step in range(10):
            cache.keep(step, bytes([1 + step]) * 20000 + bytes(1 << 20))
            os.utime(os.path.join(self.folder, "key", str(step)), (step, step))
        self.assertIn(9, cache.steps())
        self.assertLess(len(cache.steps()), 6)
        path = os.path.join(self.folder, "state")
        self.assertFalse(cache.put_at(0, path))
        self.assertTrue(cache.put_at(9, path))
        with open(path, "rb") as file:
            self.assertEqual(file.read(), b"\n" * 20000 + bytes(1 << 20))

    def test_folder_that_cannot_be_written(self):
        for folder, most in ((os.path.join(self.folder, "a.bin"), 100000), (self.folder, 0)):
            cache = state_cache.Cache(folder, most, "key")
            self.addCleanup(cache.close)
            cache.keep(0, b"x")
            self.assertEqual(cache.steps(), [0])
            self.assertEqual([name for name in os.listdir(self.folder) if name != "key"], ["a.bin"])

    def test_first_step(self):
        for first in (1, 2, 7, 99, 100):
            self.assertEqual(searches.first_step(lambda step: step >= first, 0, 100), first)
            self.assertEqual(searches.last_change(lambda step: step >= first, 0, 100), first)
        self.assertIsNone(searches.last_change(lambda step: True, 0, 100))
        self.assertEqual(searches.last_change(lambda step: step < 10 or step > 90, 0, 100), 91)


class LookTest(ToolTest):
    """The tool, by the program, or by one that stands for it."""

    program = program_with_save() or FAKE

    def look(self, *words, **variables):
        cache = os.path.join(self.folder, "cache")
        variables = {"NESTHV": self.program, "XDG_CACHE_HOME": cache, **variables}
        return self.tool("tools/look", *words, variables=variables)

    def lines(self, *words, status=0):
        ran = self.look(*words)
        self.check_plain(ran, status)
        return ran.stdout.decode().splitlines()

    def trapping(self):
        """The configuration of a guest that traps at its seventh step."""
        self.put("trap.bin", TRAPPING)
        return self.configure("trap.toml", front="format = 2\nturns = [[0, 100]]\n", image='"trap.bin"')


class GuestTest(LookTest):
    """A guest with the device page, by the program that stands for one."""

    program = FAKE
    front = "format = 2\nturns = [[0, 10]]\n"

    def test_keys(self):
        keys = guest_runs.Guest(FAKE, self.configure(), 0).keys
        self.assertNotIn("device", keys)
        for device in (0, 1):
            path = self.configure(front=self.front, device=device)
            self.assertEqual(guest_runs.Guest(FAKE, path, 0).keys, {**keys, "device": device})

    def test_at(self):
        path = self.configure(front=self.front, device=1)
        self.assertIn("device page at 10000000", self.lines(path, "at", "2"))
        self.assertEqual(json.loads(self.look(path, "at", "2", "--json").stdout)["device"], 1)
        path = self.configure(front=self.front)
        self.assertIn("no device page", self.lines(path, "at", "2"))
        self.assertEqual(json.loads(self.look(path, "at", "2", "--json").stdout)["device"], 0)

    def test_walk(self):
        path = self.configure(front=self.front, device=1)
        line = self.lines(path, "walk", "10000000")[-1]
        self.assertTrue(line.startswith("store: 10000000, on the device page"), line)
        ran = self.look(path, "walk", "device")
        self.check_plain(ran, 2)
        self.check_said(ran, "device is not an address")

    def test_diff(self):
        path = self.configure(front=self.front, device=1)
        ran = self.look(path, "diff", self.configure("b.toml", front=self.front))
        self.check_plain(ran, 1)
        self.check_said(ran, "one guest has the device page and the other has not, which is not compared")
        self.check_unsaid(self.look(path, "diff", path), "device page")


class FakeTest(LookTest):
    def test_at(self):
        lines = self.lines(self.configure(front="format = 2\nturns = [[0, 10]]\n"), "at", "2")
        self.assertEqual(lines[0], "a at step 2: running in HS, V = 0")
        self.assertTrue(lines[1].startswith("pc 0000000080000008  00000073"))
        self.assertIn("nothing is pending", lines)
        self.assertEqual(lines[-1], "console 0 bytes: ''")
        ran = self.look("a.toml", "at", "end", "--json")
        state = json.loads(ran.stdout)
        self.assertEqual([state[key] for key in ("step", "status", "console")], [5, "stopped", "A"])
        self.assertEqual(len(os.listdir(os.path.join(self.folder, "cache", "nesthv-look"))), 1)

    def test_step_behind_the_end(self):
        path = self.configure(front="format = 2\nturns = [[0, 10]]\n")
        ran = self.look(path, "at", "8")
        self.check_said(ran, "the guest is stopped at step 5: this is shown")
        ran = self.look(path, "at", "11")
        self.check_plain(ran, 2)
        self.check_said(ran, "step 11 is not in the run, which goes from 0 to 10")

    def test_resumed(self):
        path = self.configure(front="format = 2\nturns = [[0, 2]]\n")
        saved = subprocess.run([FAKE, "save", path, "0"], cwd=self.folder, capture_output=True).stdout
        self.put("s", saved)
        keys = {"image": None, "blocks": None, "spaces": None, "entries": None, "console": None}
        path = self.configure(front="format = 2\nturns = [[0, 9]]\n", resume='"s"', **keys)
        self.assertEqual(self.lines(path, "first", "console", "1")[0], "step 3")
        self.check_said(self.look(path, "at", "1"), "step 1 is not in the run, which goes from 2 to 11")

    def test_first(self):
        path = self.trapping()
        self.assertEqual(self.lines(path, "first", "console", "1")[0], "step 6")
        self.assertEqual(self.lines(path, "first", "status", "stopped")[0], "step 11")
        self.assertEqual(self.lines(path, "first", "console", "9", status=1),
                         ["it does not hold at step 11, the end"])

    def test_trace(self):
        lines = self.lines(self.trapping(), "trace", "4", "7")
        self.assertEqual([line.split()[0] for line in lines], ["4", "5", "6"])
        self.assertTrue(lines[0].endswith("  a0 0 -> 41"), lines)
        self.assertTrue(lines[1].endswith("  a0 41 -> 0  console byte 0 its end -> 'A'"), lines)
        self.assertTrue(lines[2].endswith("  trap: illegal instruction (2) to HS, stval ffffffff"), lines)

    def test_traps(self):
        path = self.trapping()
        line = self.lines(path, "traps", "0", "end")
        self.assertEqual(len(line), 1)
        self.assertTrue(line[0].startswith("6 HS 0000000080000018  ffffffff"), line)
        self.assertEqual(self.lines(path, "first-trap")[1], "illegal instruction (2) to HS, stval ffffffff")
        self.assertEqual(self.lines(path, "first-trap", "2", status=1),
                         ["1 trap is found up to step 11, the end"])

    def test_last_trap(self):
        path = self.trapping()
        lines = self.lines(path, "last-trap")
        self.assertTrue(lines[0].startswith("taken at 6 HS 0000000080000018  ffffffff"), lines)
        self.assertEqual(lines[1:], ["illegal instruction (2) to HS, stval ffffffff"])
        lines = self.lines(path, "last-trap", "--step", "6", status=1)
        self.assertEqual(lines, ["no trap is found up to step 6"])

    def test_trap_that_comes_again_and_again(self):
        self.put("hang.bin", struct.pack("<2I", 0x100002B7, 0x00628023))  # lui t0, 0x10000; sb t1, 0(t0)
        lines = self.lines(self.configure("hang.toml", image='"hang.bin"'), "last-trap")
        self.assertEqual(lines[:2], ["taken at 999 HS 0000000000000000  cannot be fetched: 0 is not in RAM",
                                     "instruction access fault (1) to HS, stval 0"])
        self.assertEqual(lines[-2], "sepc scause stval htval: the same from step 3 on")
        self.assertTrue(lines[-1].startswith("the trap before these: 1 HS 0000000080000004  00628023"), lines)

    def test_diff(self):
        path = self.trapping()
        self.put("other.bin", TRAPPING.replace(struct.pack("<I", 0x04200513), struct.pack("<I", 0x04300513)))
        self.configure("other.toml", front="format = 2\nturns = [[0, 100]]\n", image='"other.bin"')
        lines = self.lines(path, "diff", "other.toml")
        self.assertEqual(lines[0], "the same at step 7, and different at 8, which is made by")
        self.assertEqual(lines[-1], "  a0 42 | 43")
        self.assertEqual(self.lines(path, "diff", "trap.toml", status=1),
                         ["the same at step 11, the end of the shorter run, and at 11 steps before"])

    def test_bad_words(self):
        path = self.trapping()
        for words, said in (([path], "a command is missing after"), ([path, "to", "5"], "to is not a command"),
                            ([path, "tarce", "5", "6"], "tarce is not a command: at, "),
                            ([path, "at"], "`at` takes 1 word"), ([path, "at", "-"], "- is not a step: give a decimal number"),
                            ([path, "1", "at", "0"], "there is no guest 1"),
                            (["none", "at", "0"], "no such file"),
                            ([path, "walk", "xyz"], "xyz is not an address"),
                            ([path, "trace", "5", "3"], "TO is 3, which is before FROM, 5"),
                            ([path, "first", "luck", "1"], "is not a condition"),
                            ([path, "first", "memory", "0", "1"], "not a physical address"),
                            ([path, "--elf", path, "at", "0"], "cannot be read as an ELF file"),
                            ([path, "--program", "none", "at", "0"], "none is not a program")):
            ran = self.look(*words)
            self.check_plain(ran, 2)
            self.assertEqual(len(ran.lines), 1, ran.lines)
            self.check_said(ran, said)

    def test_signals(self):
        """A tool that a signal ends leaves no folder and no program."""
        place = os.path.join(self.folder, "place")
        os.mkdir(place)
        path = self.configure(front="format = 2\nturns = [[0, 4000000]]\n", image=f'"{os.path.basename(self.put("l.bin", LOOP))}"')
        slow = self.put("slow", f"#!/bin/sh\n[ $1 = check ] && exit\ntouch {place}/began\nexec sleep 100\n")
        os.chmod(slow, 0o755)
        for number in (signal.SIGTERM, signal.SIGHUP):
            variables = {**os.environ, "NESTHV": slow, "TMPDIR": place, "XDG_CACHE_HOME": self.folder}
            started = subprocess.Popen([f"{TOOLS}/look", "--cache-size", "0", path, "at", "end"], env=variables,
                                       stdout=subprocess.PIPE, stderr=subprocess.PIPE, preexec_fn=take_signals)
            while not os.path.exists(f"{place}/began"):
                time.sleep(0.05)
            time.sleep(0.2)
            started.send_signal(number)
            lines = started.communicate(timeout=LIMIT)[1].decode()
            self.assertNotIn("Traceback", lines)
            self.assertEqual((started.returncode, os.listdir(place)), (128 + number, ["began"]), lines)
            os.remove(f"{place}/began")

    def test_json(self):
        """Each number is a number, and none a text in hexadecimal. A name may look like one, as `a7`."""
        path = self.trapping()
        for words in (["trace", "0", "10"], ["last-trap"], ["at", "6"], ["walk", "80000000"], ["maps"], ["fences"]):
            for line in self.look(*words[:0], path, *words, "--json").stdout.decode().splitlines():
                self.check_json(json.loads(line))
        ran = self.look(path, "trace", "4", "6", "--json")
        first, second = map(json.loads, ran.stdout.decode().splitlines())
        self.assertEqual(first["changes"], [{"name": "a0", "values": [0, 0x41]}])
        self.assertEqual(second["changes"][1], {"name": "console byte", "place": 0, "values": ["its end", "'A'"]})

    def check_json(self, value):
        if isinstance(value, dict):
            for key, each in value.items():
                if key != "name":
                    self.check_json(each)
        elif isinstance(value, list):
            for each in value:
                self.check_json(each)
        elif isinstance(value, str):
            self.assertNotRegex(value, "^(0x)?[0-9a-f]*[0-9][0-9a-f]*$")

    def test_program_without_save(self):
        old = self.put("old", "#!/bin/sh\n"
                       "[ $1 = check ] || { echo nesthv: usage: run CONFIG >&2; exit 1; }\n")
        os.chmod(old, 0o755)
        ran = self.look(self.trapping(), "at", "0", NESTHV=old)
        self.check_plain(ran, 2)
        self.check_said(ran, "has no command `save`")


class LoggedTest(LookTest):
    """The tool where nesthv-trace stands beside the program: it says the same."""

    def setUp(self):
        super().setUp()
        os.mkdir(os.path.join(self.folder, "bin"))
        self.tracer = os.path.join(self.folder, "bin", "nesthv-trace")
        self.program = os.path.join(self.folder, "bin", "nesthv")
        for path in (self.program, self.tracer):
            os.symlink(FAKE, path)

    def test_the_same(self):
        path = self.trapping()
        self.put("hang.bin", struct.pack("<2I", 0x100002B7, 0x00628023))  # lui t0, 0x10000; sb t1, 0(t0)
        hanging = self.configure("hang.toml", image='"hang.bin"')
        for words in ([path, "traps"], [path, "traps", "2", "6"], [path, "traps", "6", "7", "--json"],
                      [path, "first-trap"], [path, "first-trap", "2"], [path, "last-trap"],
                      [path, "last-trap", "--step", "6"], [hanging, "traps", "995", "end"], [hanging, "last-trap"],
                      [path, "entered"], [path, "first", "console", "1"], [path, "first", "console", "2", "--json"],
                      [path, "first", "console", "3"]):
            with self.subTest(words=words):
                by_log, by_states = self.look(*words), self.look(*words, NESTHV=FAKE)
                self.check_plain(by_log, by_states.returncode)
                self.assertEqual(by_log.stdout, by_states.stdout)

    def test_bytes_in_a_long_run(self):
        """Where the log of the whole run would be long, that of a part of it is read; and where it has too few bytes,
        the byte is found without it."""
        session = mock.Mock()
        runs = session.runs
        session.end.return_value, runs.first, runs.last, runs.guest.blocks = 10**9, 0, 10**9, 1
        runs.told_at = lambda step: mock.Mock(console=b"x" * (step // 1000))
        asked = []

        def logged(kinds, low, high):
            asked.append((kinds, high - low))
            return [mock.Mock(kind="put", step=step - 1) for step in range(low // 1000 * 1000 + 1000, high + 1, 1000)]
        runs.logged = logged
        for has_bytes in (True, False):
            if not has_bytes:
                runs.logged = lambda kinds, low, high: []
            step = look.first_step(session, ["console", "5000"], lambda step: step // 1000 >= 5000)
            self.assertEqual(step, 5000000)
        self.assertEqual([kinds for kinds, _ in asked], [["calls"]])
        self.assertLessEqual(asked[0][1], logged_bytes.WINDOW)

    def test_log_that_fails(self):
        path = self.trapping()
        for script, said in (("echo nesthv: out of memory >&2; exit 5", "out of memory"),
                             ("echo trap 6 HS", "line 1 of the log is not one that nesthv-trace writes"),
                             ("printf 'trap 6'", "the log ends within line 1"), ("kill -9 $$", "was ended by signal 9")):
            os.remove(self.tracer)
            self.put("bin/nesthv-trace", f"#!/bin/sh\n{script}\n")
            os.chmod(self.tracer, 0o755)
            ran = self.look(path, "traps")
            self.check_plain(ran, 2)
            self.check_said(ran, said)


class ExampleTest(LookTest):
    """The tool, by a program that has `save`, on the examples."""

    def setUp(self):
        super().setUp()
        self.program = program_with_save()
        if not self.program:
            self.skipTest("there is not a program with the command `save`")

    def example(self, name, **changes):
        """A copy of an example's configuration, in which keys have other values."""
        for end in (".toml", ".bin"):
            with open(os.path.join(TOP, "examples", name, name + end), "rb") as file:
                data = file.read()
            for key, (old, new) in changes.items() if end == ".toml" else ():
                data = data.replace(f"{key} = {old}".encode(), f"{key} = {new}".encode())
            path = self.put(name + end, data)
            path = path.removesuffix(".bin") + ".toml"
        return path


class ProgramTest(ExampleTest):
    def test_traps(self):
        lines = self.lines(self.example("nested3"), "traps", "0", "40")
        self.assertEqual([line.split()[0] for line in lines], ["14", "35"])
        lines = self.lines("nested3.toml", "first-trap")
        self.assertIn("store/AMO guest-page fault (23) to HS, stval 1008, htval 402 (guest physical 1008)",
                      lines)
        self.assertTrue(any(line.endswith("not usable: V clear") for line in lines))

    def test_walk(self):
        lines = self.lines(self.example("nested3"), "walk", "1008", "--as", "VS", "--step", "52")
        self.assertTrue(any(line.endswith("stale: cached 8000b000 rw-, table says 80010000 rw-")
                            for line in lines), lines)
        self.assertIn("load: 8000b008, by the cached translation", lines)

    def alone(self):
        """The program where neither nesthv-trace nor nesthv-gdb stands beside it."""
        if not programs.beside(tracers.NAME, self.program):
            self.skipTest("nesthv-trace does not stand beside the program")
        folder = os.path.join(self.folder, "alone")
        os.mkdir(folder)
        os.symlink(self.program, os.path.join(folder, "nesthv"))
        return os.path.join(folder, "nesthv")

    def test_traps_by_log(self):
        """With an ELF file too each trap is shown as saved states give it."""
        if not shutil.which("riscv64-linux-gnu-gcc"):
            self.skipTest("the GNU tools for RISC-V are not installed")
        alone, path = self.alone(), self.example("timers")
        shutil.copy(os.path.join(TOP, "examples", "timers", "timers.s"), self.folder)
        self.assertEqual(self.tool("examples/build", "timers.s").returncode, 0)
        by_log, by_states = self.look(path, "traps"), self.look(path, "traps", NESTHV=alone)
        self.assertIn(b" VS 0000000000000010  kernel+0x10  ", by_log.stdout)
        self.assertEqual(by_log.stdout, by_states.stdout)

    def test_trace_by_log(self):
        """By the log and the stub each line is that which saved states give."""
        alone = self.alone()
        for name, start, end in (("nested3", "0", "end"), ("kernel", "300", "532"), ("timers", "680", "860"),
                                 ("hypervisor", "4400", "4500"), ("device", "1100", "end")):
            with self.subTest(name):
                path = os.path.join(TOP, "examples", name, f"{name}.toml")
                by_log = self.look(path, "trace", start, end)
                self.check_plain(by_log, 0)
                by_states = self.look(path, "trace", start, end, NESTHV=alone)
                self.assertEqual(by_log.stdout, by_states.stdout)

    def test_diff(self):
        one = self.example("hypervisor")
        with open(one, "rb") as file:
            self.put("two.toml", file.read().replace(b"spaces = 2", b"spaces = 1"))
        lines = self.lines(one, "diff", "two.toml")
        self.assertEqual(lines[0], "the same at step 7859, and different at 7860, which is made by")
        self.assertIn("  a0 42 | 43", lines)

    def test_long_run(self):
        """A search makes a few times the steps of the run, and keeps states where they are far apart."""
        made = []

        class Counted(guest_runs.Runs):
            def call(self, command, keys, steps):
                made.append(steps)
                return super().call(command, keys, steps)
        self.put("loop.bin", LOOP)
        path = self.configure(front=f"format = 2\nturns = [[0, {10**7}]]\n", image='"loop.bin"')
        cache = state_cache.Cache(os.path.join(self.folder, "cache"), 10**8, "key")
        runs = Counted(self.program, guest_runs.Guest(self.program, path, 0), cache)
        self.addCleanup(runs.close)
        runs.at(10**7)
        found = searches.first_step(lambda step: runs.at(step).numbers["clock"] >= 7654321, 0, 10**7)
        self.assertEqual(found, 7654321)
        self.assertIsNone(searches.Traps(runs, ("stvec", "vstvec"), lambda low, high: None).last(10**7))
        self.assertLess(sum(made), 5 * 10**7)
        self.assertLess(len(cache.steps()), 50)

    def test_inputs(self):
        with open(os.path.join(TOP, "examples", "echo", "echo.toml"), encoding="utf-8") as file:
            self.put("echo.toml", file.read())
        self.example("echo")
        state = json.loads(self.look("echo.toml", "at", "end", "--json").stdout)
        with open(os.path.join(TOP, "examples", "echo", "report"), "rb") as file:
            self.assertIn(state["console"].encode("latin-1"), file.read())


class FaultTest(LookTest):
    """Hypervisors that are examples/timers with a fault. LINES has the instruction of each that is made one
    which does nothing."""

    LINES = {1: 0x0403E393, 2: 0x60629073, 3: 0x60329073, 4: 0x1042B073, 5: 0x24029073, 6: 0x6452B073}

    def setUp(self):
        super().setUp()
        self.program = program_with_save()
        if not self.program:
            self.skipTest("there is not a program with the command `save`")

    def faulty(self, fault):
        """The configuration of the guest with this fault."""
        folder = os.path.join(TOP, "examples", "timers")
        with open(os.path.join(folder, "timers.bin"), "rb") as file:
            image = file.read()
        word = struct.pack("<I", self.LINES[fault])
        self.assertEqual(image.count(word), 1)
        self.put("timers.bin", image.replace(word, struct.pack("<I", 0x13)))
        with open(os.path.join(folder, "timers.toml"), "rb") as file:
            return self.put("timers.toml", file.read())

    def test_leaf_without_a(self):
        lines = self.lines(self.faulty(1), "last-trap")
        self.assertTrue(any(line.endswith("not usable: A clear") for line in lines), lines)
        self.assertIn("the same from step 55 on", lines[-1])

    def test_no_hcounteren(self):
        lines = self.lines(self.faulty(2), "last-trap")
        self.assertIn("  hcounteren.TM is clear", lines)

    def test_no_hideleg(self):
        lines = self.lines(self.faulty(3), "at", "end")
        self.assertIn("waiting in VS", lines[0])
        self.assertTrue(lines[4].endswith("in its sie: hideleg does not have it"), lines)

    def test_enable_that_stays_set(self):
        lines = self.lines(self.faulty(4), "last-trap")
        self.assertEqual(lines[1], "supervisor timer interrupt (5) to HS")
        self.assertTrue(lines[3].startswith("  sie.STIE is set, since 733 HS "), lines)

    def test_lost_register(self):
        lines = self.lines(self.faulty(5), "entered", "0", "680")
        self.assertTrue(lines[-1].endswith("pc 2c -> 30  vsscratch 42 -> 62"), lines)

    def test_interrupt_that_is_not_cleared(self):
        path = self.faulty(6)
        lines = self.lines(path, "traps", "9000", "9200")
        self.assertTrue(any(line.endswith("supervisor timer interrupt (5) to VS") for line in lines), lines)
        step = next(line.split()[0] for line in lines if line.endswith("to VS"))
        lines = self.lines(path, "last-trap", "--step", str(int(step) + 1))
        self.assertTrue(lines[2].startswith("  hvip.VSTIP is set, since 814 HS "), lines)
