"""Tests of `look CONFIG fences`."""
import json
import os
import struct
from unittest import mock

from helper import TOP
from test_look import ExampleTest
from nesthv_tools import fences, guest_runs, programs, state_cache, stubs


class FencesTest(ExampleTest):
    """The tool by the program alone, or beside one that stands for nesthv-trace."""

    def setUp(self):
        super().setUp()
        self.program = self.linked("alone")

    def linked(self, name):
        """The program, in a folder of this name in which nesthv-gdb alone stands beside it, if there is one."""
        folder = os.path.join(self.folder, name)
        os.mkdir(folder)
        stub = programs.beside(stubs.NAME, self.program)
        for path, link in ((self.program, "nesthv"), (stub, "nesthv-gdb")):
            if path:
                os.symlink(os.path.realpath(path), os.path.join(folder, link))
        return os.path.join(folder, "nesthv")

    def test_fences(self):
        lines = self.lines(self.example("nested3"), "fences", status=1)
        self.assertIn("1 of 5 drops changes the report, up to the end", lines)
        self.assertTrue(any("the entry at 80009008 was changed by 45 HS" in line for line in lines), lines)
        self.assertEqual(self.lines("nested3.toml", "fences", "60", "end")[0],
                         "0 of 3 drops change the report, up to the end")
        self.assertEqual(self.lines("nested3.toml", "fences", "--most", "1")[0],
                         "0 of 1 drop changes the report, up to step 51: --most N looks at more")

    def with_log(self, text, kinds):
        """Has the program stand beside one that tells these lines, if these kinds are asked for, and refuses all
        others, as nesthv-trace refuses a kind that it does not know."""
        self.program = self.linked("bin")
        folder = os.path.dirname(self.program)
        self.put("bin/lines", text)
        known = "|".join(kinds)
        self.put("bin/nesthv-trace", f"#!/bin/sh\ncase $3 in\n{known}) [ \"$4\" = \"$5\" ] || cat {folder}/lines;;\n"
                 "*) echo 'nesthv-trace: usage: CONFIG GUEST KIND[,KIND..] [FROM [TO]]' >&2; exit 1;;\nesac\n")
        os.chmod(os.path.join(folder, "nesthv-trace"), 0o755)

    # What the log tells of nested3: entries, and that page 1000 is used while it is stale.
    WORLDS = "".join(f"enter {step} VS {pc:016x} hgatp 8000100000080004 vsatp 0\n" if cause is None else
                     f"leave {step} VS {pc:016x} hgatp 8000100000080004 vsatp 0 exception {cause}\n"
                     for step, pc, cause in ((11, 0, None), (14, 8, 23), (32, 8, None), (35, 16, 10), (50, 20, None)))
    STALE = "stale {} VS 0000000000000018 second hgatp 8000100000080004 atp - page 1000 frame 8000b000 rights rw-u " \
        "level 0 now frame 80010000 rights rw-u level 0 since {}\n"

    def test_fences_by_stale(self):
        """Translations are dropped where the log tells that one is stale and used: at the entry before, or where
        it was cached later."""
        self.example("nested3")
        self.with_log(self.WORLDS + self.STALE.format(52, 33), ["stale", "worlds,stale"])
        for words, at in (([], 51), (["--first"], 51)):
            lines = self.lines("nested3.toml", "fences", *words, status=1)
            self.assertEqual(lines[0], f"without the translations that are cached at step {at} the report differs:")
            end = "step 52" if words else "the end"
            self.assertIn(f"1 of 1 drop changes the report, up to {end}", lines)
        self.put("bin/lines", self.WORLDS + self.STALE.format(52, 51))
        lines = self.lines("nested3.toml", "fences", status=1)
        self.assertEqual(lines[0], "without the translations that are cached at step 52 the report differs:")
        self.assertEqual(self.lines("nested3.toml", "fences", "53", "end")[0],
                         "0 of 0 drops change the report, up to the end")
        self.put("bin/lines", self.WORLDS)
        self.assertEqual(self.lines("nested3.toml", "fences"), [
            "0 of 0 drops change the report, up to the end",
            "no step uses a cached translation that the tables do not give, so there is nothing to drop"])

    def test_fences_without_stale(self):
        """A program that refuses the kind has all translations dropped that there are."""
        self.example("nested3")
        traps = "trap 14 VS 0000000000000008 to HS exception 23 tval 1008 gpa 1008 gva 1 htinst 0\n"
        worlds = self.WORLDS.splitlines(keepends=True)
        self.with_log("".join([worlds[0], traps, *worlds[1:3],
                               "trap 35 VS 0000000000000010 to HS exception 10 tval 0 gpa - gva 0 htinst 0\n",
                               *worlds[3:]]), ["traps,worlds"])
        lines = self.lines("nested3.toml", "fences", status=1)
        self.assertIn("1 of 2 drops changes the report, up to the end", lines)

    def test_evenly(self):
        for count, most, expected in ((0, 4, []), (3, 4, [0, 1, 2]), (4, 4, [0, 1, 2, 3]), (5, 4, [0, 2, 4]),
                                      (9, 4, [0, 4, 8]), (16, 4, [0, 4, 8, 12])):
            self.assertEqual([step for step, _ in fences.evenly(((each, False) for each in range(count)), most)],
                             expected)

    def without_fence(self):
        """A copy of nested3 without an HFENCE.GVMA."""
        with open(os.path.join(TOP, "examples", "nested3", "nested3.bin"), "rb") as file:
            image = file.read()
        path = self.example("nested3")
        self.put("nested3.bin", image.replace(struct.pack("<I", 0x62628073), struct.pack("<I", 0x13)))
        return path

    @mock.patch.object(fences, "SWEPT", 20)
    def test_all_drops_in_one_run(self):
        """The report stays where no fence is left out, and else one of the drops alone changes it too."""
        for make, is_right in ((lambda: self.example("timers"), True), (self.without_fence, False)):
            guest = guest_runs.Guest(self.program, make(), 0)
            runs = guest_runs.Runs(self.program, guest, state_cache.Cache(self.folder, 0, "key"))
            self.addCleanup(runs.close)
            plain = runs.call("run", guest.keys, guest.steps).read()
            end = runs.at(runs.last).numbers["steps"]
            sweep = fences.Sweep(runs, runs.first, end, lambda low, high: None)
            self.assertEqual(sweep.report() == plain, is_right)
            found = [drop.step for drop in sweep.drops() if drop.report() != plain]
            self.assertEqual(not found, is_right)

    def test_fence_that_is_left_out(self):
        self.without_fence()
        lines = self.lines("nested3.toml", "fences", status=1)
        self.assertIn("3 of 5 drops change the report, up to the end; those at step 51, 67, 83", lines)

    def test_fences_of_correct_hypervisors(self):
        for name, drops in (("nested2", 2), ("timers", 15)):
            self.assertEqual(self.lines(self.example(name), "fences")[0],
                             f"0 of {drops} drops change the report, up to the end")

    def test_first_stage_fences(self):
        """A kernel stores to an entry that it has used, and loads by it again, without a fence and with one."""
        words = [0x00000417, 0x40043283, 0x18029073, 0x000014B7, 0x000063B7, 0x008383B3, 0x0004C503, 0x00100893, 0x73,
                 0x40843303, 0x0063B423, 0x12048073, 0x0004C503, 0x00100893, 0x73, 0x00800893, 0x73]
        tables = {0x400: 8 << 60 | 0x80004, 0x408: 0x20002C43, 0x4000: 0x20001401, 0x4010: 0x200000CF,
                  0x5000: 0x20001801, 0x6008: 0x20002843, 0xA000: 0x41, 0xB000: 0x42}
        image = bytearray(0xB008)
        for place, value in tables.items():
            struct.pack_into("<Q", image, place, value)
        path = self.configure(front="format = 2\nturns = [[0, 30]]\n", image='"kernel.bin"')
        for name, fence in (("fenced", 0x12048073), ("unfenced", 0x13)):
            words[11] = fence
            self.put("kernel.bin", struct.pack("<17I", *words) + image[68:])
            if json.loads(self.look(path, "at", "0", "--json").stdout)["first_stage"] is None:
                self.skipTest("the program caches nothing of the first stage")
            lines = self.lines(path, "fences", status=int(name == "unfenced"))
            if name == "fenced":
                self.assertTrue(lines[0].startswith("0 of "), lines)
                continue
            self.assertIn("  page 1000 of satp 8000000000080004, with them: cached 8000a000 r---, table says "
                          "8000b000 r---", lines)
            self.assertTrue(any("the entry at 80006008 was changed by 10 HS" in line for line in lines), lines)
