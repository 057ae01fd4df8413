"""Tests of single steps and of arrivals at handlers by the stub nesthv-gdb, beside what the program saves."""
import os
import unittest
from unittest import mock

from helper import PROGRAM, TOP, ToolTest
from nesthv_tools import (
    arrivals, forecasts, foretold_steps, guest_runs, programs, reports, saves, searches, state_cache, state_changes,
    stubs)
from saved_files import form

EXAMPLES = os.path.join(TOP, "examples")
# Examples with both stages of translation, calls, traps and fences; and the device page.
NESTED, DEVICE = "nested5/nested5.toml", "device/device.toml"


class RamTest(unittest.TestCase):
    def test_changed(self):
        ram = saves.Saved(form(ram=bytes(range(256)) * 8192)).ram
        other = ram.changed(0x80001FF8, b"12345678").changed(0x80002000, b"9")
        self.assertEqual(other[0x1FF0:0x2004], ram[0x1FF0:0x1FF8] + b"123456789" + ram[0x2001:0x2004])
        self.assertEqual(other[:], ram[:0x1FF8] + b"123456789" + ram[0x2001:])
        self.assertEqual(list(state_changes.words_that_differ(ram, other)), [0x80001FF8, 0x80002000])
        self.assertTrue(ram.is_same(other.changed(0x80001FF8, ram[0x1FF8:0x2000]).changed(0x80002000, b"\0")))


class ForecastTest(unittest.TestCase):
    def test_modified(self):
        for function, word, double in ((1, 5, 5), (0, 4, 4), (4, 0xFFFFFFFA, 2**64 - 6), (12, 5, 5),
                                       (8, 0xFFFFFFFF, 2**64 - 1), (16, 0xFFFFFFFF, 2**64 - 1), (20, 5, 5),
                                       (24, 5, 5), (28, 0xFFFFFFFF, 2**64 - 1)):
            for width, value in ((4, word), (8, double)):
                made = forecasts.modified(function << 27, width, 2**64 - 1, 5)
                self.assertEqual(made % (1 << 8 * width), value, (function, width))

    def test_access(self):
        state = saves.Saved(form(x5=0x80000010))
        self.assertEqual(forecasts.access_of(state, 0xFE62BC23), (0x80000008, 8, "store"))  # sd t1, -8(t0)
        self.assertEqual(forecasts.access_of(state, 0x0042C303), (0x80000014, 1, "load"))  # lbu t1, 4(t0)
        self.assertEqual(forecasts.access_of(state, 0x1002A32F), (0x80000010, 4, "load"))  # lr.w t1, (t0)
        self.assertEqual(forecasts.access_of(state, 0x1863A32F)[2], "store")  # sc.w
        self.assertIsNone(forecasts.access_of(state, 0x13))


class ToldTest(unittest.TestCase):
    def test_told(self):
        told = reports.told_in(b"guest a waiting steps 5 bytes 2\nA\xff\n")
        self.assertEqual(told, ({"status": 1, "steps": 5}, b"A\xff"))
        self.assertIsNone(reports.told_in(b"usage\n"))


@unittest.skipUnless(programs.beside(stubs.NAME, PROGRAM), "there is no nesthv-gdb beside the program")
class StepsTest(ToolTest):
    def runs(self, example, stub=True):
        path = os.path.join(EXAMPLES, example)
        guest = guest_runs.Guest(PROGRAM, path, 0)
        made = guest_runs.Runs(PROGRAM, guest, state_cache.Cache(self.folder, 0, "key"))
        self.addCleanup(made.close)
        if not stub:
            made.stub = None
        return made

    def check(self, example, start, end, most=1 << 30):
        """Compares the states with those that the program saves, and how many runs that takes."""
        runs = self.runs(example)
        made = list(runs.singles(start, end))
        calls, other = runs.calls, self.runs(example, stub=False)
        for state in made:
            own = other.at(start + made.index(state))
            self.assertTrue(foretold_steps.is_same(state, own), state.numbers["steps"])
        self.assertEqual(len(made), end - start + 1)
        self.assertLess(calls, most)

    def test_states(self):
        self.check(NESTED, 20, 80, most=30)
        self.check(DEVICE, 0, 30)

    def test_wrong_forecast(self):
        """One that has a wrong register, number or RAM is not shown."""
        own = forecasts.forecast

        def wrong(before, numbers):
            state = own(before, numbers)
            if state and state.numbers["steps"] == 31:
                state = state.changed({"timer": 7})
            if state and state.numbers["steps"] == 37:
                state.ram = state.ram.changed(0x80100000, b"wrong")
            return state
        with mock.patch.object(forecasts, "forecast", wrong):
            self.check(NESTED, 28, 42)
        with mock.patch.object(forecasts, "forecast", lambda before, numbers: before.changed({"steps": 1})):
            self.check(NESTED, 28, 36)

    def test_stub_that_ends(self):
        runs = self.runs(NESTED)
        for stub in ("/bin/true", self.put("not-a-program", b"\0")):
            runs.stub = stub
            self.assertEqual([state.numbers["steps"] for state in runs.singles(30, 33)], [30, 31, 32, 33])
            self.assertIsNone(arrivals.last_arrival(runs, 60))

    def test_last_trap(self):
        runs, other = self.runs(NESTED), self.runs(NESTED, stub=False)
        end = runs.at(runs.last).numbers["steps"]
        found = [searches.Traps(each, ("stvec", "vstvec"), lambda low, high: None).last(end)
                 for each in (runs, other)]
        self.assertEqual(found[0], found[1])
        self.assertEqual(arrivals.last_arrival(runs, end), found[0])
        self.assertLess(runs.calls, other.calls)


if __name__ == "__main__":
    unittest.main()
