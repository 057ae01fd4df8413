"""Tests of runs that are followed by their log: registers and RAM at the end are those of the program's own state; what
fences name; and what hardware may use."""
import argparse
import io
import os
import struct
import unittest

from helper import PROGRAM, TOP, ToolTest
from test_look import LookTest
from nesthv_tools import csr_effects, fence_records, followed_runs, programs, saves, sessions, tracers
from nesthv_tools.fence_records import Wanted
from nesthv_tools.followed_runs import Fence, Place

EXAMPLES = os.path.join(TOP, "examples")
NAMES = ("timers", "hypervisor", "hypervisor_bare", "kernel", "echo", "ticks", "nested5", "device_emulated", "sbi")


class FollowedTest(ToolTest):
    def test_states(self):
        """After the whole log, all registers and RAM are as the program saves them."""
        if not programs.beside(tracers.NAME, PROGRAM):
            self.skipTest("there is not a program with nesthv-trace beside it")
        options = argparse.Namespace(cache=os.path.join(self.folder, "cache"), cache_size=0, elf=[], json=False)
        for name in NAMES:
            with self.subTest(name):
                path = os.path.join(EXAMPLES, name, f"{name}.toml")
                session = sessions.Session(options, programs.found(PROGRAM), path, 0)
                self.addCleanup(session.close)
                runs, end = session.runs, session.end()
                run = followed_runs.Run(runs.start)
                followed_runs.follow(runs, run, runs.first, end, lambda step: None)
                last = runs.at(end)
                self.assertEqual(run.step, end)
                self.assertEqual(run.numbers, {each: last.numbers[each] for each in saves.REGISTERS})
                for at, each in enumerate(followed_runs.ABI):
                    self.assertEqual(int(run.registers[each], 16), last.numbers[f"x{at}"] if at else 0)
                self.assertEqual(bytes(run.ram), last.ram[:])


class EffectTest(unittest.TestCase):
    """The Privileged Architecture 20211203, by section."""

    def setUp(self):
        self.numbers = {name: always for name, (_, always) in saves.REGISTERS.items()}

    def test_writes(self):
        """3.1.6, 8.2: bits that a register has not are not held; vsie, vsip and hip are other registers' bits."""
        self.numbers.update(hideleg=0x40, hie=0x404, hvip=0x40)
        for name, value, made in (("hideleg", 0x222, ("hideleg", 0)), ("stvec", 0x80000002, ("stvec", 0x80000000)),
                                  ("sepc", 0x80000003, ("sepc", 0x80000000)), ("vsie", 0x222, ("hie", 0x444)),
                                  ("vsip", 2, ("hvip", 0x40)), ("hip", 0x444, ("hvip", 0x44)),
                                  ("satp", 10 << 60, None), ("hgatp", 8 << 60 | 7, ("hgatp", 8 << 60 | 4)),
                                  ("sip", 2, ("sip.SSIP", 1)), ("time", 5, None)):
            with self.subTest((name, value)):
                self.assertEqual(csr_effects.written(self.numbers, name, value), made)

    def test_asked(self):
        """CSRRW, CSRRS with x0, CSRRSI, CSRRC: what they write."""
        for word, source, before, value in ((0x30529073, 5, 9, 5), (0x10402073, 7, 9, None), (0x10016073, 0, 8, 10),
                                            (0x1042B073, 0x20, 0x222, 0x202)):
            with self.subTest(hex(word)):
                self.assertEqual(csr_effects.asked(word, source, before), value)

    def test_trap_and_return(self):
        """8.6.1: SPV, SPVP, SPP, SPIE and SIE of a trap from VS, and what SRET makes of them."""
        self.numbers.update(sstatus=2, hstatus=0)
        self.numbers.update(csr_effects.of_trap(self.numbers, "VS", 0x10, "HS", 23, 0x1000, 0x2004, 1, 0))
        self.assertEqual({name: self.numbers[name] for name in ("sstatus", "hstatus", "sepc", "scause", "stval", "htval")},
                         {"sstatus": 0x120, "hstatus": 0x1C0, "sepc": 0x10, "scause": 23, "stval": 0x1000,
                          "htval": 0x801})
        self.numbers.update(csr_effects.of_sret(self.numbers, "HS"))
        self.assertEqual((self.numbers["sstatus"], self.numbers["hstatus"]), (0x22, 0x140))


class FenceTest(unittest.TestCase):
    def test_why_not(self):
        """Which translations a fence names, and why not others (8.3.2, 8.5.3)."""
        second = Wanted(True, True, 1 << 44, 0, 0x8000)
        first = Wanted(False, True, 1 << 44, 2 << 44, 0x8000)
        large = Wanted(True, True, 1 << 44, 0, 0x8000, level=1)
        shared = Wanted(False, True, 1 << 44, 2 << 44, 0x8000, is_global=True)
        own = Wanted(False, False, 0, 2 << 44, 0x8000)
        for name, mode, identifier, page, hgatp, wanted, why in (
                ("hfence.gvma", "HS", None, None, 0, second, ""), ("hfence.gvma", "HS", 1, 0x8000, 0, second, ""),
                ("hfence.gvma", "HS", 2, None, 0, second, "it names VMID 2"),
                ("hfence.gvma", "HS", 1, 0x20000, 0, second, "it names page 20000: rs1 has the address"),
                ("hfence.gvma", "HS", 1, 0x7000, 0, second, "it names page 7000"),
                ("hfence.gvma", "HS", 1, 0x7000, 0, large, ""), ("hfence.gvma", "HS", 1, 0x7000, 0, first, ""),
                ("hfence.gvma", "HS", None, None, 0, own, "it is for translations of VS"),
                ("hfence.vvma", "HS", 2, 0x8000, 1 << 44, first, ""),
                ("hfence.vvma", "HS", 2, 0x8000, 2 << 44, first, "hgatp then had VMID 2"),
                ("hfence.vvma", "HS", 3, None, 1 << 44, first, "it names ASID 3"),
                ("sfence.vma", "VS", 2, None, 1 << 44, shared, "it names an ASID, and the leaf is a global one"),
                ("sfence.vma", "HS", None, None, 1 << 44, first, "it is for translations of satp"),
                ("sfence.vma", "HS", None, None, 1 << 44, own, ""), ("sfence.vma", "VS", None, None, 1 << 44, second,
                                                                    "it is for the first stage")):
            with self.subTest((name, mode, identifier, page)):
                found = fence_records.why_not(Fence(Place(5, mode, 0), name, identifier, page, hgatp), wanted)
                self.assertTrue(found.startswith(why) and bool(found) == bool(why), found)


class LongTest(LookTest):
    """Runs with more steps than doctor follows."""

    def test_windows(self):
        self.put("loop.bin", struct.pack("<2I", 0x00128293, 0xFFDFF06F))  # addi t0, t0, 1; j back
        path = self.configure("loop.toml", front="format = 2\nturns = [[0, 200000]]\n", image='"loop.bin"')
        lines = self.lines(path, "--time", "1", "doctor", status=1)
        self.assertTrue(lines[0].startswith("1. suspected: the last 10,000 steps are made of 2 instructions"), lines)
        self.assertTrue(lines[-1].startswith("looked at 200,000 steps, 40,000 of them singly, "), lines)

    def test_copy(self):
        """A copy that goes through memory is no loop."""
        # auipc s0, 0x100; nop; auipc s1, 0x40; ld t0, 0(s1); sd t0, 0(s0); addi s0, s0, 8; addi s1, s1, 8; j to the load
        words = (0x00100417, 0x13, 0x00040497, 0x0004B283, 0x00543023, 0x00840413, 0x00848493, 0xFF1FF06F)
        self.put("copy.bin", struct.pack("<8I", *words))
        path = self.configure("copy.toml", front="format = 2\nturns = [[0, 20000]]\n", image='"copy.bin"')
        lines = self.lines(path, "doctor")
        self.assertTrue(lines[-1].startswith("nothing is found: looked at 20,000 steps, "), lines)


class RootTest(unittest.TestCase):
    def test_roots(self):
        """A VMID with two roots, with and without a fence that names all of it in between."""
        from nesthv_tools import event_logs, trap_groups
        one, other = (f"enter {{}} VS 0000000000000000 hgatp 80001000000{root} vsatp 0\n" for root in ("80004", "8000c"))
        fence = "fence 7 HS 0000000080000000 hfence.gvma vmid {} page {} first 0 second 0\n"
        for text, count in ((one.format(5) + other.format(9) + one.format(12), 2), (one.format(5) + one.format(9), 0),
                            (one.format(5) + fence.format(1, "all") + other.format(9), 0),
                            (one.format(5) + fence.format("all", "all") + other.format(9), 0),
                            (one.format(5) + fence.format(2, "all") + other.format(9), 1),
                            (one.format(5) + fence.format(1, "1000") + other.format(9), 1)):
            with self.subTest(text):
                found = trap_groups.Events(event_logs.Log(io.BytesIO(text.encode()), "the log")).roots.found
                self.assertEqual(sum(each[3] for each in found.values()), count)


if __name__ == "__main__":
    unittest.main()
