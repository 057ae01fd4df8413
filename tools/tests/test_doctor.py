"""Tests of `look CONFIG doctor`: what it finds of hypervisors with one fault each, and of those without one."""
import io
import json
import os
import resource
import shutil
import struct
import unittest

from helper import TOP
from test_look import LookTest, program_with_save
from nesthv_tools import (
    event_logs, findings, kept_registers, logged_traps, programs, registers_at, saves, tracers, trap_groups)
from nesthv_tools.findings import Finding, Rank

GUESTS = os.path.join(TOP, "tools", "tests", "guests")
TIMERS = os.path.join(TOP, "examples", "timers")
NOTHING = 0x13  # an instruction that does nothing
SECONDS = 20  # of the processor, for one of these guests
# The fault; the folder and name of the hypervisor; its instruction, and the one in its place; which finding is the
# first, whether it is only suspected, and what its lines say.
FAULTS = [
    ("no HFENCE.GVMA after a page moved", GUESTS, "faults", 0x62028073, NOTHING, Rank.STALE, False,
     ["VS uses a stale translation of guest physical page 8000 (VMID 1, root 80004000)",
      "frame 80028000 rw-u; the tables now give 80029000 rw-u",
      "the store to the entry at 80009040 by 299 HS 00000000800001ec", "no fence came since then",
      "the report changes without it"]),
    ("htval not shifted", GUESTS, "faults", 0x00A65313, 0x00C65313, Rank.STUCK, False,
     ["VS does not go on: a store/AMO guest-page fault comes again and again",
      "the handler did not write the entry at 80009040, by which guest physical 8000 is found",
      "it wrote the entry at 80009010, of guest physical 2000, which is htval as it stands",
      "it seems that it is not shifted back"]),
    ("no hideleg", GUESTS, "faults", 0x60329073, NOTHING, Rank.STUCK, False,
     ["the guest waits for good in VS", "hideleg does not have it"]),
    ("a3 lost", GUESTS, "faults", 0x06813683, NOTHING, Rank.LOST, False,
     ["VMID 1 finds a3 changed over an exit that is not a call", "a3 41 -> 2000a0d7"]),
    ("no hcounteren", GUESTS, "faults", 0x60629073, NOTHING, Rank.GAVE_UP, False,
     ["the guest stopped after a virtual instruction, and did not return from it", "hcounteren.TM is clear"]),
    ("a leaf without A", TIMERS, "timers", 0x0403E393, NOTHING, Rank.STUCK, False,
     ["VS does not go on: a store/AMO guest-page fault comes again and again", "(VRW-U--D): A clear",
      "the handler wrote the entry at 80009008 at step 107, and it still refuses the access"]),
    ("hcounteren is zero", TIMERS, "timers", 0x60629073, NOTHING, Rank.GAVE_UP, False,
     ["the guest stopped after a virtual instruction, and did not return from it", "hcounteren.TM is clear"]),
    ("hideleg is zero", TIMERS, "timers", 0x60329073, NOTHING, Rank.STUCK, False,
     ["the guest waits for good in VS", "hideleg does not have it"]),
    ("STIE stays set", TIMERS, "timers", 0x1042B073, NOTHING, Rank.STUCK, False,
     ["VS does not go on: a supervisor timer interrupt comes again and again", "sie.STIE is set, since 733 HS",
      "the handler neither clears sie.STIE nor sets another time"]),
    ("a register that is lost at the switch", TIMERS, "timers", 0x24029073, NOTHING, Rank.LOST, False,
     ["VMID 1 finds vsscratch changed over a call", "vsscratch 42 -> 62",
      "vsscratch was 62 where VMID 2 was left last"]),
    ("hvip is not cleared", TIMERS, "timers", 0x6452B073, NOTHING, Rank.REPEATED, True,
     ["VS takes its timer's interrupt again and again, since hvip.VSTIP stays set", "hvip was written last before by 814 HS"])]


def spent():
    """The processor's seconds that programs of this process have taken."""
    used = resource.getrusage(resource.RUSAGE_CHILDREN)
    return used.ru_utime + used.ru_stime


class DoctorTest(LookTest):
    """The tool, by a program beside which nesthv-trace stands."""

    def setUp(self):
        super().setUp()
        self.program = program_with_save()
        if not self.program or not programs.beside(tracers.NAME, self.program):
            self.skipTest("there is not a program with nesthv-trace beside it")

    def guest(self, folder, name, word=None, other=None):
        """The configuration of a copy of a guest, in which one instruction is another one."""
        with open(os.path.join(folder, f"{name}.bin"), "rb") as file:
            image = file.read()
        if word is not None:
            self.assertEqual(image.count(struct.pack("<I", word)), 1)
            image = image.replace(struct.pack("<I", word), struct.pack("<I", other))
        self.put(f"{name}.bin", image)
        with open(os.path.join(folder, f"{name}.toml"), "rb") as file:
            return self.put(f"{name}.toml", file.read())

    def test_faults(self):
        for fault, folder, name, word, other, rank, is_suspected, said in FAULTS:
            with self.subTest(fault):
                path, before = self.guest(folder, name, word, other), spent()
                ran = self.look(path, "doctor", "--json")
                self.check_plain(ran, 1)
                self.assertLess(spent() - before, SECONDS)
                found = json.loads(ran.stdout)["found"]
                first = found[0]
                self.assertEqual((first["rank"], first["suspected"]), (rank.name.lower(), is_suspected), found)
                text = "\n".join([first["words"], *first["shown_by"]])
                for words in said:
                    self.assertIn(words, text)

    def test_what_is_right(self):
        """Nothing is found of hypervisors and kernels without a fault."""
        for folder, name in ((GUESTS, "faults"), (TIMERS, "timers"),
                             *((os.path.join(TOP, "examples", name), name) for name in
                               ("nested4", "nested5", "hypervisor_bare", "kernel", "echo", "device_emulated", "c"))):
            with self.subTest(name):
                lines = self.lines(os.path.join(folder, f"{name}.toml"), "doctor")
                self.assertTrue(lines[-1].startswith("nothing is found: looked at "), lines)
                self.assertTrue(all(line.startswith("permitted: ") for line in lines[:-1]), lines)

    def test_image(self):
        """The image of this folder is that of its source."""
        if not shutil.which("riscv64-linux-gnu-gcc"):
            self.skipTest("the GNU tools for RISC-V are not installed")
        for name in ("faults.s", "faults.bin"):
            shutil.copy(os.path.join(GUESTS, name), self.folder)
        ran = self.tool("examples/build", "faults.s")
        self.assertEqual(ran.returncode, 0, ran.lines)
        with open(os.path.join(GUESTS, "faults.bin"), "rb") as file, \
                open(os.path.join(self.folder, "faults.bin"), "rb") as built:
            self.assertEqual(file.read(), built.read())

    def test_lines(self):
        """What is printed: each with a number, what shows it, and a command that shows more, which there is."""
        lines = self.lines(self.guest(*FAULTS[1][1:5]), "doctor", status=1)
        self.assertTrue(lines[0].startswith("1. VS does not go on: "), lines)
        self.assertEqual(lines[-2], "     more: last-trap")
        self.assertTrue(lines[-1].startswith("looked at 10,000 steps, 109 traps, 109 entries into V = 1, "), lines)

    def test_kernel_that_hangs(self):
        """An exception of HS that its own handler takes; and a loop, which is only suspected."""
        self.put("hang.bin", struct.pack("<2I", 0x100002B7, 0x00628023))  # lui t0, 0x10000; sb t1, 0(t0)
        lines = self.lines(self.configure("hang.toml", image='"hang.bin"'), "doctor", status=1)
        self.assertEqual(lines[0], "1. HS does not go on: an instruction access fault comes again and again")
        self.assertIn("     998 times from step 2 to the end, and HS executed no instruction in between", lines)
        self.assertTrue(any(line.startswith("     the trap before these: 1 HS 0000000080000004  00628023")
                            for line in lines), lines)
        self.check_said_in(lines, "10000000 is where many machines have a UART: here call 1 puts a byte")
        self.check_said_in(lines, "HS came to pc 0 at step 1 by a store/AMO access fault to HS: stvec is 0")
        self.put("loop.bin", struct.pack("<2I", 0x00128293, 0xFFDFF06F))  # addi t0, t0, 1; j back
        path = self.configure("loop.toml", front="format = 2\nturns = [[0, 20000]]\n", image='"loop.bin"')
        lines = self.lines(path, "doctor", status=1)
        self.assertEqual(lines[0], "1. suspected: the last 10,000 steps are made of 2 instructions, without a trap or "
                         "a byte: it may loop")

    def check_said_in(self, lines, words):
        self.assertTrue(any(words in line for line in lines), lines)

    def test_marked_register(self):
        """`entered` marks what an exit that is not a call should have left."""
        path = self.guest(GUESTS, "faults", 0x06813683, NOTHING)
        lines = self.lines(path, "entered", "0", "240")
        self.assertTrue(lines[1].endswith("left at 55 by store/AMO guest-page fault  !a3 41 -> 2000a0d7"), lines)
        self.assertTrue(lines[2].endswith("left at 149 by ECALL from VS  pc 1c -> 20  a0 41 -> 0"), lines)
        value = json.loads(self.look(path, "entered", "0", "240", "--json").stdout.splitlines()[1])
        self.assertEqual(value["changes"], [{"name": "a3", "values": [0x41, 0x2000A0D7], "lost": True}])


class RefusedTest(LookTest):
    def test_without_log(self):
        """Without nesthv-trace beside the program there is nothing to go by."""
        alone = os.path.join(self.folder, "alone")
        os.mkdir(alone)
        os.symlink(self.program, os.path.join(alone, "nesthv"))
        ran = self.look(self.trapping(), "doctor", NESTHV=os.path.join(alone, "nesthv"))
        self.check_plain(ran, 2)
        self.check_said(ran, "doctor goes by the log of nesthv-trace, which does not stand beside ")


class OrderTest(unittest.TestCase):
    def test_worst_first(self):
        found = [Finding(Rank.STUCK, 9, "a", [], "", True), Finding(Rank.STALE, 1, "b", [], ""),
                 Finding(Rank.LOST, 5, "c", [], ""), Finding(Rank.LOST, 3, "d", [], "")]
        self.assertEqual([each.words for each in findings.worst_first(found)], ["d", "c", "b", "a"])


def events_of(text):
    """What there is in a log of these lines."""
    return trap_groups.Events(event_logs.Log(io.BytesIO(text.encode()), "the log"))


def trap(step, mode="VS", pc=0x10, level="HS", cause="exception 23", rest=" gpa 1000 gva 1 htinst 0"):
    """The line of a trap, with those of the worlds that it leaves."""
    line = f"trap {step} {mode} {pc:016x} to {level} {cause} tval 1000{rest if level == 'HS' else ''}\n"
    left = f"leave {step} {mode} {pc:016x} hgatp 8000100000080004 vsatp 0 {cause}\n"
    return line + left * (mode[0] == "V" and level == "HS")


def entry(step, pc=0x10):
    return f"enter {step} VS {pc:016x} hgatp 8000100000080004 vsatp 0\n"


class GroupTest(unittest.TestCase):
    def test_groups(self):
        """Traps that are the same, with no instruction in between: how many, and from where to where."""
        again = "".join(entry(step) + trap(step + 1) for step in (10, 30, 50))
        other = "".join(entry(step) + trap(step + 1) for step in (70, 90))
        calls = "".join(entry(step) + trap(step + 1, cause="exception 10") for step in (10, 30, 50))
        moved = "".join(entry(step) + trap(step + 1, pc=step) for step in (110, 130, 150))
        late = "".join(entry(step) + trap(step + 3) for step in (10, 30, 50))
        fetch = "".join(trap(step, mode="HS", pc=0, cause="exception 1", rest=" gpa - gva 0 htinst 0")
                        for step in (3, 4, 5, 6))
        below = "".join(trap(step, mode="U", cause="exception 13") for step in (3, 40, 80))
        for text, expected in ((again, [(11, 51, 3, 2)]), (other, []), (calls, []), (moved, []), (late, []),
                               (fetch, [(3, 6, 4, 3)]), (below, [(3, 80, 3, 0)]),
                               (again + moved, [(11, 51, 3, 2)])):
            with self.subTest(text):
                found = events_of(text).groups.values()
                self.assertEqual([(each.first, each.last, each.count, each.retries) for each in found], expected)

    def test_ticks(self):
        """The timer's interrupts of VS, by the entry before."""
        tick = trap(12, level="VS", cause="interrupt 5") + trap(14, level="VS", cause="interrupt 5")
        self.assertEqual(events_of(entry(10) + tick + entry(20) + trap(22, level="VS")).ticks, {11: 2})


def seen(**numbers):
    """A state of VS with these registers, and others that are 0."""
    return registers_at.Seen({**dict.fromkeys([*saves.NAMES, "steps"], 0), "mode": 2, "pc": 0x100, "vstvec": 0x800,
                              **numbers})


class LostTest(unittest.TestCase):
    def test_lost(self):
        """What a guest's guest finds changed over an exit by a cause, and which of that is lost."""
        trap = {"vsepc": 0x100, "pc": 0x800, "vscause": 13, "vstval": 5, "vsstatus": 0x100}
        for cause, changes, lost in (
                (23, {}, []), (23, {"x13": 5}, ["a3"]), (10, {"x13": 5, "pc": 0x104}, []),
                (23, {"x13": 5, "pc": 0x104}, []),  # the hypervisor has made a load to a3
                (22, {"x10": 5, "pc": 0x104, "vsscratch": 7}, ["vsscratch"]),
                (1 << 63 | 5, {"hvip": 0x40}, []), (1 << 63 | 5, {"x5": 1, "x6": 2, "hvip": 0x40}, ["t0", "t1"]),
                (23, {"hie": 0x40, "hideleg": 0x40, "htimedelta": 5}, []), (23, trap, []),
                (23, {**trap, "x5": 1}, ["t0"]), (23, {"vsepc": 0x104}, ["vsepc"]), (23, {"pc": 0x200}, ["pc"]),
                (23, {"mode": 3}, ["mode"])):
            with self.subTest((cause, changes)):
                left = kept_registers.Left(seen(), {"cause": cause})
                found = kept_registers.lost(None, kept_registers.Entry(seen(**changes), left, {}))
                self.assertEqual([each.name for each in found], lost)
        self.assertEqual(kept_registers.lost(None, kept_registers.Entry(seen(x5=1), None, {})), [])

    def test_step(self):
        """What the line of a step has."""
        log = event_logs.Log(io.BytesIO(b"step 5 VS 0000000000000010 00c53583 a1 7 read 80000018 8 7\n"), "a log")
        line, = log
        self.assertEqual(event_logs.step_of(line),
                         (0x00C53583, [("a1", 7)], event_logs.Access(0x80000018, 8, 7), None))
        self.assertEqual(logged_traps.word_of(line), 0x00C53583)
