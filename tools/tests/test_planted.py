"""Tests of `look CONFIG doctor` by a hypervisor in which one fault of fifty is planted: what it has to say of each, and
that it says nothing else.

    python3 tools/tests/test_planted.py --write     builds the image anew, and writes what each fault changes of it
    python3 tools/tests/test_planted.py --show      prints what is found of each
"""
import argparse
import os
import resource
import shutil
import struct
import subprocess
import sys
import tempfile

from helper import PROGRAM, TOP, ToolTest
from nesthv_tools import doctor, findings, programs, sessions, stubs, tracers

GUESTS = os.path.join(TOP, "tools", "tests", "guests")
SOURCE, IMAGE, CHANGES, CONFIG = (os.path.join(GUESTS, f"planted{end}") for end in (".S", ".bin", ".txt", ".toml"))
COUNT = 50  # of faults
BUILT = (0, 1, 30, 43)  # that the test builds anew
SECONDS, MEMORY = 5, 200 << 10  # of the processor, and KiB


STALE = ["VS uses a stale translation of guest physical page 8000 (VMID 1, root 80004000)",
         "VS uses a stale translation of guest physical page 8000 (VMID 2, root 8000c000)"]
AGAIN = "VS does not go on: a store/AMO guest-page fault comes again and again"
WAITS = "the guest waits for good in VS"
WHOLE = "a trap that the hypervisor has VMID {} take is not whole: "
GAVE_UP = "the guest stopped after {}, and did not return from it"
VIRTUAL = GAVE_UP.format("a virtual instruction")
NO_FETCH = GAVE_UP.format("an instruction access fault")
# By number: the fault, how each finding begins, in their order, and what their lines have.
FAULTS = {
    0: ("none", [], []),
    1: ("stvec is not set", ["HS does not go on: an instruction access fault", "HS's own handler traps: ",
                             "suspected: no entry into V = 1 since step "],
        ["HS came to pc 0 at step", "by an ECALL from VS to HS: stvec is 0, and nothing has set it"]),
    2: ("hcounteren is 0", [VIRTUAL], ["hcounteren.TM is clear"]),
    3: ("hideleg has a bit of S", [WAITS, "suspected: hideleg has 0 where 20 was written"],
        ["hideleg does not have it", "its bits are 2, 6 and 10, of VS"]),
    4: ("a3 is not restored", [f"VMID {vmid} finds a3 changed over an exit that is not a call" for vmid in (1, 2)], []),
    5: ("s2 is not saved", [f"suspected: VMID {vmid} finds s2 changed over a call" for vmid in (1, 2)], []),
    6: ("SPV is clear at the first SRET", [NO_FETCH, "SRET goes to HS at 0 in place of VS: hstatus.SPV is clear"],
        ["nothing has set it"]),
    7: ("SPP is clear at the first SRET", [VIRTUAL, "VMID 1 was never in VS, and in VU makes an instruction"],
        ["sstatus.SPP was clear at the SRET that entered it first"]),
    8: ("hgatp is not set", [NO_FETCH], ["hgatp is 0, so guest physical addresses are physical ones"]),
    9: ("SIE is set in the handler", ["a supervisor timer interrupt is taken in HS's own handler before it has read sepc",
                                      "HS's own handler traps: ", "suspected: the run goes round: ",
                                      "suspected: no entry into V = 1 since step "], ["sstatus.SIE is set too early"]),
    10: ("no sepc + 4 after a call", ["VMID 1 makes the same call again and again"], ["a7 1,", "sepc + 4"]),
    11: ("sepc + 8 after a call", [GAVE_UP.format("an illegal instruction"), "VMID 1 goes on 8 bytes behind a call"], []),
    12: ("a call of the SBI", ["call 16 is none of the environment's, and is answered with -2, 6 times"],
         ["10 is the SBI's extension base"]),
    13: ("the timer is not set", [WAITS], ["no timer is set"]),
    14: ("VSTIP is not cleared", ["suspected: VS takes its timer's interrupt again and again"],
         ["hvip was written last before by", "csrs hvip, t0"]),
    15: ("STIE is not set", [WAITS], ["sie.STIE is clear"]),
    16: ("STIE is not cleared", ["VS does not go on: a supervisor timer interrupt comes again and again"],
         ["the handler neither clears sie.STIE nor sets another time"]),
    17: ("hvip gets a bit of S", [WAITS, "suspected: hvip has 0 where 20 was written"],
         ["its bits are 2, 6 and 10, of VS"]),
    18: ("sepc + 4 after an interrupt", [f"VMID {vmid} goes on behind an instruction that it has not made"
                                         for vmid in (1, 2)], ["sepc stays as it is"]),
    19: ("the fence has an address", STALE, ["it names page 20000: rs1 has the address, which is to be shifted right by 2",
                                             "the report changes without it"]),
    20: ("the fence names another VMID", STALE, ["HFENCE.GVMA: it names VMID 2"]),
    21: ("no fence of a page that moved", STALE, ["no fence came since then", "frame 80028000", "give 80029000"]),
    22: ("no fence of a weaker leaf", [f"possible: the leaf of guest physical page a000 of VMID {vmid} was made weaker"
                                       for vmid in (1, 2)], ["no fence came since then"]),
    23: ("an endless loop in HS", ["suspected: no entry into V = 1 since step ",
                                   "suspected: the last 10,000 steps are made of 1 instruction"], []),
    24: ("VTW is set", [VIRTUAL], ["hstatus.VTW is set"]),
    25: ("vstvec is not exchanged", ["VMID 1 finds vstvec changed over a call"], ["where VMID 2 was left last"]),
    26: ("vsscratch is not exchanged", ["VMID 1 finds vsscratch changed over a call"], ["vsscratch 41 -> 61"]),
    27: ("vsatp is not exchanged", [GAVE_UP.format("an instruction page fault"),
                                    "VMID 2 is entered first with vsatp of another guest's guest"], []),
    28: ("hie is not exchanged", ["VMID 2 finds hie changed over a call"], ["hie 0 -> 40"]),
    29: ("the other context is not taken", ["suspected: VMID 1 finds vsstatus, vstvec, vsscratch, vsepc"], []),
    30: ("stval in place of htval", [AGAIN], ["the handler has not read htval", "but stval, which has the virtual one"]),
    31: ("htval is not shifted back", [AGAIN], ["htval is the guest physical address shifted right by 2"]),
    32: ("a leaf without A", [AGAIN], ["(VRWXU--D): A clear"]),
    33: ("a leaf without U", [AGAIN], ["(VRWX--AD): U clear"]),
    34: ("sepc + 4 after a page is mapped", [GAVE_UP.format("an instruction page fault"),
                                             "VMID 1 goes on behind an access that was not made: the page is mapped"], []),
    35: ("an emulated load writes another register", [f"VMID {vmid} finds a5 changed over an exit that is not a call"
                                                      for vmid in (1, 2)], []),
    36: ("no sepc + 4 after an emulated load", ["VS does not go on: a load guest-page fault comes again and again",
                                                "VMID 1 makes a load again that was emulated: sepc + 4 is missing"],
         ["if it has emulated it, sepc + 4 is missing"]),
    37: ("vscause is not set", [WHOLE.format(vmid) + "vscause" for vmid in (1, 2)], ["it is 0, and not 13"]),
    38: ("vstval is not set", [WHOLE.format(vmid) + "vstval" for vmid in (1, 2)], ["and the address is 30000"]),
    39: ("vsepc is not set", [GAVE_UP.format("an illegal instruction"), WHOLE.format(1) + "vsepc"],
         ["it is 0, and the instruction is at 120"]),
    40: ("vsstatus is not set", [GAVE_UP.format("an instruction page fault"), WHOLE.format(1) + "vsstatus.SPP"], []),
    41: ("sepc is not vstvec", ["VS does not go on: a load page fault", WHOLE.format(1) + "sepc"], ["and vstvec is"]),
    42: ("EBREAK in HS's handler", [GAVE_UP.format("a store/AMO access fault"),
                                    "suspected: HS's own handler traps: a breakpoint"], ["ebreak  breakpoint (3) to HS"]),
    43: ("two kernels of one VMID", ["possible: VMID 1 is used for two roots, 80004000 and 8000c000"], []),
    44: ("a root at an odd place", ["hgatp has 800020000008000c where 800020000008000d was written"],
         ["a root of hgatp has 16 KiB"]),
    45: ("a MODE that there is not", [NO_FETCH, "hgatp has 8000100000080004 where 700020000008000c was written"],
         ["MODE 7 is none of this machine"]),
    46: ("two kernels of one root", [AGAIN, "suspected: VMID 1 and VMID 2 have the same root"], ["no W"]),
    47: ("a kernel does not set stvec", ["VMID 1 takes a trap, and goes to pc 0: vstvec is 0"], []),
    48: ("no fence in a kernel", ["VS uses a stale translation of page 9000 (ASID 0, root 4000 of VMID 1)",
                                  "VS uses a stale translation of page 9000 (ASID 0, root 4000 of VMID 2)"],
         ["frame a000 rw--; the tables now give b000 rw--"]),
    49: ("a kernel reads mhartid", [GAVE_UP.format("an illegal instruction")],
         ["mhartid is of M-mode, which there is not: there is one hart, of number 0", "hedeleg is 100, without bit 2"]),
    50: ("a kernel makes another call", [WAITS, "call 7 is none of the environment's"], ["no timer is set"])}


def built(number, folder):
    """The image in which the fault of this number is planted, as the GNU tools build it."""
    path = os.path.join(folder, "built.bin")
    subprocess.run([os.path.join(TOP, "examples", "build"), "-o", path, f"-DFAULT={number}", SOURCE], check=True,
                   stdout=subprocess.DEVNULL)
    with open(path, "rb") as file:
        return file.read()


def changes():
    """By the number of a fault, the words that it changes of the image, each with its offset."""
    found = {}
    with open(CHANGES, encoding="ascii") as file:
        for line in file:
            number, offset, word = line.split()
            found.setdefault(int(number), []).append((int(offset, 16), int(word, 16)))
    return found


def planted(number):
    """The image in which the fault of this number is planted."""
    with open(IMAGE, "rb") as file:
        image = bytearray(file.read())
    for offset, word in changes()[number] if number else ():
        image[offset:offset + 4] = struct.pack("<I", word)
    return bytes(image)


def write():
    """Builds the image, and writes what each fault changes of it."""
    with tempfile.TemporaryDirectory() as folder:
        right, lines = built(0, folder), []
        for number in range(1, COUNT + 1):
            wrong = built(number, folder)
            for at in range(0, len(right), 4):
                if right[at:at + 4] != wrong[at:at + 4]:
                    lines.append(f"{number} {at:x} {int.from_bytes(wrong[at:at + 4], 'little'):x}\n")
    with open(IMAGE, "wb") as file:
        file.write(right)
    with open(CHANGES, "w", encoding="ascii") as file:
        file.writelines(lines)


def looked(number, folder, steps=None):
    """What doctor finds of the hypervisor with this fault, and what it says is permitted."""
    with open(os.path.join(folder, "planted.bin"), "wb") as file:
        file.write(planted(number))
    path = shutil.copy(CONFIG, folder)
    options = argparse.Namespace(cache=os.path.join(folder, "cache"), cache_size=0, elf=[], json=False, time=30)
    session = sessions.Session(options, programs.found(PROGRAM), path, 0)
    try:
        found = doctor.Doctor(session)
        found.look()
        return findings.worst_first(found.found), found.notes
    finally:
        session.close()


def show():
    with tempfile.TemporaryDirectory() as folder:
        for number in range(COUNT + 1):
            before = spent()
            found, notes = looked(number, folder)
            print(f"{number}: {spent() - before:.2f} s")
            for each in found:
                print(f"    {each.head()}")
            for each in notes:
                print(f"    permitted: {each}", flush=True)


def spent():
    """The processor's seconds that this process and its programs have taken."""
    used = [resource.getrusage(who) for who in (resource.RUSAGE_SELF, resource.RUSAGE_CHILDREN)]
    return sum(each.ru_utime + each.ru_stime for each in used)


class PlantedTest(ToolTest):
    def test_faults(self):
        if not programs.beside(tracers.NAME, PROGRAM) or not programs.beside(stubs.NAME, PROGRAM):
            self.skipTest("there is not a program with nesthv-trace and nesthv-gdb beside it")
        for number, (fault, heads, said) in FAULTS.items():
            with self.subTest(f"{number}: {fault}"):
                before = spent()
                found, notes = looked(number, self.folder)
                self.assertLess(spent() - before, SECONDS)
                self.assertEqual(len(found), len(heads), [each.head() for each in found])
                for each, head in zip(found, heads):
                    self.assertTrue(each.head().startswith(head), each.head())
                text = "\n".join(line for each in found for line in each.shown_by)
                for words in said:
                    self.assertIn(words, text)
                self.assertEqual(notes, [])
        self.assertLess(resource.getrusage(resource.RUSAGE_SELF).ru_maxrss, MEMORY)

    def test_images(self):
        """The image is that of its source, and the words that are changed are those of some of its faults."""
        if not shutil.which("riscv64-linux-gnu-gcc"):
            self.skipTest("the GNU tools for RISC-V are not installed")
        for number in BUILT:
            with self.subTest(number):
                self.assertEqual(built(number, self.folder), planted(number))


if __name__ == "__main__":
    write() if "--write" in sys.argv else show()
