#!/usr/bin/env python3
"""Tests of the suite: what the standard decides of single cases, the judge, and the runner's files and
options. They take some twelve seconds of a processor, and need dist/nesthv; one needs QEMU too, or
is left out.
"""
# Usage: conformance/tests.py     (from any folder)
import os
import shutil
import struct
import subprocess
import sys
import tempfile
import unittest

FOLDER = os.path.dirname(os.path.abspath(__file__))
sys.dont_write_bytecode = True
sys.path[:0] = [FOLDER, os.path.join(os.path.dirname(FOLDER), "tools")]
from nesthv_tools.csrs import NUMBERS as CSRS

import judge
import known
import machines
import rv64ima
import standard
from machines import Plan

NESTHV = machines.Nesthv(os.path.join(machines.TOP, "dist", "nesthv"))
SATP, TIME = CSRS["satp"], CSRS["time"]
SUPERVISOR = {number for number in CSRS.values() if number >> 8 == 1}
GUEST_SUPERVISOR = {number for number in CSRS.values() if number >> 8 == 2}
HYPERVISOR = {number for number in CSRS.values() if number >> 8 in (6, 0xE)}
ILLEGAL, VIRTUAL, DONE = "2", "22", "done"


def run(*words):
    return subprocess.run([os.path.join(FOLDER, "run"), *words], capture_output=True, text=True)


def read_outcome(number, mode):
    """What a read of a register comes to, by 2.1 and 8.6.1 of the standard; none where others decide."""
    if number == TIME:
        return None
    if number not in SUPERVISOR | GUEST_SUPERVISOR | HYPERVISOR:
        return ILLEGAL
    if mode in ("HS", "VS") and number in SUPERVISOR or mode == "HS":
        return DONE if number != SATP or mode == "HS" else None     # VTVM decides satp in VS
    return ILLEGAL if mode == "U" else VIRTUAL


class Cases(unittest.TestCase):
    def test_each_read_of_a_register_traps_as_the_standard_says(self):
        count = 0
        for mode, first in enumerate(range(0, 16384, 4096)):
            for part in range(first, first + 4096, 2048):
                for line in NESTHV.lines(Plan("registers", 1, part, 2048, 0)):
                    case = judge.parsed(line)
                    words = case.head.split()
                    self.assertEqual(words[1], ("HS", "U", "VS", "VU")[mode])
                    expected = read_outcome(int(words[3], 16), words[1])
                    if expected is not None:
                        self.assertEqual(judge.outcome_of(case.values), expected, line)
                        count += 1
        self.assertEqual(count, 16384 - 4 - 1)

    def test_codes_of_accesses_are_those_of_their_kind(self):
        fetch, load, store = {"1", "12", "20"}, {"4", "5", "13", "21"}, {"6", "7", "15", "23"}
        allowed = {"fetch": fetch, "load": load, "lr": load, "hlv": load, "hlvx": load, "store": store,
                   "sc": store, "amo": store, "hsv": store}
        for line in NESTHV.lines(Plan("accesses", 1, 0, 1024, 0)):
            case = judge.parsed(line)
            kind = judge.class_of(case.head.split()[0])
            self.assertIn(judge.outcome_of(case.values), allowed[kind] | {DONE}, line)

    def test_cases_are_as_the_standard_says(self):
        self.assertEqual(set(standard.DECIDED), set(machines.FAMILIES))
        for plan in [plan for family in machines.FAMILIES for plan in plans_of(family)]:
            for line in NESTHV.lines(plan):
                case = judge.parsed(line)
                for name, value in standard.DECIDED[plan.family](case.head.split()).items():
                    found = case.values[name] if name in case.values else case.values[f"~{name}"]
                    self.assertEqual(int(found, 16), value, f"{name} of {line}")

    def test_a_case_is_the_same_behind_any_other(self):
        for family in machines.FAMILIES:
            whole = NESTHV.lines(Plan(family, 7, 900, 96, 0))
            self.assertEqual(whole[64:], NESTHV.lines(Plan(family, 7, 964, 32, 0)))
            self.assertEqual(whole[95:], NESTHV.lines(Plan(family, 7, 995, 1, 0)))

    def test_sums_follow_blocks(self):
        sums = NESTHV.lines(Plan("accesses", 1, 0, 96, 32))
        self.assertEqual([line.split()[:2] for line in sums], [["0", "31"], ["32", "63"], ["64", "95"]])
        self.assertEqual(sums[1:], NESTHV.lines(Plan("accesses", 1, 32, 64, 32)))


class Modes(unittest.TestCase):
    """Cases with Sv39 and Sv39x4 alone, and with Sv48 and Sv48x4 too."""

    def test_cases_have_the_modes_that_are_asked_for(self):
        for modes, names in (((8,), {"bare", "sv39", "flat", "sv39x4"}),
                             ((8, 9), {"bare", "sv39", "sv48", "flat", "sv39x4", "sv48x4"})):
            lines = NESTHV.lines(Plan("accesses", 1, 0, 512, 0, modes))
            self.assertEqual({word for line in lines for word in stages(line)}, names)
        for modes, tops in (((8,), {8}), ((8, 9), {8, 9})):
            lines = [line for number in (0x280, 0x680) for line in register_lines(number, modes)]
            written = {value >> 60 for value in map(read_back, lines)}
            self.assertEqual(written - {0}, tops)

    def test_a_machine_without_sv48_has_a_report(self):
        for family in machines.FAMILIES:
            names = [family, f"{family}-sv48"] if family in machines.BY_MODES else [family]
            for name in names:
                self.assertTrue(os.path.isfile(os.path.join(FOLDER, "reports", f"{name}.report")), name)

    def test_upper_bits_of_an_address_are_those_of_its_mode(self):
        """Where they are not copies of bit 38 (4.4.1), or of bit 47 (4.5.1), it is a page fault."""
        faults, count = {"12", "13", "15"}, 0
        for line in NESTHV.lines(Plan("accesses", 1, 0, 1024, 0, (8, 9))):
            case = judge.parsed(line)
            words = case.head.split()
            bits = {"sv39": 39, "sv48": 48}.get(stages(line)[0])
            if bits is None or case.choice == "misaligned":
                continue
            address = int(words[3], 16)
            if address >> bits - 1 not in (0, (1 << 65 - bits) - 1):
                self.assertIn(judge.outcome_of(case.values), faults, line)
                count += 1
        self.assertGreater(count, 10)


def plans_of(family):
    """The first cases of a family. Those of `registers` are of each instruction in each mode on each register that
    there is, and those of `interrupts` go on where the timer may be pending."""
    if family == "registers":
        firsts = [kind << 12 | number for kind in range(32) for number in (0x100, 0x200, 0x600)]
        return [Plan(family, 1, first, 0x81, 0) for first in firsts]
    return [Plan(family, 1, first, 512, 0) for first in (0, 131072 if family == "interrupts" else 512)]


def stages(line):
    """The words of a case of `accesses` that say which tables its stages have."""
    words = line.split()
    at = words.index("at")
    return words[at + 2], words[at + 5]


def register_lines(number, modes):
    """The lines of csrrw, csrrs and csrrc in HS on a register."""
    return [line for operation in (1, 2, 3) for seed in range(12)
            for line in NESTHV.lines(Plan("registers", seed, operation << 14 | number, 1, 0, modes))]


def read_back(line):
    return int(judge.parsed(line).values["holds"], 16)


# Words of GNU as 2.40 for instructions of RV64IMA, Zicsr, Zifencei, S and H, and words that the tables of the standard
# reserve, put together by hand: by other values of funct3, funct7, rs1, rs2 and rd.
WORDS = """
007302B3 407302B3 007312B3 007322B3 007332B3 007342B3 007352B3 407352B3 007362B3 007372B3 027302B3
027312B3 027322B3 027332B3 027342B3 027352B3 027362B3 027372B3 7FF30293 80030293 FFF32293 00133293
80134293 40036293 00037293 00031293 01F31293 02031293 03F31293 03F35293 00135293 43F35293 42035293
007302BB 407302BB 007312BB 007352BB 407352BB 027302BB 027342BB 027352BB 027362BB 027372BB 8003029B
7FF3029B 01F3129B 0003529B 01F3529B 41F3529B 7FFFF2B7 800002B7 00001297 FFFFF297 80030283 7FF31283
FFF32283 00833283 00034283 FFE35283 40036283 80730023 7E731FA3 00732FA3 02733023 FE733FA3 80730063
7E731FE3 FE734FE3 00735163 007360E3 FE737F63 00730F63 02730063 7FFFF2EF 800002EF 001002EF FFFFF2EF
7FE002EF 000012EF 7FF302E7 800302E7 FFF302E7 000302E7 087322AF 0C7332AF 047322AF 027332AF 227322AF
267332AF 667322AF 607332AF 407322AF 447332AF 847322AF 827332AF A27322AF A67332AF C67322AF C07332AF
E07322AF E47332AF 100322AF 140332AF 1A7322AF 187332AF 100312F3 C00322F3 FFF332F3 000352F3 644362F3
C01372F3 600342F3 640342F3 680342F3 6C0342F3 601342F3 641342F3 681342F3 643342F3 683342F3 62734073
66734073 6A734073 6E734073 12730073 22730073 62730073 0FF0000F 8330000F 0100000F FFFF8F8F 0000100F
FFFF9F8F
"""
RESERVED = """
FFFFFFFF 00732287 007322A7 007302D3 007302D7 0073028B 00737283 007342A3 007372A3 007322E3 007332E3
007312E7 047302B3 807302B3 427302B3 7E7352B3 407372B3 407312B3 04731293 40731293 04735293 80735293
44735293 0273129B 0273529B 4273529B 0073229B 0073729B 007322BB 007372BB 027312BB 027332BB 407312BB
047302BB 0073228F 0073728F 107322AF 167332AF 007302AF 007312AF 007342AF 287322AF 887332AF F87322AF
00200073 30200073 7B200073 000000F3 001000F3 102000F3 105000F3 00008073 127302F3 227302F3 627302F3
16730073 602342F3 644342F3 603342F3 6C1342F3 6C3342F3 627342F3 700342F3 72734073
"""
# x / y, x % y, and the same without signs: by zero, and where the quotient is too large (table 7.1).
LEAST, ONES = 1 << 63, (1 << 64) - 1
DIVISIONS = [(7, 0, ONES, 7, ONES, 7), (ONES, 0, ONES, ONES, ONES, ONES), (LEAST, ONES, LEAST, 0, 0, LEAST),
             (ONES - 6, 2, ONES - 2, ONES, LEAST - 4, 1)]


class Instructions(unittest.TestCase):
    """The second source of `instructions`, by rows of others."""

    def made(self, word, first=0, second=0):
        return rv64ima.outcome(rv64ima.Case(word, "HS", first, second, 0, 0, 0, 0))

    def test_words_are_instructions_or_not(self):
        for words, is_none in ((WORDS, False), (RESERVED, True)):
            for word in words.split():
                made = self.made(int(word, 16))
                is_refused = (made.code, made.tval, made.pc) == (2, int(word, 16), rv64ima.CODE)
                is_read_only = word == "C01372F3" or int(word[:3], 16) == rv64ima.HGEIP
                self.assertEqual(is_refused and not is_read_only, is_none, word)

    def test_divisions_by_zero_and_out_of_range(self):
        for first, second, *expected in DIVISIONS:
            words = (0x027342B3, 0x027362B3, 0x027352B3, 0x027372B3)
            found = [rv64ima.unsigned(self.made(word, first, second).value) for word in words]
            self.assertEqual(found, expected, f"{first:X} {second:X}")


class Judge(unittest.TestCase):
    LINE = "3 lw VS at 1000 - : cause=15 tval=1000 epc=0 hstatus=3C0 vscause=0 vstval=0 ~htval=400 ~htinst=0"

    def verdict(self, *changes):
        line = self.LINE
        for old, new in changes:
            self.assertIn(old, line)
            line = line.replace(old, new)
        found = judge.difference(self.LINE, line)
        return None if found is None else found.choice

    def test_lines(self):
        self.assertIsNone(self.verdict())
        self.assertEqual(self.verdict(("cause=15 tval", "cause=D tval")), "")
        self.assertEqual(self.verdict((" tval=1000", " tval=0"), ("3C0", "380")), "sstvala")
        self.assertEqual(self.verdict((" tval=1000", " tval=1004")), "")
        self.assertEqual(self.verdict(("htval=400", "htval=0")), "shtvala")
        self.assertEqual(self.verdict(("htval=400", "htval=404")), "")
        self.assertEqual(self.verdict(("htinst=0", "htinst=3000")), "")
        self.assertEqual(self.verdict(("lw VS", "ld VS")), "")

    def test_marked_values_of_marked_cases_are_choices(self):
        line = self.LINE.replace("- :", "svade :").replace(" cause", " ~cause")
        self.assertEqual(judge.difference(line, line.replace("cause=15", "cause=D")).choice, "svade")
        self.assertEqual(judge.difference(line, line.replace("epc=0", "epc=4")).choice, "")

    def test_noise_is_no_case(self):
        for noise in ("", "panic", "3", "3 lw VS :", "x lw VS - : cause=1"):
            self.assertIsNone(judge.parsed(noise))
            self.assertEqual(judge.difference(self.LINE, noise).choice, "")


# Cases of `accesses` with the row that QEMU 10.0.2 has there: the case, our outcome, and QEMU's.
KNOWN = [
    ("amo-stage", "551 amoxor VS at 280C02865A0 sv48 level 1 sv48x4 level 0 leaf 500800C9 leaf 200A34DF "
     "sstatus 0 -",
     "cause=F ~htval=0 ~htinst=0", "cause=17 ~htval=500A1D68 ~htinst=0"),
    ("mxr", "551 amoxor VS at 280C02865A0 sv48 level 1 sv48x4 level 0 leaf 500800C9 leaf 200A34DF "
     "sstatus 80000 -",
     "cause=17 ~htval=10007006 ~htinst=3000", "cause=F ~htval=0 ~htinst=0"),
    ("mxr", "702 lh VU at 7F8000223022 sv48 level 0 sv39x4 level 2 leaf 400A785F leaf 200000DF "
     "sstatus 80000 -",
     "cause=15 ~htval=10008402 ~htinst=3000", "cause=8 ~htval=0 ~htinst=0"),
    ("", "702 lh VU at 7F8000223022 sv48 level 0 sv39x4 level 2 leaf 400A785F leaf 200000DF "
     "sstatus 0 -",
     "cause=15 ~htval=10008402 ~htinst=3000", "cause=8 ~htval=0 ~htinst=0"),
    ("mxr", "1111 hsv.d HS at 28040320320 sv48 level 0 sv39x4 level 0 leaf A2CD7 leaf 200E30D7 "
     "sstatus 80000 -",
     "cause=17 ~htval=10008240 ~htinst=3000", "cause=F ~htval=0 ~htinst=0"),
    ("amo-stage", "5078 amomin VU at 281403977A0 sv48 level 0 sv39x4 level 2 leaf FF00AB4DF leaf 4000000DB "
     "sstatus 80000 -", "cause=17 ~htval=FF00AB5E8 ~htinst=0", "cause=7 ~htval=0 ~htinst=0"),
    ("hlvx-sum", "58564 hlvx.wu U at 80C02F3874 sv48 level 1 sv48x4 level 0 leaf 801FF00800DF leaf 4000000DF "
     "sstatus 0 vsstatus 40000 hstatus 300 -", "cause=5 ~htval=0 ~htinst=0", "cause=C ~htval=0 ~htinst=0"),
]


class Known(unittest.TestCase):
    def test_rows_of_qemu_10(self):
        for name, head, expected, actual in KNOWN:
            found = judge.difference(f"{head} : {expected}", f"{head} : {actual}")
            self.assertEqual((found.choice, known.reason("QEMU 10.0.2", found)), ("", name), head)

    def test_rows_are_in_the_page(self):
        with open(os.path.join(machines.TOP, "docs", "conformance.md"), encoding="utf-8") as file:
            page = file.read()
        for reasons in known.REASONS.values():
            for name, _ in reasons:
                self.assertIn(f"`{name}`", page)


class Files(unittest.TestCase):
    def test_elf_has_the_image_and_the_shim(self):
        image = machines.image_of(Plan("accesses", 1, 5, 1, 0))
        elf = machines.elf_of(image, True)
        entry, programs = struct.unpack_from("<QQ", elf, 24)
        self.assertEqual((elf[:5], entry, programs), (b"\x7fELF\2", machines.SHIM, 64))
        place, address = struct.unpack_from("<QQ", elf, 64 + 8)
        self.assertEqual((address, elf[place + 8:place + len(image)]), (machines.BASE, image[8:]))

    def test_options(self):
        for words, said in ((["nothing"], "there is no family nothing"),
                            (["--first", "0"], "--first takes one family"),
                            (["--first", "-1", "accesses"], ""), (["--lines", "accesses"], "need --first"),
                            (["--modes", "9", "accesses"], "--modes: invalid choice"),
                            (["--count", "x", "--first", "0", "accesses"], "x is not an integer")):
            ran = run(*words)
            self.assertEqual((ran.returncode, ran.stdout), (2, ""), words)
            self.assertIn(said, ran.stderr)
            self.assertNotIn("Traceback", ran.stderr)

    def test_machines_that_there_are_not(self):
        for words in (["--program", "/none"], ["--on", "qemu", "--qemu", "/none"], ["--on", "/none {elf}"],
                      ["--on", "true {elf}"], ["--on", "sleep 9", "--seconds", "1"]):
            ran = run(*words, "--first", "0", "accesses")
            self.assertEqual(ran.returncode, 2, words)
            self.assertEqual(ran.stderr.count("\n"), 1, ran.stderr)

    @unittest.skipUnless(shutil.which("readelf"), "no readelf")
    def test_readelf_reads_the_elf_file(self):
        with tempfile.TemporaryDirectory() as folder:
            path = os.path.join(folder, "case.elf")
            self.assertEqual(run("--first", "9", "--elf", path, "accesses").returncode, 0)
            said = subprocess.run(["readelf", "-hls", path], capture_output=True, text=True)
            self.assertEqual((said.returncode, said.stderr), (0, ""))
            self.assertIn("tohost", said.stdout)

    @unittest.skipUnless(shutil.which("qemu-system-riscv64"), "no QEMU")
    def test_qemu_runs_the_same_cases_and_its_differences_are_known(self):
        model = machines.qemu("qemu-system-riscv64", None, 60)
        is_known = any(model.name.startswith(f"{version}.") for version in known.REASONS)
        for family in machines.FAMILIES:
            plan = Plan(family, 1, 0x1100, 24, 0)
            lines, expected = model.lines(plan), NESTHV.lines(plan)
            self.assertEqual([judge.parsed(line).head for line in lines],
                             [judge.parsed(line).head for line in expected])
            for found in filter(None, map(judge.difference, expected, lines)):
                self.assertTrue(not is_known or found.choice or known.reason(model.name, found), found)


if __name__ == "__main__":
    unittest.main()
