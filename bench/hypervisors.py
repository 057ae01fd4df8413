#!/usr/bin/env python3
"""Makes hostile guest hypervisors from seeds, and runs each in several ways whose sections must be byte for byte the
same: alone in one turn, alone in turns of random lengths, and beside another guest in random turns, with two choices
of the other guest's spaces and entries, and with spare blocks, so that RAM moves after each turn. The guest is also
saved at a random place, and goes on from the file beside another guest, with spare blocks; a save at the end must be,
byte for byte, that of the guest in one turn. It prints each difference and what the guests reached, and ends with
status 1 where a section or a save differs or a run ends with another status than 0.

An image is a hypervisor and one or two nested guests. The hypervisor goes through a list of deeds: it stores entries
in its first-stage and second-stage tables of three and four levels (loops, roots outside RAM, wrong bits, superpages
of every level), puts random words at mapped places, writes registers, delegates, fences in every form, sets timers,
waits, makes HLV, HLVX and HSV, and enters VS, VU and U. Half of the guests have the device page, which their tables
and registers name. Half of them move pages of satp and vsatp between accesses, with a fence that names the page, with
another one, and with none, so that accesses go by what is cached of the first stage. Its trap handler puts on the console what trapped, from where,
and a hash of the registers, and goes on with the next deed. 10,000 images take some minutes on four processors.
"""
import collections
import os
import random
import shutil
import struct
import subprocess
import sys
import tempfile
from concurrent.futures import ProcessPoolExecutor

TOP = os.path.dirname(os.path.dirname(os.path.abspath(__file__)))
sys.dont_write_bytecode = True
sys.path.insert(0, os.path.join(TOP, "tools"))
from nesthv_tools import command_line, start, streams
from nesthv_tools.csrs import NUMBERS as CSRS

RAM = 0x80000000
BLOCK = 2097152
DEVICE = 0x10000000

# Where things begin in RAM: the trap handler, the deeds, their constants, second-stage tables, first-stage tables,
# nested code, data. MIDDLES are tables of level 1, LASTS of level 0. The second root of each stage may have four
# levels; its table of level 2 is HIGH, and at the first stage the guest's page 23. OWN is satp's root of four levels.
# From PAGES on satp maps pages of the data, by the tables OWN_MIDDLE and OWN_LAST.
HANDLER = 0x200
DEEDS = 0x400
CONSTANTS, ROOTS, MIDDLES, LASTS = 0x8000, 0x10000, 0x18000, 0x1C000
FIRSTS, CODE, DATA, END = 0x20000, 0x28000, 0x30000, 0x38000
HIGH, OWN = 0x1A000, 0x1B000
OWN_MIDDLE, OWN_LAST, PAGES = 0x1E000, 0x1F000, 0x40000000
SV39, SV48 = 8, 9  # MODE of satp and vsatp; of hgatp Sv39x4 and Sv48x4

# Registers, as nested code may name them.
NAMES = """sstatus sie stvec scounteren senvcfg sscratch sepc scause stval sip satp vsstatus vsie vstvec vsscratch vsepc
vscause vstval vsip vsatp hstatus hedeleg hideleg hie htimedelta hcounteren hgeie henvcfg htval hip hvip htinst hgatp
time cycle hgeip mstatus mhartid""".split()
REGISTERS = [CSRS[name] for name in NAMES]
(SSTATUS, SIE, STVEC, SCOUNTEREN, _, SSCRATCH, SEPC, SCAUSE, STVAL, SIP, SATP, VSSTATUS, VSIE, VSTVEC, _, VSEPC,
 VSCAUSE, VSTVAL, VSIP, VSATP, HSTATUS, HEDELEG, HIDELEG, HIE, HTIMEDELTA, HCOUNTEREN, _, _, HTVAL, HIP, HVIP, HTINST,
 HGATP, TIME, *_) = REGISTERS

ECALL, EBREAK, SRET, WFI, NOP = 0x73, 0x100073, 0x10200073, 0x10500073, 0x13


def i_type(opcode, funct3, rd, rs1, immediate):
    return (immediate & 0xFFF) << 20 | rs1 << 15 | funct3 << 12 | rd << 7 | opcode


def r_type(opcode, funct3, funct7, rd, rs1, rs2):
    return funct7 << 25 | rs2 << 20 | rs1 << 15 | funct3 << 12 | rd << 7 | opcode


def addi(rd, rs1, immediate):
    return i_type(0x13, 0, rd, rs1, immediate)


def load(funct3, rd, rs1, offset):
    return i_type(0x03, funct3, rd, rs1, offset)


def store(funct3, rs2, rs1, offset):
    return (offset >> 5 & 0x7F) << 25 | rs2 << 20 | rs1 << 15 | funct3 << 12 | (offset & 31) << 7 | 0x23


def branch(funct3, rs1, rs2, offset):
    return ((offset >> 12 & 1) << 31 | (offset >> 5 & 63) << 25 | rs2 << 20 | rs1 << 15 | funct3 << 12
            | (offset >> 1 & 15) << 8 | (offset >> 11 & 1) << 7 | 0x63)


def jal(rd, offset):
    return ((offset >> 20 & 1) << 31 | (offset >> 1 & 0x3FF) << 21 | (offset >> 11 & 1) << 20
            | (offset >> 12 & 0xFF) << 12 | rd << 7 | 0x6F)


def amo(funct5, width, rd, rs1, rs2):
    return r_type(0x2F, width, funct5 << 2, rd, rs1, rs2)


def csr(funct3, rd, number, rs1):
    return i_type(0x73, funct3, rd, rs1, number)


def read_csr(rd, number):
    return csr(2, rd, number, 0)


def write_csr(number, rs1):
    return csr(1, 0, number, rs1)


def fence(funct7, rs1, rs2):
    return r_type(0x73, 0, funct7, 0, rs1, rs2)


SFENCE_VMA, HFENCE_VVMA, HFENCE_GVMA = 0x09, 0x11, 0x31
# HLV and HLVX: funct7 and rs2; HSV: funct7
HLVS = [(0x30, 0), (0x30, 1), (0x32, 0), (0x32, 1), (0x32, 3), (0x34, 0), (0x34, 1), (0x34, 3), (0x36, 0)]
HSVS = [0x31, 0x33, 0x35, 0x37]
AMOS = [0, 1, 4, 8, 12, 16, 20, 24, 28]


class Maker:
    """One image and what its configuration says of it."""

    def __init__(self, seed):
        self.random = random.Random(seed)
        # What is of the device page is drawn apart, so it changes nothing else of an image.
        self.device_random = random.Random(f"device {seed}")
        self.has_device = self.device_random.random() < 0.5
        # And so is what moves pages of the first stage.
        self.first_random = random.Random(f"first stage {seed}")
        self.moves_pages = self.first_random.random() < 0.5
        self.blocks = self.random.choice([1, 1, 1, 2])
        self.spaces = self.random.choice([1, 1, 2, 3, 8])
        self.entries = self.random.choice([16, 16, 17, 24, 64, 256])
        self.inputs = sorted((self.random.choice([self.random.randrange(20), self.random.randrange(4000)]),
                              self.random.randrange(256)) for _ in range(self.random.randrange(5)))
        self.wild = self.random.choice([0.01, 0.05, 0.25])
        # MODE of the second root of each stage; the first root of each has three levels.
        self.guest_mode, self.supervisor_mode = self.random.choice([SV39, SV48]), self.random.choice([SV39, SV48])
        # Whether hgatp and fences are left alone for the most part, so that spaces fill up.
        self.is_calm = self.random.random() < 0.5
        self.bytes = bytearray(END)
        self.words = []
        self.constants = []
        self.make()

    def put(self, offset, words):
        for i, word in enumerate(words):
            struct.pack_into("<I", self.bytes, offset + 4 * i, word & 0xFFFFFFFF)

    def double(self, offset, value):
        struct.pack_into("<Q", self.bytes, offset, value & (1 << 64) - 1)

    def is_wild(self):
        return self.random.random() < self.wild

    def names_device(self, share):
        """Whether the device page is named here, as by this share of the guests that have it."""
        return self.has_device and self.device_random.random() < share

    # the tables

    def page_number(self):
        """The number of a page that an entry may name: mostly one in RAM, tables among them."""
        r = self.random
        if self.names_device(0.2):
            return DEVICE >> 12
        ram = RAM >> 12
        pick = r.random()
        if pick < 0.55:
            return ram + r.randrange(CODE >> 12, END >> 12)
        if pick < 0.80:
            return ram + r.randrange(ROOTS >> 12, CODE >> 12)
        if pick < 0.88:
            return ram + r.randrange(0, CONSTANTS >> 12)
        if pick < 0.93:
            return ram + r.randrange(self.blocks * 512)
        if pick < 0.96:
            return ram + self.blocks * 512 - 1
        return r.choice([0, ram - 1, ram + self.blocks * 512, 0x10000, (1 << 44) - 1, r.randrange(1 << 44)])

    def bits(self, user):
        r = self.random
        if self.is_wild():
            return r.randrange(1 << 10)
        common = 0xC1 | (0x10 if user else 0)
        kept = common | r.choice([0x0E, 0x0E, 0x0E, 0x0E, 0x02, 0x06, 0x0A, 0x08])
        return kept & ~r.choice([0, 0, 0, 0, 0, 0, 0x80, 0x40]) | r.choice([0, 0, 0, 0x20, 0x300])

    def entry(self, user):
        """An entry of a table: a leaf of 4 KiB, a superpage, a pointer, or none."""
        r = self.random
        pick = r.random()
        if pick < 0.60:
            number = self.page_number()
        elif pick < 0.68:
            number = (RAM >> 12) + 512 * r.randrange(self.blocks + 1)
        elif pick < 0.76:
            number = r.choice([RAM >> 12, RAM >> 12, 0, 0xC0000])
        elif pick < 0.90:
            return self.page_number() << 10 | (r.randrange(256) & ~0x0E | 1 if self.is_wild() else 1)
        else:
            return 0 if pick < 0.97 else r.randrange(1 << 64)
        high = 1 << r.randrange(54, 64) if self.is_wild() else 0
        return number << 10 | self.bits(user) | high

    def tables(self):
        """Second-stage tables that map pages 0 to 31 of the guest, and first-stage tables at its pages 16 to 23."""
        ram = RAM >> 12
        pointer = lambda offset: (RAM + offset >> 12) << 10 | 1
        for n, root in enumerate((ROOTS, ROOTS + 0x4000)):
            middle, last = MIDDLES + 0x1000 * n, LASTS + 0x1000 * n
            top = HIGH if n == 1 and self.guest_mode == SV48 else root
            if top != root:
                self.double(root, pointer(top))
            self.double(top, pointer(middle))
            self.double(middle, pointer(last))
            if self.random.random() < 0.7:
                self.double(top + 16, ram << 10 | 0xDF)
            for page in range(32):
                offset = ((CODE if page < 8 else DATA if page < 16 else FIRSTS) + 0x1000 * (page % 8) if page < 24
                          else LASTS + 0x1000 * (page % 4) if page < 28 else DEEDS & ~0xFFF)
                frame = DEVICE >> 12 if self.names_device(0.1) else RAM + offset >> 12
                value = self.entry(True) if self.is_wild() else frame << 10 | 0xDF
                self.double(last + 8 * page, value)
            for _ in range(self.random.randrange(6)):
                self.double(self.random.choice([root, top, middle, last]) + 8 * self.random.randrange(40),
                            self.entry(True))
        # First stage: two roots, at the guest's pages 16 and 17; next levels at 23, 18 and 20.
        for n in range(2):
            user = n == 1
            root, middle, last = FIRSTS + 0x1000 * n, FIRSTS + 0x1000 * (2 + n), FIRSTS + 0x1000 * (4 + n)
            top = FIRSTS + 0x7000 if user and self.supervisor_mode == SV48 else root
            if top != root:
                self.double(root, 23 << 10 | 1)
            self.double(top, (18 + n) << 10 | 1)
            self.double(middle, (20 + n) << 10 | 1)
            self.double(top + 16, ram << 10 | 0xCF)
            for page in range(32):
                self.double(last + 8 * page, self.entry(user) if self.is_wild()
                            else page << 10 | (0xDF if user else 0xCF))
        # satp's own tables, with RAM as one superpage, so that the hypervisor goes on under them.
        self.double(FIRSTS + 0x6000 + 16, ram << 10 | 0xCF)
        self.double(FIRSTS + 0x6000, (ram + (FIRSTS + 0x4000 >> 12)) << 10 | 1)
        self.double(OWN, pointer(FIRSTS + 0x6000))

    def own_pages(self):
        """Pages of the data, each with bytes of its own at its start, by tables that satp has beside RAM."""
        pointer = lambda offset: (RAM + offset >> 12) << 10 | 1
        for page in range(8):
            for at in range(0, 32, 8):
                self.double(DATA + 0x1000 * page + at, 0x41 + page + at)
        self.double(FIRSTS + 0x6008, pointer(OWN_MIDDLE))
        self.double(OWN_MIDDLE, pointer(OWN_LAST))
        self.double(OWN_MIDDLE + 8, RAM >> 12 << 10 | 0xC7)
        for page in range(40):
            self.double(OWN_LAST + 8 * page, self.data_leaf(0xC7))

    def data_leaf(self, bits):
        """A leaf to a page of the data."""
        return (RAM + DATA + 0x1000 * self.first_random.randrange(8) >> 12) << 10 | bits

    # nested guests

    def nested_word(self):
        r = self.random
        rd = r.choice([0, 5, 6, 7, 10, 11, 12, 28])
        a, b = r.randrange(8, 16), r.randrange(5, 16)
        near = r.choice([0, 0, 8, 16, 0x100, 0x7F8, -8, r.randrange(-2048, 2048) & ~7])
        pick = r.random()
        if pick < 0.40:
            return load(r.randrange(7), rd, a, near)
        if pick < 0.58:
            return store(r.choice([0, 3]), b, a, near)
        if pick < 0.62:
            return amo(r.choice(AMOS + [2, 3, 3]), r.choice([2, 3]), rd, a, b)
        if pick < 0.645:
            return ECALL
        if pick < 0.70:
            return csr(r.choice([1, 2, 3, 5, 6, 7]), rd, r.choice(REGISTERS), b)
        if pick < 0.87:
            return r.choice([addi(rd, a, near), r_type(0x33, r.randrange(8), r.choice([0, 1]), rd, a, b),
                             r.randrange(1 << 20) << 12 | rd << 7 | 0x37])
        if pick < 0.92:
            return branch(r.choice([0, 1, 4, 5, 6, 7]), a, b, r.choice([8, 12, 16, -8, 6]))
        if pick < 0.96:
            return r.choice([jal(rd, r.choice([8, 0x1000, -0x1000, 4, 0x1FF8])), i_type(0x67, 0, rd, a, near)])
        if pick < 0.99:
            return r.choice([SRET, EBREAK, fence(SFENCE_VMA, a, b), fence(HFENCE_GVMA, 0, 0), NOP,
                             r_type(0x73, 4, r.choice(HLVS)[0], rd, a, 0), WFI if self.is_wild() else NOP])
        return r.randrange(1 << 32)

    def nested(self):
        for page in range(8):
            words = [self.nested_word() for _ in range(self.random.randrange(8, 64))]
            self.put(CODE + 0x1000 * page, words + [ECALL])
        # Where vstvec points: puts the cause, as VS sees it, into x10, and calls.
        self.put(CODE + 0x7000, [read_csr(10, SCAUSE), addi(10, 10, 0x40), ECALL])
        for offset in range(DATA, END, 8):
            if self.random.random() < 0.2:
                self.double(offset, self.random.randrange(1 << 64))
        if self.is_wild():
            self.double(DATA + 8 * self.random.randrange(64), self.entry(True))

    # the hypervisor

    def handler(self):
        """Puts six bytes: 255, the cause, where it came from, x10's low byte, and two of a hash. Goes to sscratch."""
        h = [addi(30, 10, 0)]
        for register in (6, 7, 8, 9, 11, 12, 13, 14, 15, 28):
            h += [r_type(0x33, 4, 0, 5, 5, register), i_type(0x13, 1, 5, 5, 1)]
        for number in (STVAL, HTVAL, HTINST, SEPC, VSEPC, VSCAUSE, VSTVAL, VSSTATUS, HSTATUS, SSTATUS, SIP):
            h += [read_csr(6, number), r_type(0x33, 4, 0, 5, 5, 6), i_type(0x13, 1, 7, 5, 7),
                  r_type(0x33, 0, 0, 5, 5, 7)]
        for shift in (32, 16):
            h += [i_type(0x13, 5, 6, 5, shift), r_type(0x33, 4, 0, 5, 5, 6)]
        put = [ECALL]
        h += [addi(17, 0, 1), addi(10, 0, 255), *put]
        h += [read_csr(6, SCAUSE), i_type(0x13, 5, 7, 6, 63), i_type(0x13, 1, 7, 7, 6), i_type(0x13, 7, 10, 6, 63),
              r_type(0x33, 6, 0, 10, 10, 7), *put]
        h += [read_csr(6, HSTATUS), i_type(0x13, 5, 6, 6, 6), i_type(0x13, 7, 6, 6, 3), i_type(0x13, 1, 6, 6, 1),
              read_csr(7, SSTATUS), i_type(0x13, 5, 7, 7, 8), i_type(0x13, 7, 7, 7, 1), r_type(0x33, 6, 0, 10, 6, 7),
              *put]
        h += [addi(10, 30, 0), *put, addi(10, 5, 0), *put, i_type(0x13, 5, 10, 5, 8), *put]
        calm = [write_csr(HVIP, 0), csr(7, 0, SIP, 2), addi(17, 0, 2), ECALL, read_csr(10, TIME),
                addi(10, 10, self.random.choice([5, 50, 400])), addi(17, 0, 0), ECALL]
        h += self.random.choice([calm, calm, calm[:4], calm[4:], []])
        h += [read_csr(5, SSCRATCH), i_type(0x67, 0, 0, 5, 0)]
        self.put(HANDLER, h)
        assert HANDLER + 4 * len(h) <= DEEDS

    def constant(self, rd, value):
        """The words that load a constant, which stands after the code."""
        at = CONSTANTS + 8 * len(self.constants)
        self.constants.append(value)
        distance = at - (DEEDS + 4 * len(self.words))
        high, low = (distance + 0x800) >> 12, distance & 0xFFF
        self.words += [(high & 0xFFFFF) << 12 | rd << 7 | 0x17, load(3, rd, rd, low)]

    def root_value(self):
        r = self.random
        second = RAM + ROOTS + 0x4000 >> 12
        number = r.choice([RAM + ROOTS >> 12] * 12 + [second] * 8
                          + [(RAM >> 12) + self.blocks * 512 - 4, RAM + MIDDLES >> 12, 0, self.page_number()])
        mode = r.choice([self.guest_mode if number == second else SV39] * 30 + [0, SV39, SV48, 10])
        return mode << 60 | r.choice([0, 1, 1, 2, 3, 9, 127]) << 44 | number

    def own_root_value(self):
        r = self.random
        number = r.choice([16] * 6 + [17] * 6 + [18, 31, 40, RAM + FIRSTS >> 12, self.page_number()])
        mode = r.choice([self.supervisor_mode if number == 17 else SV39] * 30 + [SV39, SV48, 10])
        return r.choice([0, 0, mode << 60 | r.choice([0, 1, 0xFFFF]) << 44 | number])

    def pointer(self):
        r = self.random
        mapped = 0x1000 * r.choice([r.randrange(8, 16), r.randrange(32)]) + 8 * r.randrange(512)
        if self.names_device(0.3):
            mapped = mapped & ~0xFFF | self.device_random.choice([0, 0, 8])
        if self.names_device(0.1):
            return DEVICE + self.device_random.choice([0, 0, 8, self.device_random.randrange(16)])
        return r.choice([mapped] * 12 + [0x1000 * r.randrange(34), 0x1000 * r.randrange(16) + 0xFFC,
                                         RAM + r.randrange(END) & ~7, RAM + self.blocks * BLOCK - 8,
                                         r.randrange(1 << r.choice([41, 48, 50])) & ~7, r.randrange(1 << 64)])

    def enter(self):
        """Enters a nested guest, or U."""
        r = self.random
        nested = r.random() < 0.85
        self.constant(5, 0x80 | 0x180 if nested else 0x100)
        self.words.append(csr(3, 0, HSTATUS, 5))
        bits = r.choice([0x80, 0x80, 0x180, 0x180, 0x180]) if nested else 0
        self.constant(5, bits | r.choice([0, 0, 0, 0x100000, 0x200000, 0x400000, 0x200]))
        self.words.append(csr(2, 0, HSTATUS, 5))
        self.constant(5, 0xC0122)
        self.words.append(csr(3, 0, SSTATUS, 5))
        self.constant(5, (0x100 if nested and r.random() < 0.7 else 0) | r.choice([0, 0x20, 0x40000, 0x80000, 0xC0020]))
        self.words.append(csr(2, 0, SSTATUS, 5))
        place = 0x1000 * r.randrange(8) + 4 * r.randrange(8) if nested else RAM + CODE + 0x1000 * r.randrange(8)
        if self.is_wild():
            place = self.pointer()
        self.constant(5, place)
        self.words.append(write_csr(SEPC, 5))
        for register in r.sample(range(8, 16), r.choice([3, 8, 8])):
            self.constant(register, self.pointer())
        self.words.append(SRET)

    def deed(self):
        r = self.random
        pick = r.random()
        if pick < 0.30 or self.is_calm and 0.48 <= pick < 0.71 and r.random() < 0.9:
            self.enter()
        elif pick < 0.48:
            table = r.choice([ROOTS, ROOTS + 0x4000, HIGH, MIDDLES, MIDDLES + 0x1000, LASTS, LASTS, LASTS,
                              LASTS + 0x1000, FIRSTS, FIRSTS + 0x1000, FIRSTS + 0x2000, FIRSTS + 0x4000,
                              FIRSTS + 0x5000, FIRSTS + 0x7000])
            self.constant(5, self.entry(table < FIRSTS or r.random() < 0.5))
            slot = r.choice([0, 2, r.randrange(8), r.randrange(8, 32), r.randrange(8, 32), r.randrange(512)])
            self.constant(6, RAM + table + 8 * slot)
            self.words.append(store(3, 5, 6, 0))
        elif pick < 0.60:
            self.constant(5, r.choice([0, r.randrange(64) << 10, self.pointer() >> 2]))
            self.constant(6, r.choice([0, 1, 2, 3, 127, r.randrange(1 << 16)]))
            self.words.append(fence(r.choice([HFENCE_GVMA] * 5 + [HFENCE_VVMA, SFENCE_VMA]), r.choice([0, 0, 5]),
                                    r.choice([0, 6])))
        elif pick < 0.66:
            self.constant(5, self.root_value())
            self.words.append(write_csr(HGATP, 5))
        elif pick < 0.71:
            self.constant(5, self.own_root_value())
            self.words.append(write_csr(VSATP, 5))
        elif pick < 0.78:
            number, value = r.choice([
                (HEDELEG, r.choice([0, 0xB1FF, r.randrange(1 << 16)])), (HIDELEG, r.choice([0, 0x444, 4, 0x40])),
                (HIE, r.choice([0, 0x444, r.randrange(1 << 11)])), (HVIP, r.choice([0, 0x444, 4, 0x40, 0x400])),
                (SIE, r.choice([0, 0x222, 0x20, 2])), (SIP, r.choice([0, 2])), (VSTVEC, r.choice([0x7000, 0x7001])),
                (VSSTATUS, r.randrange(1 << 20)), (HTIMEDELTA, r.randrange(1 << 64)), (HCOUNTEREN, r.choice([0, 2])),
                (SCOUNTEREN, r.choice([0, 2])), (VSIE, 0x222),
                (SATP, r.choice([0, SV39 << 60 | RAM + FIRSTS + 0x6000 >> 12, SV48 << 60 | RAM + OWN >> 12]))])
            self.constant(5, value)
            self.words.append(write_csr(number, 5))
        elif pick < 0.84:
            self.constant(11, self.pointer())
            self.constant(12, r.randrange(1 << 64))
            funct7, rs2 = r.choice(HLVS)
            self.words.append(r_type(0x73, 4, funct7, 10, 11, rs2) if r.random() < 0.7
                              else r_type(0x73, 4, r.choice(HSVS), 0, 11, 12))
        elif pick < 0.89:
            self.words += [read_csr(10, TIME), addi(10, 10, r.choice([0, 1, 20, 100, 700])), addi(17, 0, 0), ECALL]
        elif pick < 0.92:
            self.words += [addi(17, 0, r.choice([2, 2, 3, 7])), ECALL, addi(17, 0, 1), ECALL]
        elif pick < 0.94:
            self.constant(5, r.randrange(1 << 32))
            self.constant(6, RAM + r.choice([CODE, CODE, DATA, ROOTS]) + 4 * r.randrange(0x1000))
            self.words.append(store(2, 5, 6, 0))
        elif pick < 0.96:
            self.words += [csr(6, 0, SSTATUS, 2), NOP, NOP, NOP, csr(7, 0, SSTATUS, 2)]
        elif pick < 0.97:
            self.words += [addi(5, 0, 0x220), write_csr(SIE, 5), read_csr(10, TIME), addi(10, 10, 60), addi(17, 0, 0),
                           ECALL, WFI]
        else:
            self.constant(8, self.pointer())
            self.words.append(self.nested_word())

    # what the first stage caches

    def own_deed(self):
        """In HS: pages of satp are moved, fenced, loaded from and stored to. A load puts a byte."""
        r = self.first_random
        satp = r.choice([SV39 << 60 | RAM + FIRSTS + 0x6000 >> 12] * 3 + [SV48 << 60 | RAM + OWN >> 12])
        self.constant(5, satp | r.choice([0, 1, 1, 2]) << 44)
        self.words.append(write_csr(SATP, 5))
        pages = [r.randrange(1, 40) for _ in range(r.choice([1, 2, 2]))]
        for _ in range(r.randrange(3, 9)):
            self.own_access(r, r.choice(pages) if r.random() < 0.9 else r.randrange(40))
        if r.random() < 0.3:
            self.words.append(write_csr(SATP, 0))

    def own_access(self, r, page):
        pick = r.random()
        if pick < 0.45:
            self.constant(6, PAGES + 0x1000 * page + 8 * r.randrange(4) + (0x200000 + DATA if r.random() < 0.05 else 0))
            self.words += [load(4, 10, 6, 0), addi(17, 0, 1), ECALL]
        elif pick < 0.55:
            self.constant(6, PAGES + 0x1000 * page + 8 * r.randrange(4))
            self.words.append(store(0, 6, 6, 0) if r.random() < 0.7 else amo(1, 3, 10, 6, 6))
        elif pick < 0.78:
            self.constant(5, self.data_leaf(r.choice([0xC7, 0xC7, 0xC7, 0x43, 0xCF, 0x49, 0xD7, 0x47])))
            self.constant(6, RAM + OWN_LAST + 8 * page)
            self.words.append(store(3, 5, 6, 0))
        else:
            self.constant(5, PAGES + 0x1000 * r.choice([page, page, page, r.randrange(40), 512]))
            self.constant(6, r.choice([0, 1, 1, 2, 0x10001]))
            self.words.append(fence(r.choice([SFENCE_VMA] * 6 + [HFENCE_VVMA, HFENCE_GVMA]), r.choice([0, 5, 5]),
                                    r.choice([0, 0, 6])))

    def nested_deed(self):
        """A page of vsatp is moved, and fenced or not, before a nested guest is entered."""
        r = self.first_random
        for _ in range(r.choice([1, 1, 2])):
            last = FIRSTS + 0x1000 * r.choice([4, 5])
            self.constant(5, r.randrange(8, 16) << 10 | r.choice([0xDF, 0xCF, 0xCF, 0x4B, 0xC7]))
            self.constant(6, RAM + last + 8 * r.randrange(8, 16))
            self.words.append(store(3, 5, 6, 0))
        if r.random() < 0.5:
            self.constant(5, r.choice([0x1000 * r.randrange(8, 16), 0x1000 * r.randrange(8, 16), 0]))
            self.constant(6, r.choice([0, 1, 0xFFFF]))
            self.words.append(fence(r.choice([HFENCE_VVMA] * 5 + [SFENCE_VMA, HFENCE_GVMA]), r.choice([0, 5, 5]),
                                    r.choice([0, 0, 6])))
        self.enter()

    def make(self):
        self.tables()
        self.nested()
        if self.moves_pages:
            self.own_pages()
        self.handler()
        self.put(0, [0x00000297, addi(5, 5, HANDLER), write_csr(STVEC, 5), jal(0, DEEDS - 12)])
        r = self.random
        for number, value in ((HGATP, self.root_value()), (VSATP, self.own_root_value()), (VSTVEC, 0x7000),
                              (HEDELEG, r.choice([0, 0xB1FF, 0xB1FF, r.randrange(1 << 16)])),
                              (HIDELEG, r.choice([0, 0x444])), (HCOUNTEREN, r.choice([0, 2])),
                              (VSSTATUS, r.choice([0, 0x40000, 0xC0022]))):
            self.constant(5, value)
            self.words.append(write_csr(number, 5))
        while len(self.words) < 1700 and len(self.constants) < 3500:
            # Where the handler goes on: after the deed.
            at = len(self.words)
            self.words += [0, 0, 0]
            pick = self.first_random.random() if self.moves_pages else 1
            if pick < 0.35:
                self.own_deed() if pick < 0.15 else self.nested_deed()
            else:
                self.deed()
            self.words[at:at + 3] = [0x297, addi(5, 5, 4 * (len(self.words) - at)), write_csr(SSCRATCH, 5)]
        self.words += [addi(17, 0, 8), ECALL]
        self.put(DEEDS, self.words)
        for i, value in enumerate(self.constants):
            self.double(CONSTANTS + 8 * i, value)

    def table(self, name, spaces, entries, form):
        """The guest's table in a configuration: in format 2 its inputs come from a file, and it may have the device
        page."""
        pairs = ", ".join(f"[{moment}, {byte}]" for moment, byte in self.inputs)
        given = f'"{name}.inputs"' if form == 2 else f"[{pairs}]"
        return (f'[[guest]]\nname = "{name}"\nimage = "{name}.bin"\nblocks = {self.blocks}\nspaces = {spaces}\n'
                f"entries = {entries}\nconsole = 20000\n" + (f"input = {given}\n" if pairs else "")
                + ("device = 1\n" if self.has_device else ""))

    def records(self):
        """The bytes of a file of the guest's inputs."""
        return b"".join(struct.pack("<QB", moment, byte) for moment, byte in self.inputs)


def turns_of(chance, steps, guests):
    """Turns of random lengths with `steps` steps for each guest, in random order."""
    left = [steps] * guests
    turns = []
    while any(left):
        guest = chance.choice([g for g in range(guests) if left[g]])
        count = min(left[guest], chance.choice([1, 1, 2, 3, 7, 40, 300, chance.randrange(1, 1000)]))
        left[guest] -= count
        turns.append(f"[{guest}, {count}]")
    return "turns = [" + ", ".join(turns) + "]\n"


class Ended(Exception):
    """A run that did not end with status 0."""


def called(program, folder, text, command, *words):
    """What a command writes, with this configuration."""
    with open(os.path.join(folder, "run.toml"), "w") as file:
        file.write(text)
    ran = subprocess.run([program, command, "run.toml", *words], cwd=folder, capture_output=True)
    if ran.returncode != 0:
        raise Ended(f"{command}: status {ran.returncode} {ran.stderr[:200]!r}")
    return ran.stdout


def run(program, folder, text):
    """The sections of a run, in the order of its guests."""
    sections = []
    rest = called(program, folder, text, "run")
    while rest:
        header, _, body = rest.partition(b"\n")
        length = int(header.split()[6])
        # Without the guest's name, so that sections under two names can be compared.
        sections.append((header.split()[2:], body[:length]))
        rest = body[length + 1:]
    return sections


def reached(section, counts):
    """Adds to the counts what a section tells: its status, and each trap that the handler has put."""
    header, console = section
    counts["guests that end " + header[0].decode()] += 1
    counts["steps"] += int(header[2])
    at = 0
    while at + 6 <= len(console):
        mark, cause, place, value = console[at:at + 4]
        if mark != 255 or place >= 16 or cause > 0x7F:
            at += 1
            continue
        kind = f"interrupt {cause & 0x3F}" if cause & 0x40 else f"trap {cause}"
        level = ("VS" if place & 1 else "VU") if place & 4 else ("HS" if place & 1 else "U")
        counts[f"{kind} from {level}"] += 1
        if place & 4 and cause == 10 and 0x40 <= value < 0x60:
            counts[f"cause {value & 0x1F} taken by VS"] += 1
        at += 6


def saved(program, folder, chance, steps, a, b):
    """Saves the guest `a` at a random place, and goes on from there: its section, and whether a save at the end is
    that of one turn. `a` and `b` are the tables of the guests in format 2."""
    place = chance.choice([chance.randrange(steps + 1), chance.randrange(min(steps, 300) + 1)])
    alone = f"format = 2\nturns = [[0, {place}]]\n{a}"
    with open(os.path.join(folder, "a.saved"), "wb") as file:
        file.write(called(program, folder, alone, "save", "0"))
    turns = turns_of(chance, steps - place, 2)
    resumed = f'format = 2\nspare = {chance.randrange(3)}\n{turns}{b}[[guest]]\nname = "a"\nresume = "a.saved"\n'
    section = run(program, folder, resumed)[1]
    again = called(program, folder, resumed, "save", "1")
    whole = called(program, folder, f"format = 2\nturns = [[0, {steps}]]\n{a}", "save", "0")
    return section, place, again == whole


def differing_saves(program, folder, chance, steps, tables, first, seed):
    """What differs of the guest that is saved and goes on, from its section in one turn and its save at the end."""
    try:
        section, place, is_same = saved(program, folder, chance, steps, *tables)
    except (Ended, ValueError, IndexError) as error:
        return [f"seed {seed} saved: {error}"]
    found = []
    if section != first:
        found.append(f"seed {seed} saved after {place} steps: {section[0]!r}, and in one turn {first[0]!r}")
    if not is_same:
        found.append(f"seed {seed} saved after {place} steps: the save at the end is not that of one turn")
    return found


def tried(task):
    """Runs the image of a seed in each way: what differs, and what its guest reached."""
    program, seed, steps, keep = task
    chance = random.Random(f"turns {seed}")
    one, other = Maker(seed), Maker(seed + 1)
    counts = collections.Counter()
    differences = []
    with tempfile.TemporaryDirectory(dir="/dev/shm" if os.path.isdir("/dev/shm") else None) as folder:
        for name, maker in (("a", one), ("b", other)):
            for ending, data in ((".bin", maker.bytes), (".inputs", maker.records())):
                with open(os.path.join(folder, name + ending), "wb") as file:
                    file.write(data)
        form = 2 if one.has_device or other.has_device else 1
        a = one.table("a", one.spaces, one.entries, form)
        pair = lambda spaces, entries: a + other.table("b", spaces, entries, form)
        in_two = [one.table("a", one.spaces, one.entries, 2), other.table("b", other.spaces, other.entries, 2)]
        one_form = f"format = {form}\n"
        ways = [
            ("in one turn", one_form + f"turns = [[0, {steps}]]\n" + a),
            ("in random turns", one_form + turns_of(chance, steps, 1) + a),
            ("beside another guest", one_form + turns_of(chance, steps, 2) + pair(other.spaces, other.entries)),
            ("beside it with other spaces",
             one_form + turns_of(chance, steps, 2) + pair(1 + chance.randrange(8), chance.choice([16, 32, 100]))),
            ("with spare blocks",
             f"format = 2\nspare = {chance.choice([1, 2, 3])}\n" + turns_of(chance, steps, 2) + in_two[0] + in_two[1]),
        ]
        first = None
        for way, text in ways:
            try:
                section = run(program, folder, text)[0]
            except (Ended, ValueError, IndexError) as error:
                section = ([str(error).encode()], b"")
                differences.append(f"seed {seed} {way}: {error}")
            if first is None:
                first = section
                if not differences:
                    reached(section, counts)
            elif section != first:
                differences.append(f"seed {seed} {way}: {section[0]!r}, and in one turn {first[0]!r}")
            if differences:
                break
        else:
            differences += differing_saves(program, folder, chance, steps, in_two, first, seed)
        if differences and keep:
            shutil.copytree(folder, os.path.join(keep, f"{seed}"), dirs_exist_ok=True)
    return differences, counts


def main():
    parser = command_line.Parser(__doc__)
    add, most = parser.add_argument, 10**9
    add("--first", type=command_line.number(0, most), default=0, metavar="SEED", help="the first seed; 0 if left out")
    add("--count", type=command_line.number(0, most), default=10000, metavar="N",
        help="the images of N seeds; 10,000 if left out")
    add("--steps", type=command_line.number(1, most), default=12000, metavar="N",
        help="the steps of each guest in each run; 12,000 if left out")
    add("--jobs", type=command_line.number(1, 1024), default=os.cpu_count(), metavar="N",
        help="how many at a time; as many as there are processors if left out")
    add("--program", metavar="PATH", help="the program; the proved one (tools/program) if left out")
    add("--keep", metavar="FOLDER", help="writes the files of each run that differs there")
    options = parser.parse_args()
    program = options.program or subprocess.run([os.path.join(TOP, "tools", "program")], stdout=subprocess.PIPE,
                                                text=True).stdout.strip()
    if not program:
        streams.say("no proved program; `cd crates/nesthv && rt run` builds it")
        return 2
    program = os.path.abspath(program)
    counts = collections.Counter()
    differences = 0
    seeds = range(options.first, options.first + options.count)
    tasks = [(program, seed, options.steps, options.keep) for seed in seeds]
    with ProcessPoolExecutor(options.jobs) as pool:
        for found, made in pool.map(tried, tasks, chunksize=16):
            counts += made
            differences += len(found)
            for difference in found:
                print(difference, flush=True)
    for what, count in sorted(counts.items()):
        print(f"{what}: {count}")
    print(f"{options.count} images, each run 6 times, one of them from a save: {differences} differences")
    return 1 if differences else 0


if __name__ == "__main__":
    start.run(main)
