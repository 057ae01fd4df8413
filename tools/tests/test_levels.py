"""Tests of what the tools know of tables: the frames that they take, and those of three and four levels."""
import os
import re
import struct
import sys

from helper import GUEST, TOP, ToolTest
from nesthv_tools import faults

sys.path.insert(0, os.path.join(TOP, "bench"))
RAM = 0x80000000
SV39, SV48 = 8, 9  # MODE of satp and vsatp; of hgatp Sv39x4 and Sv48x4


def doubleword(image, address):
    """The doubleword of RAM that an image leaves there."""
    return int.from_bytes(image[address - RAM:address - RAM + 8], "little")


def second_walk(image, hgatp, address):
    """The level and the word of the entry that ends the walk, by 4.3.2 and 8.5.1 of the standard."""
    level = {SV39: 2, SV48: 3}[hgatp >> 60]
    bits, table = 11, (hgatp & (1 << 44) - 1) << 12
    while True:
        entry = doubleword(image, table + 8 * (address >> 12 + 9 * level & (1 << bits) - 1))
        if entry & 1 == 0 or entry & 0xE:
            return level, entry
        level, bits, table = level - 1, 9, entry >> 10 << 12


class FramesTest(ToolTest):
    def test_sum(self):
        self.assertEqual(faults.frames_of({"blocks": 1, "spaces": 1, "entries": 16}), 512 + 5 + 4 + 16 * 3)
        self.assertEqual(faults.frames_of({"blocks": 32, "spaces": 8, "entries": 256}), 16384 + 5 + 8 * (4 + 768))

    def test_sum_is_that_of_the_program(self):
        """Each guest's frames, as the tool says, come to the value of the program's fault 11."""
        tables = "".join("[[guest]]\n" + "".join(f"{key} = {value}\n" for key, value in {
            **GUEST, "name": f'"g{index}"', "blocks": 32, "spaces": 1 + index % 8, "entries": 16 + index}.items())
                         for index in range(16))
        ran = self.tool("tools/run", self.put("a.toml", "format = 1\nquantum = 1\nrounds = 1\n" + tables))
        self.check_plain(ran, 2)
        said = "\n".join(ran.lines)
        needs = re.findall(r"\d+: (\d+)", said.partition("By guest: ")[2])
        self.assertEqual(len(needs), 16, said)
        self.assertIn(f"fault 11 value {sum(map(int, needs))}", said)


class TablesTest(ToolTest):
    def test_examples(self):
        """Both examples map the kernel's page, and no second one, with a level more under Sv48x4."""
        for name, mode, top in (("nested2", SV39, 2), ("sv48x4", SV48, 3)):
            with open(f"{TOP}/examples/{name}/{name}.bin", "rb") as file:
                image = file.read()
            roots = [word for word, in struct.iter_unpack("<Q", image[:0x200]) if word >> 44 == mode << 16 | 1]
            self.assertEqual(len(roots), 1)
            self.assertEqual(second_walk(image, roots[0], 0), (0, RAM + 0x1000 >> 2 | 0x5B))
            self.assertEqual(second_walk(image, roots[0], 0x1000), (0, 0))
            self.assertEqual(second_walk(image, roots[0], 1 << 12 + 9 * top), (top, 0))

    def test_generated_hypervisors(self):
        """The second root has the levels of its MODE, and satp's root of four levels maps RAM by 1 GiB."""
        import hypervisors
        modes, leaves = set(), 0
        for seed in range(40):
            maker = hypervisors.Maker(seed)
            modes.add((maker.guest_mode, maker.supervisor_mode))
            hgatp = maker.guest_mode << 60 | RAM + hypervisors.ROOTS + 0x4000 >> 12
            level, entry = second_walk(maker.bytes, hgatp, 0x9000)
            leaves += (level, entry) == (0, RAM + hypervisors.DATA + 0x1000 >> 2 | 0xDF)
            own = SV48 << 60 | RAM + hypervisors.OWN >> 12
            self.assertEqual(second_walk(maker.bytes, own, RAM), (2, RAM >> 2 | 0xCF))
        self.assertEqual(len(modes), 4)
        self.assertGreater(leaves, 20)
