"""Tests of tools/csrs.txt, the one list of registers for tools, suite and benches."""
import glob
import os
import re
import unittest

from helper import TOP
from nesthv_tools import csrs, registers, saves


class CsrTest(unittest.TestCase):
    def test_names_of_the_program(self):
        """The program's names are those of the list, and each number that it knows has a name."""
        pairs = re.findall(r'\("(\w+)", 0x([0-9A-F]{3})\)', self.source("csr_file", "names"))
        named = {name: int(number, 16) for name, number in pairs}
        self.assertEqual(named, {name: csrs.NUMBERS.get(name) for name in named})
        self.assertEqual(set(named.values()), self.numbers_of_the_program())

    def numbers_of_the_program(self):
        """The numbers that name a register in HS."""
        return {int(number, 16) for number in re.findall("(0x[0-9A-F]{3}) => Some", self.source("csr_file", "names"))}

    def source(self, crate, module):
        with open(os.path.join(TOP, "crates", crate, "src", f"{module}.rt"), encoding="utf-8") as file:
            return file.read()

    def test_numbers_of_the_program(self):
        """The list has each number that the program knows."""
        self.assertEqual(self.numbers_of_the_program() - set(csrs.NUMBERS.values()), set())

    def test_names_of_the_tools(self):
        names = {*saves.REGISTERS, *registers.FIELDS} - {"sip.SSIP"}
        self.assertEqual(names - set(csrs.NUMBERS), set())
        self.assertEqual(len(set(csrs.NUMBERS.values())), len(csrs.NUMBERS))

    def test_no_second_list(self):
        """No other file of the tools, the suite, the benches or the examples has the number of a register beside
        its name, nor in an instruction."""
        paths = [path for folder in ("tools/**", "conformance", "bench", "examples/**")
                 for path in glob.glob(os.path.join(TOP, folder, "*.[pchsS]*"), recursive=True)]
        self.assertGreater(len(paths), 50)
        for path in filter(os.path.isfile, paths):
            with open(path, encoding="utf-8", errors="ignore") as file:
                text = file.read()
            self.assertIsNone(re.search(r"\bcsr[rwsc]+i?\b[^;\n\\]*\b0x[0-9a-f]{3}\b", text), path)
            found = re.findall(r'\b([a-z]+)"?,? *[=:] *0x([0-9a-f]{3})\b', text, re.I)
            pairs = [(name, number) for name, number in found if csrs.NUMBERS.get(name.lower()) == int(number, 16)]
            self.assertEqual(pairs, [], path)
