"""Tests of what the tools show of cached translations of the first stage."""
import json
import unittest
from xml.dom import minidom

from saved_files import HGATP, form
from test_look import GIVEN, answers_of, pointer, ram_of
from nesthv_tools import drawing, fences, presentation, saves, state_changes, walks


class FirstStageTest(unittest.TestCase):
    """Cached translations of the first stage: of HS under SATP, and of VS under VSATP, whose table is at guest
    physical 1000, and maps the first GiB from 40000000 on."""

    SATP, VSATP = 8 << 60 | 0x80007, 8 << 60 | 1
    TABLES = {"at80007000": 0x80000000 >> 2 | 0xCF, "at80008008": 0xCB}

    def saved(self, first, words=None, **numbers):
        tables = {"at80004000": pointer(0x80005000), "at80005000": pointer(0x80006000),
                  "at80006008": GIVEN >> 2 | 0xD7, **self.TABLES, **(words or {})}
        return saves.Saved(form(first=first, ram=ram_of(**tables), **{
            "hgatp": HGATP, "satp": self.SATP, "vsatp": self.VSATP, "spaces": 2, **numbers}))

    def lines(self, saved, address, mode):
        found = presentation.translation_of(walks.Translation(walks.View(saved, mode), address), saved)
        json.dumps(found)
        return presentation.lines_of_translation(found)

    def test_supervisor(self):
        """A stale translation is used where it permits, and else the table."""
        saved = self.saved([(0, 0, self.SATP, 0, 0x80009, 1)])
        self.assertEqual(answers_of(saved, 0x123, "HS"),
                         {"fetch": "80000123", "load": "80009123", "store": "80000123"})
        lines = self.lines(saved, 0x123, "HS")
        self.assertIn("  cached   0 -> 80009000 r--- level 0  stale: cached 80009000 r---, table says 80000000 rwx-",
                      lines)
        self.assertEqual(lines[-3:], ["fetch: 80000123", "load: 80009123, by the cached translation of the first stage",
                                      "store: 80000123"])
        self.assertEqual(set(answers_of(saved, 0x1123, "HS").values()), {"80001123"})
        other = self.saved([(0, 0, self.SATP | 1 << 44, 0, 0x80009, 1), (1, 0, self.SATP, 0, 0x80009, 1)])
        self.assertEqual(set(answers_of(other, 0x123, "HS").values()), {"80000123"})

    def test_rights(self):
        """U, SUM and MXR count as they are now."""
        for flags, numbers, mode, load in ((33, {}, "U", "80009000"), (1, {}, "U", "U clear"),
                                           (33, {}, "HS", "80000000"),
                                           (33, {"sstatus": 2 << 32 | 1 << 18}, "HS", "80009000"),
                                           (4, {}, "HS", "80000000"),
                                           (4, {"sstatus": 2 << 32 | 1 << 19}, "HS", "80009000")):
            saved = self.saved([(0, 0, self.SATP, 0, 0x80009, flags)], **numbers)
            self.assertEqual(answers_of(saved, 0, mode)["load"], load)
        saved = self.saved([(0, 0, self.SATP, 0, 0x90000, 3)])
        self.assertEqual(answers_of(saved, 8, "HS")["store"], "90000008 is not in RAM")

    def test_both_stages(self):
        """What is cached of the first stage goes on to the second, with what is cached there."""
        key = (1, HGATP, self.VSATP)
        saved = self.saved([(*key, 0x40001, 2, 3)])
        self.assertEqual(answers_of(saved, 0x40001008),
                         {"fetch": "no X", "load": "V clear", "store": "V clear"})
        lines = self.lines(saved, 0x40001008, "VS")
        for line in ("  cached   40001000 -> 2000 rw-- level 0  stale: cached 2000 rw--, table says 1000 r-x-",
                     "  guest physical 2008, as cached, second stage:", "  guest physical 1008, second stage:"):
            self.assertIn(line, lines)
        saved = self.saved([(*key, 0x40001, 2, 3)], held=[(HGATP, [(2, 0x80009, 3)])])
        self.assertEqual(self.lines(saved, 0x40001008, "VS")[-1],
                         "store: 80009008, by the cached translations of both stages")
        self.assertEqual(answers_of(saved, 0x40001008, "VU")["load"], "U clear")

    def test_stale(self):
        first = [(0, 0, self.SATP, 0x80008, 0x80008, 7 + 16), (0, 0, self.SATP, 1, 0x80001, 7),
                 (0, 0, self.SATP, 2, 0x80002, 7 + 16), (1, HGATP, self.VSATP, 0x40001, 1, 5 + 16),
                 (1, HGATP, self.VSATP, 5, 1, 1), (1, 0, self.SATP, 0, 0x80000, 7 + 16),
                 (1, 0, self.SATP | 1 << 44, 0, 0x80001, 7 + 16)]
        saved = self.saved(first)
        self.assertEqual([(each.page, words) for each, words, _ in walks.stale_first_entries(saved)], [
            (0x80008, "cached 80008000 rwx-, table says V clear"), (1, "cached of level 0, table has level 2"),
            (5, "cached 1000 r---, table says V clear"),
            (0, "cached 80001000 rwx-, table says 80000000 rwx-")])
        lines = presentation.lines_of_maps(presentation.maps_of(saved))
        for line in ("  cached 2000 -> 80002000 rwx- level 2", "  stale 5000: cached 1000 r---, table says V clear",
                     "first stage by vsatp: Sv39, ASID 1, root 80007000, hgatp 0, not present"):
            self.assertIn(line, lines)

    def test_drawing(self):
        saved = self.saved([(0, 0, self.SATP, 1, 0x80009, 1), (1, HGATP, self.VSATP, 0x40002, 1, 1)])
        drawn = minidom.parseString(drawing.svg_of(presentation.maps_of(saved)))
        kinds = [each.getAttribute("class") for each in drawn.getElementsByTagName("path")]
        self.assertEqual(kinds.count("stale"), 2)

    def test_changes(self):
        entry = (0, 0, self.SATP, 1, 0x80009, 1)
        one, other = self.saved([]), self.saved([entry, (1, 0, self.SATP, 2, 0x80009, 1)])
        self.assertEqual(state_changes.cache_changes(one, other), [("filled satp", 0x1000, 0x80009000),
                                                                  ("filled vsatp", 0x2000, 0x80009000)])
        self.assertEqual(state_changes.cache_changes(other, one)[0], ("dropped satp", 0x1000, 0x80009000))
        self.assertEqual(state_changes.differences(one, other), [])

    def test_drops(self):
        """Those for V = 1 are dropped with the spaces, and those of satp apart."""
        held = [(HGATP, [(1, 0x80009, 1)])]
        first = [(0, 0, self.SATP, 1, 0x80009, 1), (1, HGATP, self.VSATP, 2, 0x80009, 1)]

        class Run:
            def __init__(self, saved):
                self.at = lambda step: saved
        run = Run(self.saved(first, held=held))
        nested, of_satp = (saves.Saved(fences.Drop(run, 0, is_of_satp).saved.form()) for is_of_satp in (False, True))
        self.assertEqual((nested.first, nested.spaces), (first[:1], [(HGATP, [])]))
        self.assertEqual((of_satp.first, of_satp.spaces), (first[1:], held))
        self.assertTrue(fences.Drop(Run(self.saved(first[1:], held=held)), 0, True).is_empty)
        self.assertTrue(fences.Drop(Run(self.saved(first[:1])), 0).is_empty)
        self.assertFalse(fences.Drop(Run(self.saved(first[1:])), 0).is_empty)
