"""Tests of outside_data.py, and of the data of crates/outside_cases, which it makes."""
import glob
import os
import re
import tempfile
import unittest

import case_files
import outside_data
from outside_data import COMMAND, CRATE, DEBUGGER, LOG

SOUND_STORE = [0, 0, 0, b"", 0]
SOUND_STREAM = [0, 0, 0]


class Reader:
    """What a file of data says, in order."""

    def __init__(self, data):
        self.data, self.place = data, 8
        self.strings = self.listed(lambda: b"".join(self.listed(self.piece)))

    def bytes(self, length):
        self.place += length
        return self.data[self.place - length:self.place]

    def number(self):
        return int.from_bytes(self.bytes(self.bytes(1)[0]), "little")

    def string(self):
        return self.strings[self.number()]

    def listed(self, read):
        return [read() for _ in range(self.number())]

    def piece(self):
        return self.bytes(self.number()) * self.number()

    def fields(self, form):
        """A number for each `n`, and a string for each `s`."""
        return [self.string() if each == "s" else self.number() for each in form]

    def run(self):
        return (*self.fields("snnnnnsnsnns"), self.listed(lambda: tuple(self.fields("nnn"))))

    def ask(self):
        head = [*self.fields("nn"), self.listed(self.string), self.fields("nnnsn"), self.fields("nnn"),
                self.fields("nnn"), *self.fields("ss"), self.listed(self.number),
                self.listed(lambda: tuple(self.fields("nnn"))), *self.fields("sn")]
        return head, self.listed(self.run)

    def step(self):
        forms = {0: "s", 1: "s", 2: "nn", 3: "nn", 4: "nnn", 5: ""}
        kind = self.number()
        return (kind, *(self.fields(forms[kind]) if kind in forms else self.ask()))

    def cases(self):
        return self.listed(lambda: (self.string().decode(), self.listed(self.step)))


class StoredTest(unittest.TestCase):
    @classmethod
    def setUpClass(cls):
        cls.files = outside_data.files()

    def test_stored_data(self):
        """The crate has what the files of cases say, and no other data."""
        stored = {"stdin", "stdout", *(os.path.relpath(path, CRATE) for path in glob.glob(f"{CRATE}/data/*/*"))}
        self.assertEqual(stored, set(self.files))
        for name, data in self.files.items():
            with open(os.path.join(CRATE, name), "rb") as file:
                self.assertTrue(file.read() == data, f"{name} is another: run tools/tests/outside_data.py")

    def test_all_cases(self):
        """Each file has the cases and rows of its text, by their names, and nothing behind them."""
        for name, data in self.files.items():
            if name.endswith(".data"):
                reader = Reader(data)
                found = [found.split(": ", 1)[-1] if "|" in found else found for found, _ in reader.cases()]
                self.assertEqual(found, self.names_in(name.removeprefix("data/").removesuffix(".data")), name)
                self.assertEqual(reader.place, len(data), name)

    def names_in(self, stem):
        with open(os.path.join(outside_data.CASES, f"{stem}.cases"), encoding="utf-8") as file:
            return re.findall(r"^(?:case|row) (.*?) *$", file.read(), re.MULTILINE)


class CompileTest(unittest.TestCase):
    def cases(self, folder, text, answers=""):
        """The steps of the cases of a file of this text."""
        with tempfile.TemporaryDirectory() as top:
            path = os.path.join(top, "a.cases")
            for name, content in ((path, text), (os.path.join(top, "a.answers"), answers)):
                with open(name, "w", encoding="utf-8") as file:
                    file.write(content)
            return Reader(outside_data.compiled(folder, path).data).cases()

    def test_numbers(self):
        """How many bytes there are, and they in little endian. A bound is one more."""
        self.assertEqual(outside_data.number(0), b"\0")
        self.assertEqual(outside_data.number(0x1234), b"\2\x34\x12")
        self.assertEqual(outside_data.number(2 ** 64 - 1), b"\x08" + b"\xff" * 8)
        self.assertEqual(outside_data.bound(None), b"\0")
        self.assertEqual(outside_data.bound(0), b"\1\1")

    def test_sum(self):
        """Sums of the page of the function's authors (FNV-1a, 64 bits)."""
        self.assertEqual(outside_data.sum_of(b""), 0xCBF29CE484222325)
        self.assertEqual(outside_data.sum_of(b"a"), 0xAF63DC4C8601EC8C)
        self.assertEqual(outside_data.sum_of(b"foobar"), 0x85944171F73967E8)

    def test_strings(self):
        """What a long string repeats stands once."""
        long = b"x" + b"=-" * 1000 + b"y"
        self.assertEqual(list(outside_data.pieces(b"=-" * 100)), [(b"=-" * 100, 1)])
        self.assertEqual(list(outside_data.pieces(long)), [(b"x", 1), (b"=-", 1000), (b"y", 1)])
        self.assertEqual(list(outside_data.pieces(b"")), [])
        table = outside_data.Table()
        self.assertEqual([table.string("b"), table.string("a"), table.string(b"b")],
                         [outside_data.number(each) for each in (0, 1, 0)])

    def test_command(self):
        """What fails is that of the next ask alone. Moves are those of the last run, and entries of each at least."""
        text = ('case x\ntext "ab"\nruns 2x1 1x2\ntell asked moves\nleast entries 3\nfull out\nask nesthv run k\n'
                "want read 2\nask nesthv check k\nend\n")
        inside = "asked k 65537\nmoves 0\nentries 3 or more\n"
        answers = ("case x\nnesthv run k: status 4\nerr.. nest\\x41\n" + inside
                   + "nesthv check k: status 0\nout a\nout\n" + inside)
        [(name, steps)] = self.cases("command", text, answers)
        begin, append, (_, run, runs), (_, check, checks) = steps
        self.assertEqual((name, begin, append), ("x", (0, b"a.bin"), (1, b"ab")))
        self.assertEqual(run[:6], [COMMAND, 1, [b"nesthv", b"run", b"k"], SOUND_STORE, [0, 0, 1], SOUND_STREAM])
        self.assertEqual(check[:6], [COMMAND, 1, [b"nesthv", b"check", b"k"], [0, 2, 0, b"", 0], SOUND_STREAM,
                                     SOUND_STREAM])
        self.assertEqual([each[0] for each in runs],
                         [b"format = %d\nquantum = %d\nrounds = %d\n" % each
                          for each in ((1, 2, 1), (2, 2, 1), (1, 1, 2), (2, 1, 2))])
        self.assertEqual(run[10], b'[[guest]]\nname = "a"\nimage = "a.bin"\nblocks = 1\nspaces = 1\nentries = 16\n'
                                  b"console = 100\n")
        self.assertEqual(runs[0][1:], (0, 0, 0, 0, 4, b"nestA", 1, b"", 0, 0, b"asked k 65537\n", [(2, 3, 0)]))
        self.assertEqual(runs[3][-1], [(4, 0, 1), (2, 3, 0)])
        self.assertEqual(checks[0][5:11], (0, b"", 1, b"a\n\n", 3, 3))

    def test_save(self):
        """A file that a save has written is told by that save."""
        text = "case x\nruns 1x1\nask nesthv save k 0\nsize 2000\nask nesthv run k\nend\n"
        answers = ("case x\nnesthv save k 0: status 0\nout 3000 bytes, sum 0x10\n"
                   "nesthv run k: status 0\nout a\n")
        [(_, [_, (_, save, runs), begin, saved, _])] = self.cases("command", text, answers)
        self.assertEqual((save[11], begin, saved), (1, (0, b"saved"), (4, 0, 0, 2001)))
        self.assertEqual([run[7] for run in runs], [0, 0])
        self.assertEqual(runs[0][-1], [(6, 3000, 3001), (7, 16, 17)])

    def test_rows(self):
        """A row is asked of three commands where it is refused, and its check in format 2 too."""
        text = "table t\nrow 1 | quantum = 10000 | quantum = 0\nrow 1 | rounds = 1 | rounds = 2\nend\n"
        answers = ("table t\n1 | quantum = 10000 | quantum = 0: configuration fault 3 key quantum value 0\n"
                   "1 | rounds = 1 | rounds = 2: accepted\n")
        [(name, [complete, *asks]), (_, [_, (_, _, accepted)])] = self.cases("command", text, answers)
        self.assertEqual((name, complete), ("t: 1 | quantum = 10000 | quantum = 0", (5,)))
        self.assertEqual([ask[2][1] for _, ask, _ in asks], [b"check", b"run", b"replay"])
        self.assertEqual([len(runs) for *_, runs in asks], [2, 1, 1])
        line = b"nesthv: configuration fault 3 key quantum value 0\n"
        self.assertEqual(asks[0][2][1][5:], (2, line, 1, b"", 0, 0, b"", [(0, 1, 2)]))
        self.assertEqual([(run[5], run[7]) for run in accepted], [(0, 0), (0, 0)])

    def test_talk(self):
        """A packet of five bytes is answered by `+` and one of five, and `raw` of two bytes by one."""
        text = 'case x\n$? -> a\nraw "+x" -> "y"\ncut\nend\n'
        [(_, [_, (_, ask, runs)])] = self.cases("gdb", text)
        self.assertEqual(ask[0], DEBUGGER)
        self.assertEqual(ask[7:10], [b"$?#3f+x", [5, 7], [(0, 0, 0), (5, 6, 6), (6, 6, 7), (7, 7, 7)]])
        found = [(*run[1:6], run[9], run[10]) for run in runs]
        self.assertEqual(found[:2], [(0, 0, 0, 0, 0, 7, 7), (0, 1, 0, 0, 0, 7, 7)])
        self.assertEqual(found[2:4], [(3, 0, 1, 0, 3, 0, 0), (7, 0, 1, 0, 3, 6, 7)])
        self.assertEqual(found[4:6], [(0, 0, 0, 4, 4, 3, 3), (0, 0, 0, 7, 4, 6, 6)])
        self.assertEqual(found[6:], [(place + 1, 0, 0, 0, 0, *least_and_most) for place, least_and_most
                                     in enumerate([(0, 0)] * 5 + [(6, 6), (6, 7)])])

    def test_gdb_leaves(self):
        """What comes behind the row by which gdb leaves is not read, and no read behind it fails."""
        text = 'case x\n$D -> OK\nleaves\nraw "more" -> ""\ncut\nend\n'
        [(_, [_, (_, _, runs)])] = self.cases("gdb", text)
        self.assertEqual(runs[0][-1], [(5, 5, 6)])
        self.assertEqual([run[5] for run in runs if run[3]], [3, 0])

    def test_log(self):
        """A log that is cut has a run for each byte."""
        text = "case x\nlog steps 1\n= ab\ncut\nend\ncase y\nwant words\nends 5 nesthv: out of memory\nend\n"
        (_, [_, (_, ask, runs)]), (_, [_, (_, wanting, ends)]) = self.cases("trace", text)
        self.assertEqual(ask[:3], [LOG, 1, [b"nesthv-trace", b"k", b"0", b"steps", b"1"]])
        self.assertEqual([(*run[4:7], *run[8:11]) for run in runs],
                         [(0, 0, b"", b"ab\n", 3, 3)] + [(room + 1, 4, b"nesthv: write fault\n", b"ab\n", room, room)
                                                         for room in range(3)])
        self.assertEqual((wanting[1], ends[0][5:7]), (0, (5, b"nesthv: out of memory\n")))

    def test_noise(self):
        """Noise is told by its seed, and what is no noise from one of the seeds as it is."""
        noise = outside_data.case_images.noise(9, 5000)
        self.assertEqual(outside_data.seed_of(noise), 9)
        self.assertIsNone(outside_data.seed_of(noise[:-1] + b"?"))
        self.assertIsNone(outside_data.seed_of(noise[:100]))

    def test_refusal(self):
        """A file of cases with a fault is refused by its reader."""
        with self.assertRaises(case_files.Refusal):
            self.cases("gdb", "case x\nnothing\nend\n")
