"""What the reader of cases makes of files, and what it refuses, each in one line; and how a difference is told."""
import os
import tempfile
import unittest
from types import ModuleType
from typing import Any
from unittest import mock

import helper

import case_files
import case_images
import case_programs
import case_runs
import command_cases
import command_runs
import gdb_cases
import gdb_talks
import test_cases
import trace_cases
import trace_runs
from case_files import Literal, Refusal, Repeated, Saved

LETTER = "    li a7, 1\n    li a0, 65\n    ecall\n    li a7, 8\n    ecall\n"
REPORT = "nesthv run k: status 0\nout guest a stopped steps 5 bytes 1\nout A\n"
WORDS = {tuple(line.strip() for line in LETTER.splitlines()): helper.LETTER}
PROGRAMS = case_runs.Programs(*map(test_cases.program, ("nesthv", "nesthv-gdb", "nesthv-trace")))


class Files(unittest.TestCase):
    """A test with a folder in which files of cases stand."""

    def setUp(self) -> None:
        folder = tempfile.TemporaryDirectory()
        self.addCleanup(folder.cleanup)
        self.folder = folder.name

    def put(self, text: str | bytes, name: str = "a.cases") -> str:
        path = os.path.join(self.folder, name)
        with open(path, "wb") as file:
            file.write(text if isinstance(text, bytes) else text.encode())
        return path

    def suite(self, text: str | bytes) -> case_files.Suite:
        return case_files.read(self.put(text), command_cases.KINDS)

    def cases(self, text: str | bytes, answers: str | None = None, reader: ModuleType = command_cases) -> list[Any]:
        """The cases of a text, with these answers."""
        suite = self.suite(text)
        if answers is not None:
            self.put(answers, "a.answers")
        return list(reader.cases(suite, case_programs.assembler_of(WORDS)))

    def refused(self, why: str, text: str | bytes, answers: str | None = None,
                reader: ModuleType = command_cases) -> None:
        with self.subTest(text), self.assertRaises(Refusal) as refusal:
            self.cases(text, answers, reader)
        self.assertEqual(str(refusal.exception), why.replace("DIR", self.folder))


class ReaderTest(Files):
    def test_refused_files(self) -> None:
        for text, why in (
                ("end\n", "a.cases:1: an `end` too many"),
                ("case a\n", "a.cases:1: no `end` to this case"),
                ("part a\nend\ncase b\ntake a\nend\nend\n", "a.cases:6: an `end` too many"),
                ("case a\ncase b\nend\n", "a.cases:2: `case b` stands before the end of the case of line 1"),
                ("case\nend\n", "a.cases:1: a case without a name"),
                ("size 3\n", "a.cases:1: `size 3` is not in a block: define, part, case or table"),
                ("case a\ntake b\nend\n", "a.cases:2: there is no part `b` before this line"),
                ("case a\ntake b\nend\npart b\nend\n", "a.cases:2: there is no part `b` before this line"),
                ("part a\nend\n", "a.cases:1: nothing takes the part `a`"),
                ("part a\nend\ncase b\ntake a\nend\npart a\nend\n", "a.cases:6: a second part `a`"),
                ("define A 1\n", "a.cases:1: not `define NAME = TERM ..`"),
                ("define A = 1\ndefine A = 2\n", "a.cases:2: `A` is defined twice"),
                ("define A = B\n", "a.cases:1: `B` is not a number, and stands for nothing"),
                ("define A = 1 2\ndefine B = A+1\n", "a.cases:2: `A` stands for 2 values, in a sum"),
                (b"case a\n\xff\n", "DIR/a.cases: byte 7 is not UTF-8")):
            self.refused(why, text)
        with self.assertRaises(Refusal) as refusal:
            case_files.read(os.path.join(self.folder, "b.cases"))
        self.assertEqual(str(refusal.exception), f"{self.folder}/b.cases: No such file or directory")

    def test_refused_lines(self) -> None:
        for line, why in (
                ("color 1", "`color` begins no line of a case"),
                ("file", "a file without a name"),
                ("size x", "`x` is not a number"),
                ("size 0x1_0000_0000_0000_0000", "`0x1_0000_0000_0000_0000` is not a number"),
                ("size -1", "`-1` is not a number"),
                ("quad SPP", "`SPP` is not a number, and stands for nothing"),
                ("word 0x1_0000_0000", "0x100000000 is not a word of 32 bits"),
                ("text a", "`a` is not a text in quotes"),
                ('text "', '`"` is not a text in quotes'),
                ('text "\\t"', "`\\t` is not an escape: \\n or \\xHH"),
                ('text "\\x4"', "`\\x` is not an escape: \\n or \\xHH"),
                ('repeat x "a"', "`x` is not a number"),
                ("noise 0", "`0` is not 2 numbers"),
                ("noise 0x8000_0000 1", "noise of a seed from 2^31 on, or of more than 2093056 bytes"),
                ("generated 0 1 4", "a generated guest of a seed from 2^31 on, of a size beyond 1 to 10000, or beyond "
                                    "0 to 3"),
                ("set 0 1", "`a.bin` has 0 bytes, and not 8"),
                ("also 3", "not `also spare N ..`"),
                ("runs 3", "`3` is not a quantum and rounds, as 10000x1"),
                ("turns 0", "`0` is not a list of turns, as [[0, 3]]"),
                ("fail read", "`` is not a number"),
                ("fail out 1", "not `fail out N after K`, `fail err N after K`, `full out` or `full err`"),
                ("full in", "`full in` is no fault that is known"),
                ("want", "`want` is no fault that is known"),
                ("tell all", "`all` is not told: trace, reads, asked, entries, taken, moves"),
                ("least moves 1", "not `least entries N` or `least taken N`"),
                ("  addi", "neither GNU as is installed nor has the file of words this program")):
            self.refused(f"a.cases:2: {why}", f"case a\n{line}\nend\n", "case a\n")
        self.refused("a.cases:3: `a.bin` has 8 bytes before it", "case a\nquad 1\nat 7\nend\n", "case a\n")

    def test_refused_tables(self) -> None:
        for line, why in (
                ("rows", "`rows` begins no line of a table: template or row"),
                ("template x", "`x` is not a text in quotes"),
                ("row 1", "a row of one column"),
                ("row 1 | a", "a row of two columns without a template that has TEXT"),
                ("row 1 | color = 1 | color = 2", "`color = 1` is not a line of the configuration")):
            answer = f"table a\n{line.removeprefix('row ')}: accepted\n"
            self.refused(f"a.cases:2: {why}", f"table a\n{line}\nend\n", answer)

    def test_refused_answers(self) -> None:
        for answers, why in (
                ("case b\n", "a.answers:1: `case a` is to stand here, the answer to line 1 of the cases"),
                ("case a\n", "a.cases:1: the file of answers ends before the answer to this line"),
                ("case a\nnesthv run k: status x\n", "a.answers:2: `x` is not a number"),
                (f"case a\n{REPORT}trace 0x1\n", "a.answers:2: tells trace, where the case tells nothing"),
                (f"case a\n{REPORT}more\n", "a.answers:5: no case has this answer"),
                ("case a", "a.answers: its last line has no end")):
            self.refused(why, "case a\nend\n", answers)

    def test_refused_rows(self) -> None:
        for line, why in (
                ("$g", "a row without an arrow ->"),
                ("raw a -> b", "`a` is not a text in quotes"),
                ("$\\q -> OK", "`\\q` is not an escape: \\n or \\xHH"),
                ("ends x", "`x` is not a number"),
                ("tell trace", "`tell` begins no line of a case")):
            self.refused(f"a.cases:2: {why}", f"case a\n{line}\nend\n", reader=gdb_cases)
        self.refused("a.cases:2: `ask` begins no line of a case", "case a\nask nesthv\nend\n", reader=trace_cases)

    def test_content(self) -> None:
        """Zeros stay small, and what a save has written is cut by its answer."""
        text = ("case a\ntext \"ab\\n\\x00\"\nsize 2_097_152\nset 8 0x4142\nask nesthv save k 0\nset 8 1\nsize 24\n"
                "ask nesthv save k 0\nend\n")
        answers = ("case a\nnesthv save k 0: status 0\nout 20 bytes, sum 0x1\n"
                   "nesthv save k 0: status 3\nerr nesthv: read fault 2\n")
        first, second = self.cases(text, answers)[0].asks
        self.assertEqual(first.files, {"a.bin": (Literal(b"ab\n\0"), Repeated(0, 4), Literal(b"BA" + bytes(6)),
                                                 Repeated(0, 2097136))})
        self.assertEqual(second.files["saved"], (Saved(0, 0, 8), Literal(b"\1" + bytes(7)), Saved(0, 16, 20),
                                                 Repeated(0, 4)))
        self.assertEqual(case_files.bytes_of(second.files["saved"], {0: b"abcdefghijklmnopqrst"}),
                         b"abcdefgh\1\0\0\0\0\0\0\0qrst\0\0\0\0")

    def test_numbers(self) -> None:
        for text, value in (("0", 0), ("0x_Ff", 255), ("1_000", 1000), ("18446744073709551615", (1 << 64) - 1),
                            ("18446744073709551616", None), ("", None), ("0x", None), ("ff", None), ("٣", None),
                            ("+1", None)):
            self.assertEqual(case_files.number(text), value, text)

    def test_runs(self) -> None:
        """Each run is made in format 2 too, where the configuration means the same there, and with spare blocks."""
        case = self.cases("case a\nalso spare 2\nruns 5x1\nend\n", f"case a\n{REPORT}")[0]
        self.assertEqual([run.name for run in case.asks[0].runs],
                         ["by 5x1", "by 5x1 in format 2", "by 5x1 with 2 spare"])
        self.assertEqual(case_files.bytes_of(case.asks[0].runs[2].configuration, {}),
                         b'format = 2\nspare = 2\nquantum = 5\nrounds = 1\n[[guest]]\nname = "a"\nimage = "a.bin"\n'
                         b"blocks = 1\nspaces = 1\nentries = 16\nconsole = 100\n")

    def test_packets(self) -> None:
        """The sums of `g` and `OK` are 67 and 9a (manual of gdb, "Overview" of the remote protocol)."""
        row = self.cases("case a\n$g -> OK\nend\n", reader=gdb_cases)[0].rows[0]
        self.assertEqual((row.coming, row.answer), (b"$g#67", b"+$OK#9a"))

    def test_generated(self) -> None:
        """The generator's first numbers from 0 on are 12345, 1406932606 and 654583775."""
        self.assertEqual(case_images.noise(0, 3), bytes((12345 >> 16 & 255, 1406932606 >> 16 & 255,
                                                         654583775 >> 16 & 255)))


class WordsTest(Files):
    def test_refused_words(self) -> None:
        self.put("00100893 li a7, 1\nli a0, 65\n", "a.words")
        with self.assertRaises(Refusal) as refusal:
            case_programs.stored(self.put(""))
        self.assertEqual(str(refusal.exception), "a.words:2: not a word and an instruction")

    def test_stored_words(self) -> None:
        """Without GNU as the words beside the cases serve."""
        suite = self.suite(f"case a\n{LETTER}end\n")
        self.put(case_programs.listing(WORDS), "a.words")
        with mock.patch.object(case_programs, "ASSEMBLERS", ()):
            assemble = case_programs.words_of(suite)
        self.assertEqual(assemble(suite.blocks[0].lines), helper.LETTER)

    @unittest.skipUnless(case_programs.assembler(), "GNU as for RISC-V is not installed")
    def test_refused_instructions(self) -> None:
        for line, why in (("li t0, 0x12345678", "`li t0, 0x12345678` has 2 words"),
                          ("addd t0, t0, t0", "GNU as says Error: unrecognized opcode `addd t0,t0,t0'")):
            with self.assertRaises(Refusal) as refusal:
                case_programs.assembled(self.suite(f"case a\n    nop\n    {line}\nend\n"))
            self.assertEqual(str(refusal.exception), f"a.cases:3: {why}")

    @unittest.skipUnless(case_programs.assembler(), "GNU as for RISC-V is not installed")
    def test_labels(self) -> None:
        """A label is known in its own program alone: jumps back by 4, and on by 0 and by 4 (Unprivileged ISA 2.5)."""
        suite = self.suite("case a\n    a: nop\n    j a\nat 8\n    a: j a\n    j b\n    b: nop\nend\n")
        self.assertEqual([words.hex() for words in case_programs.assembled(suite).values()],
                         ["130000006ff0dfff", "6f0000006f00400013000000"])


@unittest.skipUnless(all(map(os.path.exists, vars(PROGRAMS).values())), "the programs are not there")
class DifferencesTest(Files):
    """What is told where a program does something else than a case wants."""

    def told(self, runner: ModuleType, cases: list[Any]) -> list[str]:
        return [each for case in cases for each in runner.check(PROGRAMS, case).differences]

    def test_command(self) -> None:
        text = f"case a letter\n{LETTER}end\n"
        for answer, why in (
                (REPORT, None),
                (REPORT.replace("out A", "out B"), "out: `B` is wanted, `A` came"),
                (REPORT.replace("status 0", "status 4"), "status 4 is wanted, 0 came"),
                (REPORT.replace("out A", "out.. A"), "out: `A` without a newline is wanted, `A` came"),
                (REPORT + "err x\n", "err: `x` is wanted, `` without a newline came")):
            wanted = [f"a.cases:1: a letter: nesthv run k: by 10000x1: {why}"] if why else []
            self.assertEqual(self.told(command_runs, self.cases(text, f"case a letter\n{answer}")), wanted)

    def test_saves(self) -> None:
        text = f"case a\n{LETTER}runs 10x1\nask nesthv save k 0\nend\n"
        answer = "case a\nnesthv save k 0: status 0\nout 5 bytes, sum 0x1\n"
        self.assertRegex(self.told(command_runs, self.cases(text, answer))[0],
                         r"a\.cases:8: a: nesthv save k 0: by 10x1: 5 bytes with the sum 0x1 are wanted, \d+ with")

    def test_rows(self) -> None:
        """An answer that is not that of the program, and a fault of reading that is none."""
        text = "table a\nrow 1 | entries = 16 | entries = 15\nend\n"
        answer = "table a\n1 | entries = 16 | entries = 15: accepted\n"
        self.assertEqual(self.told(command_runs, self.cases(text, answer)),
                         ["a.cases:2: a: 1 | entries = 16 | entries = 15: `accepted` is wanted, "
                          "`configuration fault 4 guest 0 key entries value 15` came"])

    def test_gdb(self) -> None:
        text = f"case a\n{LETTER}$p20 -> 0000008000000000\n$? -> T06\nend\n"
        self.assertEqual(self.told(gdb_talks, self.cases(text, reader=gdb_cases)),
                         ["a.cases:1: a: line 8: $? -> T06: `+$T05#b9` came, with the sum, and `+$T06#ba` is wanted"])
        text = f"case a\n{LETTER}ends 2\nend\n"
        self.assertEqual(self.told(gdb_talks, self.cases(text, reader=gdb_cases)),
                         ["a.cases:1: a: status 2 and `` is wanted, status 0 and `` came"])

    def test_trace(self) -> None:
        text = f"case a\n{LETTER}log steps 4\n= step 4 HS 0000000080000010 00000074\nend\n"
        self.assertEqual(self.told(trace_runs, self.cases(text, reader=trace_cases)),
                         ["a.cases:1: a: `step 4 HS 0000000080000010 00000074` is wanted, "
                          "`step 4 HS 0000000080000010 00000073` came"])

    def test_sums(self) -> None:
        """The sums of no byte, of `a` and of `foobar` are of the authors' test vectors, the last by the definition."""
        for data, value in ((b"", 0xCBF29CE484222325), (b"a", 0xAF63DC4C8601EC8C), (b"foobar", 0x85944171F73967E8)):
            self.assertEqual(command_runs.fnv(data), value)
        value = command_runs.fnv(b"a")
        for _ in range(40):
            value = value * command_runs.PRIME % (1 << 64)
        self.assertEqual(command_runs.fnv(b"a" + bytes(40)), value)


if __name__ == "__main__":
    unittest.main()
