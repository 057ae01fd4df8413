"""Tests of tools/inputs."""
import os
import random
import struct

from helper import TOP, ToolTest


def record(moment, byte):
    return struct.pack("<QB", moment, byte)


class InputsTest(ToolTest):
    def made(self, text):
        """The bytes that a text makes."""
        ran = self.tool("tools/inputs", self.put("typed.txt", text), "typed.inputs")
        self.check_plain(ran, 0)
        with open(os.path.join(self.folder, "typed.inputs"), "rb") as file:
            return file.read()

    def text(self, data):
        ran = self.tool("tools/inputs", "--text", self.put("typed.inputs", data))
        self.check_plain(ran, 0)
        return ran.stdout

    def refused(self, words, text, *options):
        ran = self.tool("tools/inputs", *options, self.put("typed.txt", text), "out")
        self.check_plain(ran, 2)
        self.assertEqual(len(ran.lines), 1, ran.lines)
        self.check_said(ran, words)
        self.assertFalse(os.path.exists(os.path.join(self.folder, "out")))

    def test_texts(self):
        for text, pairs in (("", []), ("# nothing\n\n  # more\n", []),
                            ('10 "hi\\n"', [(10, 104), (11, 105), (12, 10)]),
                            ('10 "h"\n10 "i"\r\n', [(10, 104), (10, 105)]),
                            ('0x10 0x1b "[A" 13 # up', [(16, 27), (17, 91), (18, 65), (19, 13)]),
                            ('1_0 "é#" # "', [(10, 0xC3), (11, 0xA9), (12, 35)]),
                            ('0 "\\t\\r\\"\\\\\\x00\\xfF"', [(0, 9), (1, 13), (2, 34), (3, 92), (4, 0),
                                                            (5, 255)]),
                            ('4611686018427387902 "ab"', [(2**62 - 2, 97), (2**62 - 1, 98)])):
            self.assertEqual(self.made(text), b"".join(record(*pair) for pair in pairs), text)

    def test_texts_that_are_wrong(self):
        for text, words in (('x "a"', "line 1: x is not a moment"), ('"a"', "line 1: \"a\" is not a moment"),
                            ('\n-1 "a"', "line 2: -1 is not a moment"), ("10", "line 1: no byte"),
                            ('10 ""', "line 1: no byte"), ("10 256", "line 1: 256 is not a byte"),
                            ("10 1__", "line 1: 1__ is not a byte"), ('10 "a', "line 1: a text has no end"),
                            ('10 "a\\"', "line 1: a text has no end"),
                            ('10 "\\q"', "line 1: \\q is not an escape"),
                            ('10 "\\x4"', "line 1: \\x is not an escape"), ("0x 1", "line 1: 0x is not a moment"),
                            ("9" * 5000 + " 1", "is not a moment"),
                            ('5 "ab"\n# c\n5 "c"', "line 3: the moment 5 is less than 6"),
                            ('4611686018427387904 "a"', "line 1: 4611686018427387904 is not a moment"),
                            ('4611686018427387903 "ab"', "line 1: the last of 2 bytes"),
                            ("0 1\n" * 65536 + "0 1", "line 65537: this makes more than 65,536"),
                            (b"\n10 \"\xff\"", "line 2: it is not UTF-8"), (b"\0", "line 1: ")):
            self.refused(words, text)

    def test_records_that_are_wrong(self):
        good = record(7, 65)
        for data, words in ((good[:8], "record 0: it has 8 bytes"), (good * 2 + b"\0", "record 2: it has 1"),
                            (good + record(6, 0), "record 1: its moment is 6, which is less than 7"),
                            (record(2**62, 0), "record 0: its moment is 4611686018427387904"),
                            (good * 65537, "record 65536: it is one too many"),
                            (good * 65536 + b"\0", "record 65536: it is one too many")):
            self.refused(words, data, "--text")

    def test_lines_of_records(self):
        self.assertEqual(self.text(b""), b"")
        pairs = [(10, 104), (11, 10), (12, 34), (14, 0), (14, 92), (15, 255)]
        self.assertEqual(self.text(b"".join(record(*pair) for pair in pairs)),
                         b'10 "h\\n"\n12 "\\""\n14 "\\x00"\n14 "\\\\\\xff"\n')

    def test_there_and_back(self):
        chosen = random.Random(39)
        for count in (0, 1, 2, 63, 64, 65, 200, 65535, 65536):
            made, moment = [], chosen.choice([0, 1000, 2**62 - 3 * count - 1])
            for _ in range(count):
                made.append(record(moment, chosen.choice([10, 34, 92, chosen.randrange(256)])))
                moment += chosen.choice([0, 1, 1, 1, 1, 2])
            data = b"".join(made)
            self.assertEqual(self.made(self.text(data)), data)

    def test_standard_streams(self):
        ran = self.tool("tools/inputs", "-", stdin=None, input=b'10 "A"')
        self.check_plain(ran, 0)
        self.assertEqual(ran.stdout, record(10, 65))
        ran = self.tool("tools/inputs", "--text", "-", stdin=None, input=record(10, 65))
        self.assertEqual(ran.stdout, b'10 "A"\n')

    def test_files_that_fail(self):
        self.put("typed.txt", '10 "A"')
        for words, said in ((["none"], "none: No such file"), (["."], "Is a directory"),
                            (["typed.txt", "none/out"], "No such file"),
                            (["typed.txt", "./typed.txt"], "is what is read"),
                            (["/dev/zero"], "it has more than"),
                            (["--text", "/dev/zero"], "record 65536"),
                            (["typed.txt", "/dev/full"], "No space")):
            ran = self.tool("tools/inputs", *words)
            self.check_plain(ran, 2)
            self.check_said(ran, said)
        with open("/dev/full", "wb") as full:
            self.check_plain(self.tool("tools/inputs", "typed.txt", stdout=full), 2)

    def test_example(self):
        ran = self.tool("tools/inputs", f"{TOP}/examples/echo/echo.txt")
        with open(f"{TOP}/examples/echo/echo.inputs", "rb") as file:
            self.assertEqual(ran.stdout, file.read())


class InstallTest(ToolTest):
    def test_inputs(self):
        """The command that is installed does what the tool does."""
        prefix = os.path.join(self.folder, "prefix")
        self.check_plain(self.tool("tools/install", prefix), 0)
        ran = self.tool(os.path.join(prefix, "bin", "nesthv-inputs"), "-", stdin=None, input=b'10 "A"')
        self.check_plain(ran, 0)
        self.assertEqual(ran.stdout, record(10, 65))
