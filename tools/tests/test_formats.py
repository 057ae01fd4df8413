"""Tests of what the tools say of format 2: input files, weights, and their faults."""
import os
import random
import struct
import subprocess

from helper import LOOP, PROGRAM, TOOLS, ToolTest
from nesthv_tools import faults

FORMAT_2 = "format = 2\nquantum = 1000\nrounds = 1\n"
# li a7, 2; ecall; li a7, 1; ecall; li a7, 8; ecall: puts the first input
READ = struct.pack("<6I", 0x00200893, 0x73, 0x00100893, 0x73, 0x00800893, 0x73)


def record(moment, byte):
    return struct.pack("<QB", moment, byte)


class FormatTest(ToolTest):
    """What `tools/run` says of format 2."""

    def said(self, status, words, front=FORMAT_2, **keys):
        ran = self.tool("tools/run", self.configure(front=front, **keys))
        self.check_plain(ran, status)
        self.check_said(ran, words)
        return ran

    def test_input_file_beside_the_configuration(self):
        self.put("b/read.bin", READ)
        self.put("b/in", record(0, 0x42))
        path = self.configure("b/b.toml", FORMAT_2, image='"read.bin"', input='"in"')
        ran = self.tool("tools/run", path)
        self.check_plain(ran, 0)
        self.assertEqual(ran.stdout, b"guest a stopped steps 6 bytes 1\nB\n")
        self.put("b/b.report", ran.stdout)
        self.check_plain(self.tool("tools/batch", "b"), 0)

    def test_read_faults_count_input_files(self):
        path = self.configure(front=FORMAT_2, input='"none.in"')
        ran = self.tool("tools/run", path)
        self.check_plain(ran, 3)
        self.check_said(ran, "nesthv: read fault 3")
        self.check_said(ran, "the input file")
        self.check_said(ran, "none.in of guest 0 cannot be read: there is no such file")
        self.put("none.in", b"")
        ran = self.tool("tools/run", "replay", path, "none")
        self.check_said(ran, "nesthv: read fault 4")
        self.check_said(ran, "the stored report")

    def test_input_file_that_is_a_folder(self):
        ran = self.said(3, "of guest 0 cannot be read: it is a folder", input='"."')
        self.check_said(ran, "nesthv: read fault 3")

    def test_records(self):
        name, good = "in", record(7, 65)
        for data, number, words in ((good + b"\0", 1, "it has 1 bytes, and a record has 9"),
                                    (good + record(6, 0), 1, "its moment is 6, which is less than 7"),
                                    (record(2**62, 0), 0, "and moments are below 2^62"),
                                    (good * 65537, 65536, "it is one too many: a file has at most 65,536")):
            self.put(name, data)
            ran = self.said(2, words, input=f'"{name}"')
            self.check_said(ran, f"nesthv: configuration fault 12 guest 0 value {number}")
            self.check_said(ran, f"record {number} of the input file")
            self.check_unsaid(ran, "is a text")
        self.put(name, '10 "hello\\n"\n')
        self.said(2, "the file is a text: `tools/inputs` makes records of it", input=f'"{name}"')

    def test_weights(self):
        front = FORMAT_2.replace("1000", "4294967296")
        ran = self.said(2, "lower one of the two", front=front, weight=2)
        self.check_said(ran, "nesthv: configuration fault 13 guest 0 value 8589934592")
        self.check_said(ran, "`weight` of guest 0 ('a') is 2 and `quantum` is 4294967296")
        self.said(2, "`weight` of guest 0 ('a') is 0: it must be an integer from 1 to 1,000", weight=0)
        self.said(2, "has `wieght`, and its keys are name, image", wieght=2)

    def check_explained(self, line, words, head, **keys):
        """Checks what is said of a line of the program, for one guest below these lines of a file."""
        path = self.configure(front=head + "quantum = 1\nrounds = 1\n", **keys)
        self.assertIn(words, faults.explained(line, path, faults.text_of(path)))

    def test_spare_blocks(self):
        fault, range_ = "nesthv: configuration fault ", "it must be an integer from 0 to 32"
        for head, line, words in (
                ("format = 2\nspare = 33\n", "4 key spare value 33", "`spare` is 33: " + range_),
                ("format = 2\nspare = -1\n", "4 key spare value -1", "`spare` is -1: " + range_),
                ('format = 2\nspare = "1"\n', "4 key spare", "`spare` is '1': " + range_),
                ("format = 1\nspare = 1\n", "8", "the file has `spare` (a key of `format = 2`)"),
                ("format = 2\nspair = 1\n", "8", "the file has `spair`, and its keys are format"),
                ("format = 2\nspare = 32\n", "11 value 131073", "the guests and the spare blocks need 131073"),
                ("format = 2\nspare = 32\n", "11 value 131073", "By guest: 0: 569; `spare = 32`: 16384"),
                ("format = 2\n", "11 value 131073", "the guests need 131073 frames")):
            self.check_explained(fault + line, words, head)

    def test_device_page(self):
        fault, two = "nesthv: configuration fault ", "format = 2\n"
        range_ = ": it must be an integer, 0 or 1"
        resumed = {key: None for key in ("image", "blocks", "spaces", "entries", "console")}
        resumed["resume"] = '"s"'
        for head, keys, line, words in (
                (two, {"device": 2}, "4 guest 0 key device value 2", "`device` of guest 0 ('a') is 2"
                 + range_),
                (two, {"device": -1}, "4 guest 0 key device value -1", "is -1" + range_),
                (two, {"device": "true"}, "4 guest 0 key device", "is true" + range_),
                (two, {"device": '"1"'}, "4 guest 0 key device", "is '1'" + range_),
                (two, {"devise": 1}, "8 guest 0", "has `devise`, and its keys are name, image"),
                (two, {"device": 1}, "8 guest 0", "each key of guest 0 ('a') is one that it may have"),
                (two, resumed | {"device": 0}, "8 guest 0", "`device` (the file that `resume` names tells"),
                (two + "device = 1\n", {}, "8", "the file has `device`, and its keys are"),
                ("format = 1\n", {"device": 0}, "8 guest 0", "`device` (a key of `format = 2`)")):
            self.check_explained(fault + line, words, head, **keys)

    def test_spare_blocks_of_a_guest(self):
        self.said(2, "keys of the file stand before the first `[[guest]]`", spare=1)

    def test_words_of_the_other_format(self):
        front = "format = 1\nquantum = 1000\nrounds = 1\n"
        self.said(2, "`weight` (a key of `format = 2`)", front=front, weight=2)
        self.said(2, "the name of a file is of `format = 2`", front=front, input='"in"')
        self.said(2, "pairs are of `format = 1`", input="[[1, 2]]")
        self.said(2, "`format` must be 1 or 2", front=front.replace("format = 1", "format = 3"))

    def test_progress(self):
        self.put("b.bin", LOOP)
        self.put("in", record(5, 1))
        path = self.configure(front="format = 2\nquantum = 1000000\nrounds = 5\n", image='"b.bin"', weight=4,
                              input='"in"')
        ran = self.tool("tools/run", "--progress", path)
        self.assertEqual(ran.stdout, b"guest a running steps 20000000 bytes 0\n\n")
        self.check_said(ran, "after 10,000,000 steps of each guest: a running, 0 bytes")

    def test_pipe_as_input_file(self):
        self.put("a.bin", READ)
        path = self.configure(front=FORMAT_2, input='"/dev/stdin"')
        ran = self.tool("tools/run", "--progress", path, stdin=None, input=record(0, 0x42))
        self.check_plain(ran, 0)
        self.assertEqual(ran.stdout, b"guest a stopped steps 6 bytes 1\nB\n")
        self.check_said(ran, "no --progress")

    def test_changed_configurations(self):
        """Whatever the program takes or refuses, the tool explains it without a traceback."""
        chosen = random.Random(39)
        self.put("in", record(7, 65) + b"\0")
        with open(self.configure(front=FORMAT_2, weight=3, input='"in"'), "rb") as file:
            whole = file.read()
        words = [b"=", b"[[guest]]\n", b"{}", b"-1", b'"a"', b"\xff", b"\n", b"1.5", b"true", b"[[1, 2]]",
                 b"weight = 0\n", b'input = "in"\n', b"4294967296", b"format = 1\n", b"turns = []\n",
                 b"spare = 1\n", b"spare = 33\n"]
        for _ in range(200):
            text = bytearray(whole)
            for _ in range(chosen.randint(1, 3)):
                start = chosen.randrange(len(text))
                text[start:start + chosen.choice([0, 1, 3, 10])] = chosen.choice(words)
            path = self.put("b.toml", bytes(text))
            ran = subprocess.run([PROGRAM, "check", path], cwd=self.folder, capture_output=True)
            meaning = faults.explained(ran.stderr.decode().strip(), path, faults.text_of(path))
            self.assertEqual(bool(meaning), ran.returncode != 0, bytes(text))


class QemuTest(ToolTest):
    """By a script that stands for QEMU."""

    QEMU = {"QEMU": os.path.join(TOOLS, "tests", "fake-qemu")}

    def test_device_page(self):
        ran = self.tool("tools/qemu-run", self.configure(front=FORMAT_2, device=1), variables=self.QEMU)
        self.check_plain(ran, 2)
        self.check_said(ran, "has the device page, and QEMU has another device there")
        path = self.configure(front=FORMAT_2, device=0)
        self.check_plain(self.tool("tools/qemu-run", path, variables=self.QEMU), 0)

    def test_inputs_of_a_file(self):
        self.put("in", record(5, 1))
        path = self.configure(front=FORMAT_2, input='"in"')
        self.check_plain(self.tool("tools/qemu-run", path, variables=self.QEMU), 0)
        self.put("in", b"\0")
        ran = self.tool("tools/qemu-run", path, variables=self.QEMU)
        self.check_plain(ran, 2)
        self.check_said(ran, "the inputs of guest 0")
        os.remove(os.path.join(self.folder, "in"))
        ran = self.tool("tools/qemu-run", path, variables=self.QEMU)
        self.check_plain(ran, 2)
        self.check_said(ran, "in cannot be read: there is no such file")
