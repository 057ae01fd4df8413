"""Tests of examples/linux/make and examples/u-boot/make, up to where they would build, of their `check`, with
a small guest in place of Linux and U-Boot, and of bench/linux.sh and docs/commands --linux where there is no
Linux."""
import os
import shutil
import struct

from helper import LETTER, LETTER_REPORT, TOP, ToolTest

VERSION = "linux-source-6.1 6.1.1-1 12.2.0\n"
STORED = "linux-6.1.1-1-12.2.0.report"


def printing(text):
    """An image that prints a text and stops: li a7, 1, for each byte li a0 and ecall, then li a7, 8."""
    words = [0x00100893]
    for byte in text.encode():
        words += [byte << 20 | 0x513, 0x73]
    return struct.pack(f"<{len(words) + 2}I", *words, 0x00800893, 0x73)


class BuildTest(ToolTest):
    """What the tests of both scripts share that build a guest."""

    SCRIPT = None

    def refused(self, *words, **options):
        ran = self.tool(self.SCRIPT, *words, **options)
        self.check_plain(ran, 2)
        self.assertEqual(len(ran.lines), 1, ran.lines)
        self.assertTrue(ran.lines[0].startswith(f"{self.SCRIPT}: "), ran.lines)
        return ran.lines[0]

    def programs(self, **scripts):
        """The variables by which these scripts stand for programs, and others for those that build Linux."""
        for name in ("gcc", "make", "flex", "bison", "bc", "xz", "fake-gcc", "fake-objcopy"):
            scripts.setdefault(name, "exit 0")
        for name, script in scripts.items():
            os.chmod(self.put(f"programs/{name}", f"#!/bin/sh\n{script}\n"), 0o755)
        return {"PATH": os.path.join(self.folder, "programs") + ":" + os.environ["PATH"], "CROSS": "fake-"}


class MakeTest(BuildTest):
    SCRIPT = "examples/linux/make"

    def test_words(self):
        self.assertIn(b"Usage: examples/linux/make", self.tool("examples/linux/make", "--help").stdout)
        for words, said in ((["--none"], "--none is not an option"), (["a", "b"], "it takes one folder"),
                            (["--jobs", "0"], "0 is not a number of compilers"),
                            (["--linux", "six"], "six is not a version"),
                            (["--source"], "--source needs a word")):
            self.assertIn(said, self.refused(*words))

    def test_no_compiler(self):
        said = self.refused("out", variables={"CROSS": "none-"})
        self.assertIn("there is no none-gcc none-objcopy", said)
        self.assertIn("apt-get install gcc-riscv64-linux-gnu", said)

    def test_folders(self):
        variables = self.programs()
        self.assertIn("has a space or a comma in its name", self.refused("a b", variables=variables))
        self.put("file", "")
        self.assertIn("cannot be made", self.refused("file/out", variables=variables))
        self.assertIn("cannot find the file", self.refused("--source", "none", "out", variables=variables))

    def test_no_space(self):
        variables = self.programs(df="echo head; echo disk 20 10 10 50% /")
        said = self.refused("--source", self.put("linux.tar.xz", "x"), "out", variables=variables)
        self.assertIn("has 10 MB of free disk, and 3000 are needed", said)

    def test_no_package(self):
        variables = self.programs(**{"apt-get": "echo 'E: no such package' >&2; exit 100"})
        ran = self.tool("examples/linux/make", "--linux", "6.99", "out", variables=variables)
        self.check_plain(ran, 2)
        self.check_said(ran, "E: no such package")
        self.check_said(ran, "to download linux-source-6.99, which apt has to know (apt-get update), failed")


class UBootTest(BuildTest):
    SCRIPT = "examples/u-boot/make"

    def test_words(self):
        for words, said in ((["--none"], "--none is not an option"), (["a", "b"], "it takes one folder"),
                            (["--jobs", "0"], "0 is not a number of compilers"),
                            (["--source"], "--source needs a word")):
            self.assertIn(said, self.refused(*words))

    def test_no_compiler(self):
        said = self.refused("out", variables={**self.programs(), "CROSS": "none-"})
        self.assertIn("there is no none-gcc", said)
        self.assertIn("libssl-dev", said)

    def test_folders(self):
        variables = self.programs()
        self.assertIn("has a space or a comma in its name", self.refused("a b", variables=variables))
        self.assertIn("cannot find the file", self.refused("--source", "none", "out", variables=variables))

    def test_no_space(self):
        variables = self.programs(df="echo head; echo disk 20 10 10 50% /")
        said = self.refused("--source", self.put("u-boot.tar.xz", "x"), "out", variables=variables)
        self.assertIn("has 10 MB of free disk, and 500 are needed", said)

    def test_file_that_is_not_a_tarball(self):
        ran = self.tool(self.SCRIPT, "--source", self.put("u-boot.tar.xz", "x"), "out",
                        variables=self.programs())
        self.check_plain(ran, 2)
        self.check_said(ran, "to unpack")


class CheckTest(ToolTest):
    """A copy of the scripts in a folder of its own, with their stored reports."""

    def setUp(self):
        super().setUp()
        for script in ("examples/linux/check", "examples/u-boot/check"):
            shutil.copy(os.path.join(TOP, script), self.put(script, ""))
        for folder in ("tools", "docs"):
            os.symlink(os.path.join(TOP, folder), os.path.join(self.folder, folder))
        self.configure("built/linux.toml", image='"a.bin"', console=1000)
        self.put("built/a.bin", LETTER)
        self.put("built/linux.version", VERSION)

    def check(self, status, *words, script="linux"):
        ran = self.tool(os.path.join(self.folder, "examples", script, "check"), *words)
        self.check_plain(ran, status)
        return ran.stdout.decode(), ran.lines

    def test_as_stored(self):
        self.put(f"examples/linux/{STORED}", LETTER_REPORT)
        self.assertEqual(self.check(0, "built")[0], "linux of linux-source-6.1 6.1.1-1 by gcc 12.2.0: as "
                         "stored, guest a stopped steps 5 bytes 1\n")

    def test_other_report(self):
        self.put(f"examples/linux/{STORED}", LETTER_REPORT.replace(b"A", b"B"))
        said = self.check(1, "built")[0]
        self.assertIn(f"differs from {STORED}", said)
        self.assertIn("> A", said)

    def test_other_version(self):
        """The numbers that depend on the version are not compared."""
        text = "first process: Linux {} riscv64\n  {} (init) R 0\ntimer: 3 signals in {} ms\nend {}\n"
        stored = "linux-6.1.0-1-12.2.0.report"
        self.put(f"examples/linux/{stored}", "boots\n" + text.format("6.1.0", 1, 60, "a") + "\n")
        for shown, status, said in (("A", 1, "Linux has not come to its first process"),
                                    (text.format("6.1.1", 7, 70, "a"), 0, f"it is as in {stored}"),
                                    (text.format("6.1.1", 7, 70, "b"), 1, "it differs from that in")):
            self.put("built/a.bin", printing(shown))
            lines = self.check(status, "built")[0]
            self.assertIn("other versions make other steps", lines)
            self.assertIn(said, lines)

    def test_u_boot(self):
        self.configure("u-boot/u-boot.toml", image='"a.bin"', console=1000)
        self.put("u-boot/u-boot.version", "2023.01 12.2.0\n")
        self.put("u-boot/a.bin", LETTER)
        self.assertIn("has not taken the last command", self.check(1, "u-boot", script="u-boot")[0])
        for stored, status, said in ((LETTER_REPORT, 0, "as stored, guest a stopped"),
                                     (LETTER_REPORT.replace(b"A", b"B"), 1, "> A")):
            self.put("examples/u-boot/u-boot-2023.01-12.2.0.report", stored)
            self.assertIn(said, self.check(status, "u-boot", script="u-boot")[0])
        self.assertIn("examples/u-boot/make builds it", self.check(2, "none", script="u-boot")[1][0])
        self.put("u-boot/u-boot.version", "2023.01 14.2.0\n")
        self.put("u-boot/a.bin", printing("poweroff ...\n"))
        self.assertIn("no report is stored of it", self.check(0, "u-boot", script="u-boot")[0])

    def test_nothing_there(self):
        self.assertIn("examples/linux/make builds it", self.check(2, "none")[1][0])
        self.assertIn("has no Linux with KVM", self.check(2, "--guide", "none")[1][0])
        self.assertIn("none has no Linux", self.tool("docs/commands", "--linux", "none").lines[-1])
        self.assertIn("no report of linux is stored", self.check(2, "built")[1][-1])
        self.assertIn("is not an option", self.check(2, "--none")[1][0])
        ran = self.tool("bench/linux.sh", "none")
        self.check_plain(ran, 2)
        self.check_said(ran, "examples/linux/make builds it")
