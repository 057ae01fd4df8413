"""Tests of what all tools have in common, and of tools/qemu-run."""
import ast
import os
import shutil
import subprocess
import sys

from unittest import mock

from elf_files import elf
from helper import LETTER, LOOP, TOOLS, TOP, ToolTest
from nesthv_tools import programs, qemu

PYTHON = [name for name in sorted(os.listdir(TOOLS)) if os.access(os.path.join(TOOLS, name), os.X_OK)
          and os.path.isfile(os.path.join(TOOLS, name)) and name != "test"]


class CommonTest(ToolTest):
    def test_help(self):
        for name in PYTHON:
            ran = self.tool(f"tools/{name}", "--help")
            self.check_plain(ran, 0)
            self.assertTrue(ran.stdout.decode().startswith(f"usage: tools/{name}"))

    def test_help_of_scripts(self):
        for name in ("examples/run", "examples/check", "examples/build", "examples/words", "examples/u-boot/make",
                     "examples/u-boot/check", "examples/linux/check", "bench/steps.sh",
                     "bench/folded.sh", "bench/compare.sh", "bench/work.sh", "bench/save.sh", "bench/trace.sh",
                     "bench/hypervisors.py", "bench/refused.sh", "bench/hostile-outside.sh", "conformance/build",
                     "conformance/run", "dist/make", "dist/check", "dist/sources", "dist/package", "docs/book", "docs/clauses",
                     "docs/commands", "docs/names", "tools/test"):
            ran = self.tool(name, "--help")
            self.check_plain(ran, 0)
            self.assertIn(b"usage:", ran.stdout.lower())

    def test_option_that_there_is_not(self):
        for name in PYTHON:
            self.check_plain(self.tool(f"tools/{name}", "--option-that-there-is-not"), 2)

    def test_older_python(self):
        """Python 3.6 can read what runs before the version is tested, and gets one line."""
        for name in [*PYTHON, "nesthv_tools/__init__.py"]:
            with open(os.path.join(TOOLS, name), encoding="utf-8") as file:
                ast.parse(file.read(), feature_version=(3, 6))
        script = f"import sys; sys.version_info = (3, 6, 0); sys.path.insert(0, {TOOLS!r}); import nesthv_tools"
        ran = self.tool(sys.executable, "-c", script)
        self.check_plain(ran, 1)
        self.assertEqual(len(ran.lines), 1)
        self.check_said(ran, "this needs Python 3.11 or later")

    def test_isolated_python(self):
        for name in PYTHON:
            self.check_plain(self.tool(sys.executable, "-I", f"{TOOLS}/{name}", "--help"), 0)

    def test_scripts_by_older_python(self):
        """Where an older Python is there, each script ends with one line."""
        older = next(filter(None, map(shutil.which, ("python3.8", "python3.9", "python3.10"))), None)
        if not older or subprocess.run([older, "-c", ""], capture_output=True).returncode:
            self.skipTest("there is no older Python")
        for name in [*(f"tools/{name}" for name in PYTHON), "docs/clauses", "docs/commands", "examples/words",
                     "conformance/run", "bench/hypervisors.py"]:
            ran = self.tool(older, f"{TOP}/{name}")
            self.assertEqual((ran.returncode, len(ran.lines)), (1, 1), (name, ran.lines))

    def test_other_programs(self):
        """Another program is in the folder of the one that NESTHV names, or where rt has built both."""
        script = b"#!/bin/sh\n"
        for program, other in (("a/nesthv", "a/nesthv-gdb"), ("b/nesthv", "b/nesthv_gdb"),
                               ("crates/nesthv/out/nesthv", "crates/nesthv_gdb/out/nesthv_gdb")):
            program, other = (self.put(path, script) for path in (program, other))
            for path in (program, other):
                os.chmod(path, 0o755)
            with mock.patch.dict(os.environ, {"NESTHV": program}):
                self.assertTrue(os.path.samefile(programs.companion("nesthv-gdb"), other))
                self.assertEqual(programs.companion("nesthv-gdb", program), program)
                self.assertIsNone(programs.companion("nesthv-gdb", "none"))

    def test_output_that_is_lost(self):
        """A script whose output cannot be written says so, and does not end with 0."""
        for words in ("docs/commands --help", "docs/clauses --help", "conformance/run --help",
                      "conformance/run --first 0 --lines clock", "tools/saved --help", "tools/program"):
            for place in (">&-", ">/dev/full"):
                ran = self.tool("/bin/sh", "-c", f"cd {TOP} && {words} {place}")
                self.check_plain(ran, 2)
                self.check_said(ran, "standard output" if "--help" in words else "could not be written")


class QemuVersionTest(ToolTest):
    """By a script that stands for QEMU 10."""

    QEMU = {"QEMU": os.path.join(TOOLS, "tests", "fake-qemu")}

    def test_output_that_is_lost(self):
        """QEMU gets no output that is closed, and does not tell of one that is full."""
        for place in (">&-", ">/dev/full"):
            ran = self.tool("/bin/sh", "-c", f"{TOOLS}/qemu-run a.bin {place}", variables=self.QEMU)
            self.check_plain(ran, 2)
            self.check_said(ran, "standard output: ")

    def test_words_of_versions(self):
        """What QEMU knows is named off, by its own name; Svade, where it is known, is on."""
        for known, words in (((), "c=false,d=false,f=false"), (("c", "f", "h", "sstc"), "c=false,f=false,sstc=false"),
                             (("Zfa", "Zawrs"), "Zfa=false,Zawrs=false"), (("zfa", "Zfa"), "zfa=false"),
                             (("svadu", "svade"), "svadu=false,svade=true")):
            self.assertEqual(qemu.cpu_words(known), "rv64,h=true," + words)

    def test_guest_that_prints_for_ever(self):
        """It is ended in time, and what it has printed is told."""
        ran = self.tool("tools/qemu-run", "--cpu", "endless", "--seconds", "0.2", self.configure(console=3),
                        variables=self.QEMU)
        self.check_plain(ran, 10)
        self.check_said(ran, "not stopped after 0.2 seconds, and its console of 3 bytes is full")

    def test_version_10(self):
        ran = self.tool("tools/qemu-run", self.configure(), variables=self.QEMU)
        self.check_plain(ran, 0)
        self.assertEqual(ran.stdout, b"A")

    def test_run_that_fails(self):
        ran = self.tool("tools/qemu-run", "--cpu", "rv64", self.configure(), variables=self.QEMU)
        self.check_plain(ran, 11)
        self.check_said(ran, "failed: status 1")

    def test_failed_runs_are_no_known_differences(self):
        failing = self.put("qemu", "#!/bin/sh\necho version 10.0\nexit 1\n")
        os.chmod(failing, 0o755)
        ran = self.tool("tools/qemu-compare", variables={"QEMU": failing})
        self.check_plain(ran, 1)
        *guests, last = ran.stdout.decode().splitlines()
        self.assertTrue(guests)
        for line in guests:
            self.assertIn(": the run failed, with status ", line)
        self.assertEqual(last, f"same=0 known=0 wrong=0 failed={len(guests)}")

    def test_no_qemu(self):
        ran = self.tool("tools/qemu-run", self.configure(), variables={"QEMU": "none"})
        self.check_plain(ran, 2)
        self.check_said(ran, "from Debian 13 on qemu-system-riscv")


class QemuTest(ToolTest):
    def setUp(self):
        super().setUp()
        if not shutil.which("qemu-system-riscv64"):
            self.skipTest("qemu-system-riscv64 is not installed")

    def test_console(self):
        ran = self.tool("tools/qemu-run", self.configure())
        self.check_plain(ran, 0)
        self.assertEqual(ran.stdout, b"A")

    def test_image_with_a_comma_in_its_name(self):
        self.assertEqual(self.tool("tools/qemu-run", self.put("b,c=d.bin", LETTER)).stdout, b"A")

    def test_elf_file(self):
        self.assertEqual(self.tool("tools/qemu-run", self.put("b.elf", elf())).stdout, b"A")
        for words, said in (([self.put("c.elf", elf(flags=1))], "c.elf: it has compressed instructions"),
                            ([self.configure(image='"b.elf"')], "the image b.elf is an ELF file")):
            ran = self.tool("tools/qemu-run", *words)
            self.check_plain(ran, 2)
            self.check_said(ran, said)

    def test_guest_that_does_not_stop(self):
        self.put("loop.bin", LOOP)
        ran = self.tool("tools/qemu-run", "--seconds", "0.5", "loop.bin")
        self.check_plain(ran, 10)
        self.check_said(ran, "not stopped after 0.5 seconds")

    def test_bad_options(self):
        path = self.configure()
        for words, said in ((["--guest", "5", path], "there is no guest 5"),
                            (["--guest", "-1", path], "is not an integer"),
                            (["--seconds", "0", path], "is not a time"), (["none.toml"], "there is no such file"),
                            (["none.bin"], "there is no such file"), (["."], "it is a folder")):
            ran = self.tool("tools/qemu-run", *words)
            self.check_plain(ran, 2)
            self.check_said(ran, said)

    def test_configurations_with_a_fault(self):
        for keys in ({"image": None}, {"image": "1"}, {"blocks": "true"}, {"input": "[[1]]"},
                     {"console": None}):
            ran = self.tool("tools/qemu-run", self.configure(**keys))
            self.check_plain(ran, 2)
            self.check_said(ran, "guest 0 of")
        self.check_plain(self.tool("tools/qemu-run", self.put("b.toml", "=")), 2)
