"""Tests of tools/batch: outcomes, reports that are kept, forms of output, and how it ends."""
import json
import os
import signal
import subprocess
from xml.etree import ElementTree

from elf_files import RAM, elf
from helper import LETTER, LETTER_REPORT, LIMIT, LOOP, TOOLS, ToolTest, take_signals

ENDLESS = "format = 1\nquantum = 4294967296\nrounds = 1000\n"

PARALLEL = """#!/usr/bin/env python3
import shlex, subprocess, sys
print(*sys.argv[1:-1], file=sys.stderr)
for name in filter(None, sys.stdin.read().split(chr(0))):
    subprocess.run(sys.argv[-1].replace("{}", shlex.quote(name)), shell=True)
"""


class BatchTest(ToolTest):
    def setUp(self):
        super().setUp()
        self.configure("kept/a.toml")
        self.put("kept/a.bin", LETTER)
        self.put("kept/a.report", LETTER_REPORT)
        self.put("kept/loop.bin", LOOP)

    def batch(self, *words, **options):
        return self.tool("tools/batch", *words, "kept", **options)

    def exists(self, name):
        return os.path.exists(os.path.join(self.folder, "kept", name))

    def lines_of(self, ran, status):
        self.check_plain(ran, status)
        return ran.stdout.decode().splitlines()

    def test_same(self):
        self.assertEqual(self.lines_of(self.batch(), 0), ["PASS a.toml", "# 1 of 1 passed"])

    def test_difference(self):
        self.put("kept/a.report", LETTER_REPORT.replace(b"\nA", b"\nB").replace(b"steps 5", b"steps 6"))
        self.assertEqual(self.lines_of(self.batch(), 1), [
            "FAIL a.toml the report differs from the stored one at 22",
            "# guest a: steps 6 -> 5, console byte 0: 'B' -> 'A'", "# 0 of 1 passed"])
        with open(os.path.join(self.folder, "kept/a.report.now"), "rb") as file:
            self.assertEqual(file.read(), LETTER_REPORT)
        self.assertEqual(self.lines_of(self.batch("--store"), 0), ["PASS a.toml stored", "# 1 of 1 passed"])
        self.assertFalse(self.exists("a.report.now"))
        self.assertEqual(self.lines_of(self.batch(), 0)[0], "PASS a.toml")

    def test_elf_files(self):
        """ELF files and images in place of a folder, with the options of tools/run."""
        self.put("one.elf", elf())
        self.put("loop.elf", elf((RAM, LOOP)))
        self.put("one.report", LETTER_REPORT.replace(b"guest a", b"guest one"))
        ran = self.tool("tools/batch", "one.elf", "a.bin", "loop.elf", "--steps", "99")
        self.assertEqual(self.lines_of(ran, 1), [
            "PASS one.elf", "PASS a.bin", "FAIL loop.elf not every guest has stopped", "# guest loop is running",
            "# 2 of 3 passed"])
        for words, said in ((["none.elf"], "none.elf: there is no such file"),
                            (["kept", "--steps", "9"], "--steps is for ELF files and images, and kept is a folder"),
                            (["kept/a.toml"], "kept/a.toml is not an ELF file or an image"),
                            (["one.elf", "kept/../one.elf"], "would both be one.toml: rename one")):
            ran = self.tool("tools/batch", *words)
            self.check_plain(ran, 2)
            self.check_said(ran, said)

    def test_no_stored_report(self):
        self.configure("kept/b.toml", image='"loop.bin"')
        os.remove(os.path.join(self.folder, "kept/a.report"))
        self.assertEqual(self.lines_of(self.batch(), 1), [
            "PASS a.toml", "FAIL b.toml not every guest has stopped", "# guest a is running",
            "# 1 of 2 passed"])

    def test_causes(self):
        self.configure("kept/b.toml", consle=1)
        self.configure("kept/c.toml", image='"none.bin"')
        os.mkdir(os.path.join(self.folder, "kept/d.report"))
        self.configure("kept/d.toml")
        lines = self.lines_of(self.batch(), 1)
        self.assertEqual([line for line in lines if line[0] != "#"], [
            "PASS a.toml", "FAIL b.toml status 2", "FAIL c.toml status 3", "FAIL d.toml status 3"])
        for words in ("# nesthv: configuration fault 8 guest 0", "has `consle`, and its keys are name, image",
                      "none.bin of guest 0 cannot be read: there is no such file",
                      "d.report cannot be read: it is a folder"):
            self.assertTrue(any(words in line for line in lines), (words, lines))

    def test_time_that_is_over(self):
        self.configure("kept/b.toml", front=ENDLESS, image='"loop.bin"')
        self.assertEqual(self.lines_of(self.batch("--seconds", "3"), 1), [
            "PASS a.toml", "LATE b.toml after 3 seconds", "# 1 of 2 passed"])

    def test_first(self):
        self.put("kept/a.report", b"")
        for number in range(4):
            self.configure(f"kept/b{number}.toml", front=ENDLESS, image='"loop.bin"')
        lines = self.lines_of(self.batch("--first", "--jobs", "2"), 1)
        self.assertEqual(lines[0], "FAIL a.toml the report differs from the stored one at 0")
        self.assertEqual(lines[-1], "# 0 of 5 passed, 4 not run")

    def test_filter_and_times(self):
        self.configure("kept/b.toml")
        self.configure("kept/b1.toml")
        for words, names in ((["--only", "b*"], "b b1"), (["--only", "b"], "b"),
                             (["--only", "a", "--only", "b1"], "a b1")):
            lines = self.lines_of(self.batch(*words), 0)
            self.assertEqual(lines[:-1], [f"PASS {name}.toml" for name in names.split()])
        self.assertRegex(self.lines_of(self.batch("--only", "a", "--times"), 0)[0],
                         r"^PASS a.toml \(\d+\.\d\d s\)$")
        ran = self.batch("--only", "c")
        self.check_plain(ran, 2)
        self.check_said(ran, "no `.toml` in kept whose name fits c")

    def test_tap(self):
        self.put("kept/b.report", b"guest")
        self.configure("kept/b.toml")
        self.assertEqual(self.lines_of(self.batch("--tap"), 1), [
            "1..2", "ok 1 - a.toml: PASS",
            "not ok 2 - b.toml: FAIL the report differs from the stored one at 5",
            "# the stored report is not a whole report, and differs at byte 5", "# 1 of 2 passed"])

    def test_json_and_junit(self):
        self.put("kept/b.report", b"guest")
        self.configure("kept/b.toml")
        ran = self.batch("--json", "--junit", "out.xml")
        self.check_plain(ran, 1)
        self.assertEqual([(each["name"], each["outcome"]) for each in json.loads(ran.stdout)],
                         [("a.toml", "PASS"), ("b.toml", "FAIL")])
        suite = ElementTree.parse(os.path.join(self.folder, "out.xml")).getroot()
        self.assertEqual((suite.tag, suite.get("tests"), suite.get("failures")), ("testsuite", "2", "1"))
        cases = {case.get("name"): case.find("failure") for case in suite}
        self.assertIsNone(cases["a.toml"])
        self.assertIn("the report differs from the stored one at 5", cases["b.toml"].get("message"))

    def test_many(self):
        """Sixty configurations take some seconds of a processor."""
        for number in range(60):
            self.configure(f"kept/b{number}.toml")
        before = os.times()
        self.assertEqual(self.lines_of(self.batch(), 0)[-1], "# 61 of 61 passed")
        after = os.times()
        self.assertLess(after.children_user + after.children_system
                        - before.children_user - before.children_system, 60)

    def test_names_with_line_feeds(self):
        self.configure("kept/b\n#ok 9.toml")
        self.assertEqual(self.lines_of(self.batch("--tap"), 0),
                         ["1..2", "ok 1 - a.toml: PASS", "ok 2 - b\\n ok 9.toml: PASS", "# 2 of 2 passed"])
        self.assertEqual(self.lines_of(self.batch(), 0)[1], "PASS b\\n#ok 9.toml")

    def test_names_that_are_no_text(self):
        path = os.path.join(os.fsencode(self.folder), b"kept", b"\xff.toml")
        with open(self.configure("kept/a.toml"), "rb") as file, open(path, "wb") as other:
            other.write(file.read())
        for words in ([], ["--tap"], ["--json"], ["--junit", "out.xml"]):
            self.check_plain(self.batch(*words), 1)
        self.assertIn("is not UTF-8", self.batch().stdout.decode())

    def test_other_machines(self):
        """By a script that stands for GNU parallel, and runs each command here."""
        self.configure("kept/b[1].toml")
        parallel = self.put("bin/parallel", PARALLEL)
        os.chmod(parallel, 0o755)
        path = f"{self.folder}/bin:{os.environ['PATH']}"
        ran = self.batch("--sshlogin", "8/one,8/two", "--jobs", "2", variables={"PATH": path})
        self.assertEqual(self.lines_of(ran, 0), ["PASS a.toml", "PASS b[1].toml", "# 2 of 2 passed"])
        self.check_said(ran, "--jobs 2 --sshlogin 8/one,8/two")
        ran = self.batch("--sshlogin", "8/one,8/two", variables={"PATH": path})
        self.check_said(ran, "--jobs 100% --sshlogin 8/one,8/two")

    def test_bad_words(self):
        for words in (["--jobs", "0"], ["--seconds", "-1"], ["--tap", "--json"],
                      ["--sshlogin", ":", "--tap"]):
            self.check_plain(self.batch(*words), 2)
        ran = self.tool("tools/batch", "none")
        self.check_plain(ran, 2)
        self.check_said(ran, "none: there is no such file")
        self.check_plain(self.tool("tools/batch", "--program", "none", "kept"), 2)

    def test_output_that_fails(self):
        for words in ([], ["--json"], ["--tap"]):
            with open("/dev/full", "wb") as full:
                self.check_plain(self.batch(*words, stdout=full), 2)

    def test_interrupt(self):
        self.configure("kept/b.toml", front=ENDLESS, image='"loop.bin"')
        started = subprocess.Popen([f"{TOOLS}/batch", os.path.join(self.folder, "kept")],
                                   stdout=subprocess.PIPE, stderr=subprocess.PIPE,
                                   preexec_fn=take_signals,
                                   env={**os.environ, "NESTHV": f"{TOOLS}/../dist/nesthv"})
        self.assertEqual(started.stdout.readline(), b"PASS a.toml\n")
        started.send_signal(signal.SIGINT)
        _, lines = started.communicate(timeout=LIMIT)
        self.assertEqual((started.returncode, lines), (130, b"tools/batch: interrupted\n"))
