"""Tests of tools/fuzz: a parser with an overflow, by the target and by AFL++ where that is installed."""
import os
import shutil
import signal
import subprocess
import unittest

from helper import TOP, ToolTest

EXPLORED = os.path.join(TOP, "tools", "tests", "guests", "explored")


class FuzzTest(ToolTest):
    def setUp(self):
        super().setUp()
        os.mkdir(os.path.join(self.folder, "corpus"))
        self.put("corpus/one", b"set a=1;")
        self.put("long", b"set " + b"a" * 40 + b"=1;")

    def fuzz(self, *words):
        image = os.path.join(EXPLORED, "parser.bin")
        return self.tool("tools/fuzz", image, "0", "corpus", "--blocks", "1", *words)

    def test_shown(self):
        """The overflow ends in the trap handler, whose verdict is 255."""
        ran = self.fuzz("--show", "long")
        self.check_plain(ran, 1)
        self.assertTrue(ran.stdout.startswith(b"long: exit 255\n"), ran.stdout)
        ran = self.tool("tools/run", "--quiet", "--verdict", "corpus.fuzz/shown.toml")
        self.assertEqual(ran.returncode, 255)
        ran = self.fuzz("--show", "corpus/one")
        self.check_plain(ran, 0)

    @unittest.skipUnless(shutil.which("cc"), "needs a C compiler")
    def test_target(self):
        """The target ends well on the corpus, and aborts on the overflow."""
        ran = self.fuzz("--prepare")
        self.assertEqual(ran.returncode, 0, ran.stderr)
        self.assertRegex(ran.stdout.decode(), r"\Acorpus.fuzz/fuzz_target corpus.fuzz @@\n\Z")
        words = [os.path.join(self.folder, "corpus.fuzz", "fuzz_target"), "corpus.fuzz"]
        for name, status in (("corpus/one", 0), ("long", -signal.SIGABRT)):
            ran = subprocess.run([*words, name], cwd=self.folder, stderr=subprocess.DEVNULL)
            self.assertEqual(ran.returncode, status)

    @unittest.skipUnless(shutil.which("cc") and shutil.which("afl-showmap"), "needs AFL++ and a C compiler")
    def test_map(self):
        """Two inputs that take other ways have other maps, and the same input has the same."""
        self.assertEqual(self.fuzz("--prepare").returncode, 0)
        found = []
        for data in (b"set a=1;", b"set a=1;", b"x"):
            self.put("case", data)
            subprocess.run(["afl-showmap", "-q", "-o", "map", "--", "corpus.fuzz/fuzz_target", "corpus.fuzz",
                            "case"], cwd=self.folder, stdout=subprocess.DEVNULL, stderr=subprocess.DEVNULL)
            with open(os.path.join(self.folder, "map"), encoding="ascii") as file:
                found.append(file.read())
        self.assertEqual(found[0], found[1])
        self.assertNotEqual(found[0], found[2])

    def test_refused(self):
        self.put("corpus/one", b"")
        self.check_said(self.fuzz("--prepare"), "the corpus corpus has no file with a byte")
        self.put("corpus/one", b"set " + b"a" * 40 + b"=1;")
        self.check_said(self.fuzz("--prepare"), "ends with exit 255: the corpus is to have inputs whose ")

    def test_without_afl(self):
        """Where AFL++ is not installed, it is said how to install it."""
        os.mkdir(os.path.join(self.folder, "bin"))
        for name in ("python3", "env"):
            os.symlink(shutil.which(name), os.path.join(self.folder, "bin", name))
        ran = self.tool("tools/fuzz", os.path.join(EXPLORED, "parser.bin"), "0", "corpus",
                        variables={"PATH": os.path.join(self.folder, "bin")})
        self.check_plain(ran, 2)
        self.check_said(ran, "there is no afl-fuzz (apt-get install afl++)")


if __name__ == "__main__":
    unittest.main()
