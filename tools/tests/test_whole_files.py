"""Tests of how the tools write files: whole, or not at all, with the name of the file that failed."""
import os
import resource
import signal
import stat

from helper import LETTER, LETTER_REPORT, ToolTest
from nesthv_tools import whole_files


def few_bytes():
    """In a new process: no file may have more than 16 bytes, which a program is told of by an error."""
    signal.signal(signal.SIGXFSZ, signal.SIG_IGN)
    resource.setrlimit(resource.RLIMIT_FSIZE, (16, 16))


class WholeTest(ToolTest):
    def bytes_of(self, name):
        with open(os.path.join(self.folder, name), "rb") as file:
            return file.read()

    def test_modes_and_links(self):
        path = self.put("kept", "old")
        os.chmod(path, 0o640)
        os.symlink("kept", os.path.join(self.folder, "link"))
        whole_files.write(os.path.join(self.folder, "link"), b"new")
        self.assertEqual((self.bytes_of("kept"), os.readlink(os.path.join(self.folder, "link"))), (b"new", "kept"))
        self.assertEqual(stat.S_IMODE(os.stat(path).st_mode), 0o640)
        whole_files.write(path, b"x", 0o755)
        self.assertEqual(stat.S_IMODE(os.stat(path).st_mode), 0o755)
        whole_files.write("/dev/null", b"x")
        self.assertTrue(stat.S_ISCHR(os.stat("/dev/null").st_mode))

    def test_failures(self):
        path = self.put("kept", "old")

        class Stopped(Exception):
            pass
        with self.assertRaises(Stopped), whole_files.opened(path) as file:
            file.write(b"half")
            raise Stopped
        self.assertEqual(self.bytes_of("kept"), b"old")
        for wrong in ("none/out", ".", "/dev/full"):
            with self.assertRaises(OSError) as raised:
                whole_files.write(os.path.join(self.folder, wrong), b"x")
            self.assertEqual(raised.exception.filename, os.path.join(self.folder, wrong))
        self.assertEqual(sorted(os.listdir(self.folder)), ["a.bin", "kept"])

    def check_kept(self, ran, name, data):
        """Checks that a write has failed, that the line names the file, and that what was there is there yet."""
        self.check_said(ran, f"{name}: File too large")
        self.assertEqual(self.bytes_of(name), data)

    def test_inputs(self):
        self.put("typed.txt", '10 "' + "x" * 100 + '"')
        self.put("out", b"old")
        ran = self.tool("tools/inputs", "typed.txt", "out", preexec_fn=few_bytes)
        self.check_plain(ran, 2)
        self.check_kept(ran, "out", b"old")

    def test_batch(self):
        self.put("kept/a.bin", LETTER)
        self.configure("kept/a.toml")
        report = self.put("kept/a.report", LETTER_REPORT)
        ran = self.tool("tools/batch", "--store", "kept", preexec_fn=few_bytes)
        self.check_plain(ran, 1)
        self.assertIn(f"FAIL a.toml {os.path.realpath(report)}: File too large", ran.stdout.decode())
        self.assertEqual(self.bytes_of("kept/a.report"), LETTER_REPORT)

    def test_install(self):
        self.put("prefix/bin/nesthv", b"old")
        self.put("prefix/lib/nesthv/FILES", "bin/nesthv\n")
        ran = self.tool("tools/install", "prefix", preexec_fn=few_bytes)
        self.check_plain(ran, 2)
        self.check_said(ran, "prefix/lib/nesthv/FILES: File too large")
        self.assertEqual(self.bytes_of("prefix/lib/nesthv/FILES"), b"bin/nesthv\n")
        self.assertEqual(self.bytes_of("prefix/bin/nesthv"), b"old")
