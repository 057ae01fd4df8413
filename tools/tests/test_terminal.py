"""Tests of what a terminal gets, by a pseudo-terminal."""
import os
import pty
import struct
import subprocess

from helper import LETTER, PROGRAM, TOP, ToolTest
from nesthv_tools import terminal
from saved_files import form

ESCAPES = b"\x1b[31mA\tB\r\x07\x7f\n"


def put_all(data):
    """An image that puts these bytes and stops: li a7, 1; li a0, BYTE; ecall; and li a7, 8; ecall."""
    words = [0x00100893]
    for byte in data:
        words += [0x00000513 | byte << 20, 0x73]
    return struct.pack(f"<{len(words) + 2}I", *words, 0x00800893, 0x73)


class TerminalTest(ToolTest):
    def by_terminal(self, name, *words, **variables):
        """What a tool writes to a terminal, and its status."""
        try:
            parent, child = pty.openpty()
        except OSError:
            self.skipTest("there is no pseudo-terminal: devpts is not mounted")
        started = subprocess.Popen([os.path.join(TOP, name), *words], cwd=self.folder, stdin=subprocess.DEVNULL,
                                   stdout=child, stderr=subprocess.PIPE,
                                   env={**os.environ, "NESTHV": PROGRAM, **variables})
        os.close(child)
        made = b""
        try:
            while data := os.read(parent, 4096):
                made += data
        except OSError:  # its end
            pass
        os.close(parent)
        lines = started.communicate()[1].decode()
        return made.replace(b"\r\n", b"\n"), started.returncode, lines

    def test_run(self):
        self.put("a.bin", put_all(ESCAPES))
        path = self.configure()
        shown = b"\\x1b[31mA\tB\\x0d\\x07\\x7f\n"
        made, status, _ = self.by_terminal("tools/run", path)
        self.assertEqual((made.partition(b"\n")[2], status), (shown + b"\n", 0))
        made, _, _ = self.by_terminal("tools/run", "--raw", path)
        self.assertEqual(made.partition(b"\n")[2], ESCAPES + b"\n")
        self.assertEqual(self.tool("tools/run", path).stdout.partition(b"\n")[2], ESCAPES + b"\n")

    def test_saved(self):
        self.put("s", form(ESCAPES))
        self.assertEqual(self.by_terminal("tools/saved", "--console", "s")[0], b"\\x1b[31mA\tB\\x0d\\x07\\x7f\n")
        self.assertEqual(self.by_terminal("tools/saved", "--console", "--raw", "s")[0], ESCAPES)
        _, status, lines = self.by_terminal("tools/saved", "--ram", "s")
        self.assertEqual(status, 2)
        self.assertIn("which is a terminal", lines)

    def test_save(self):
        made, status, lines = self.by_terminal("tools/run", "save", self.configure(), "0")
        self.assertEqual((made, status), (b"", 2))
        self.assertIn("which is a terminal: give it a file", lines)

    def test_lines(self):
        """No line of a tool has an escape of a file's name."""
        self.put("a\x1b[31m.bin", LETTER)
        ran = self.tool("tools/run", self.configure(image='"b\\u001b[31m.bin"'))
        self.check_plain(ran, 3)
        self.assertNotIn(b"\x1b", ran.stderr)
        self.check_said(ran, "b\\x1b[31m.bin of guest 0 cannot be read: there is no such file")

    def test_pieces(self):
        """Letters that come in pieces stay whole, and bytes that are none of UTF-8 are shown."""
        output = terminal.Output()
        output.is_shown = True
        pieces = [output.of(piece) for piece in (b"\xc3", b"\xa9\x1b", b"\xff\xc2", b"\x9b")]
        self.assertEqual(b"".join(pieces) + output.of(b"", True), "é\\x1b\\xff\\x9b".encode())
