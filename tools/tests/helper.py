"""What the tests of the tools share: a folder for each test, configurations and images in it, and the
tools."""
import os
import signal
import struct
import subprocess
import sys
import tempfile
import unittest

sys.dont_write_bytecode = True
TOOLS = os.path.dirname(os.path.dirname(os.path.abspath(__file__)))
TOP = os.path.dirname(TOOLS)
sys.path.insert(0, TOOLS)
PROGRAM = os.path.join(TOP, "dist", "nesthv")
# li a7, 1; li a0, 65; ecall; li a7, 8; ecall
LETTER = struct.pack("<5I", 0x00100893, 0x04100513, 0x73, 0x00800893, 0x73)
LETTER_REPORT = b"guest a stopped steps 5 bytes 1\nA\n"
LOOP = struct.pack("<I", 0x6F)  # jal zero, 0
# Imports all modules of the tools.
IMPORTS = """import importlib, pkgutil, nesthv_tools
for module in pkgutil.walk_packages(nesthv_tools.__path__, "nesthv_tools."):
    if not module.name.endswith("__main__"):
        importlib.import_module(module.name)
"""
LIMIT = 600  # seconds that a test waits for a tool, which on a loaded machine may get little time
GUEST = {"name": '"a"', "image": '"a.bin"', "blocks": 1, "spaces": 1, "entries": 16, "console": 100}


def compiled():
    """A folder with all modules of the tools, and those that they import, compiled once. Each tool that a test
    runs takes them from there: by itself a tool compiles its modules each time, and keeps none."""
    folder = tempfile.TemporaryDirectory(prefix="nesthv-compiled-")
    os.environ["PYTHONPYCACHEPREFIX"] = folder.name
    variables = {key: value for key, value in os.environ.items() if key != "PYTHONDONTWRITEBYTECODE"}
    subprocess.run(["python3", "-c", IMPORTS], cwd=TOOLS, env=variables, stdin=subprocess.DEVNULL, check=True)
    return folder


COMPILED = compiled()


def take_signals():
    """In a new process: takes signals that it may have been told to ignore, as SIGINT in a shell's background
    and SIGHUP under `nohup`."""
    for number in (signal.SIGINT, signal.SIGTERM, signal.SIGHUP):
        signal.signal(number, signal.SIG_DFL)


class ToolTest(unittest.TestCase):
    """A test in a folder of its own, where `a.bin` puts a letter on the console and stops."""

    def setUp(self):
        folder = tempfile.TemporaryDirectory()
        self.addCleanup(folder.cleanup)
        self.folder = folder.name
        self.put("a.bin", LETTER)

    def put(self, name, data):
        """Writes a file into the folder, and gives its path."""
        path = os.path.join(self.folder, name)
        os.makedirs(os.path.dirname(path), exist_ok=True)
        with open(path, "wb") as file:
            file.write(data if isinstance(data, bytes) else data.encode())
        return path

    def configure(self, name="a.toml", front="format = 1\nquantum = 1000\nrounds = 1\n", **keys):
        """Writes the configuration of one guest, whose keys have these values in TOML; none leaves a key
        out."""
        lines = [f"{key} = {value}" for key, value in {**GUEST, **keys}.items() if value is not None]
        return self.put(name, front + "[[guest]]\n" + "\n".join(lines) + "\n")

    def tool(self, name, *words, **options):
        """Runs a tool in the folder, by the program of dist/, and gives what it wrote and its status."""
        options = {"cwd": self.folder, "stdin": subprocess.DEVNULL, "stdout": subprocess.PIPE, "timeout": LIMIT,
                   **options}
        variables = {**os.environ, "NESTHV": PROGRAM, **options.pop("variables", {})}
        ran = subprocess.run([os.path.join(TOP, name), *words], stderr=subprocess.PIPE,
                             env=variables, **options)
        ran.lines = ran.stderr.decode(errors="replace").splitlines()
        return ran

    def check_plain(self, ran, status):
        """Checks a status, and that no traceback was written."""
        self.assertNotIn("Traceback", "\n".join(ran.lines))
        self.assertEqual(ran.returncode, status, ran.lines)

    def check_said(self, ran, words):
        """Checks that a line has these words."""
        self.assertTrue(any(words in line for line in ran.lines), ran.lines)

    def check_unsaid(self, ran, words):
        self.assertFalse(any(words in line for line in ran.lines), ran.lines)
