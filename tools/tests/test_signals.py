"""Tests that a signal ends a tool with its status, whatever is under way."""
import os
import random
import signal
import subprocess
import sys
import tempfile
import threading
import time
import traceback
import unittest
import weakref
from unittest import mock

from helper import LIMIT, ToolTest, take_signals
from nesthv_tools import children, endings, parallel, start

TRIES = 8  # of each kind of work and each signal
LONGEST = 0.06  # seconds from the start of the work to the signal
SLEEP = ["sleep", "100"]


def wait_for_program():
    with open(os.devnull, "wb") as output:
        children.run(SLEEP, "/", output)


def start_programs():
    with open(os.devnull, "wb") as output:
        while True:
            children.run(["true"], "/", output)


def run_programs():
    for _ in parallel.in_order(lambda _: wait_for_program(), range(100)):
        pass


class Named:
    """What a finalizer may be told of."""


def spin():
    end = time.monotonic() + random.uniform(0, 0.02)
    while time.monotonic() < end:
        pass


def finalize():
    """Spends half of its time in finalizers, of which Python drops each exception."""
    while True:
        weakref.finalize(Named(), spin)
        spin()


def compute():
    while True:
        pass


def print_much():
    """Prints to a pipe that nothing reads."""
    while True:
        print("a" * 100)


def clean():
    """Makes and removes folders."""
    while True:
        with endings.Folder("nesthv-") as folder, open(os.path.join(folder, "a"), "wb"):
            pass


WORK = [wait_for_program, start_programs, run_programs, finalize, compute, print_much, clean]


def make(work, begun, output, lines):
    """In a new process: does this work as a tool does, which begins with a byte on the pipe `begun`."""
    status = 99
    try:
        os.setsid()
        take_signals()
        signal.signal(signal.SIGINT, signal.default_int_handler)
        os.dup2(output, 1)
        os.dup2(lines, 2)
        sys.stdout, sys.stderr = (open(number, "w", closefd=False) for number in (1, 2))
        start.run(lambda: os.write(begun, b"a") and work())
    except SystemExit as ended:
        status = ended.code
    except BaseException:
        traceback.print_exc()
    finally:
        threading._shutdown()  # waits for the threads, as Python's end does
        os._exit(status)


def runs_in(session):
    """Whether a process of this session runs, or waits for a disk."""
    for name in filter(str.isdecimal, os.listdir("/proc")):
        try:
            with open(f"/proc/{name}/stat", encoding="ascii", errors="replace") as file:
                state, _, _, its = file.read().rpartition(")")[2].split()[:4]
        except (FileNotFoundError, ProcessLookupError):  # it has ended
            continue
        if int(its) == session and state in "RSD":
            return True
    return False


class SignalTest(ToolTest):
    def setUp(self):
        super().setUp()
        self.place = os.path.join(self.folder, "place")
        os.mkdir(self.place)
        for module, values in (os.environ, {"TMPDIR": self.place}), (tempfile.__dict__, {"tempdir": self.place}):
            patch = mock.patch.dict(module, values)
            patch.start()
            self.addCleanup(patch.stop)

    def ended(self, work, number, delay):
        """The status of a process that does this work, once a signal has ended it, and its lines."""
        begun, output = os.pipe(), os.pipe()
        with open(os.path.join(self.folder, "lines"), "w+b") as lines:
            process = os.fork()
            if not process:
                make(work, begun[1], output[1], lines.fileno())
            os.read(begun[0], 1)
            time.sleep(delay)
            os.kill(process, number)
            _, status = os.waitpid(process, 0)
            for end in (*begun, *output):
                os.close(end)
            self.check_no_program(process)
            lines.seek(0)
            return os.waitstatus_to_exitcode(status), lines.read().decode()

    def check_no_program(self, session):
        """Checks that no process of this session is left; one that was killed may need a moment."""
        end = time.monotonic() + LIMIT
        while runs_in(session):
            self.assertLess(time.monotonic(), end)
            time.sleep(0.01)

    def test_signals(self):
        """Each signal, at many moments of each kind of work."""
        moments = random.Random(1)
        for work in WORK:
            for number in (signal.SIGTERM, signal.SIGHUP, signal.SIGINT):
                for _ in range(TRIES):
                    with self.subTest(work=work.__name__, number=number):
                        status, lines = self.ended(work, number, moments.uniform(0, LONGEST))
                        self.assertEqual((status, os.listdir(self.place)), (128 + number, []), lines)
                        said = lines.partition(": ")[2]
                        self.assertEqual(said, "interrupted\n" if number == signal.SIGINT else "")

    def test_ignored(self):
        """A signal that a tool is to ignore, as under `nohup`, does not end it."""
        ended = subprocess.run([sys.executable, "-c", "import signal, os\n"
                                "signal.signal(signal.SIGHUP, signal.SIG_IGN)\n"
                                "from nesthv_tools import start\n"
                                "start.run(lambda: os.kill(os.getpid(), signal.SIGHUP) or 5)"],
                               cwd=os.path.dirname(os.path.dirname(start.__file__)))
        self.assertEqual(ended.returncode, 5)


if __name__ == "__main__":
    unittest.main()
