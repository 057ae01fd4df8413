#!/usr/bin/env python3
"""Runs the gate, or another command, and prints what its parts cost: processor minutes, and the crates that take most.

It looks at the processes below the command twice a second. What a process has used by the last look counts for the
crate and the part that its command line names, or for those of its parent. The line `not seen` has what ended between
two looks. Measure with nothing else running: beside other work the same check takes up to half as much again.
"""
import os
import re
import resource
import subprocess
import sys
import time
from collections import defaultdict
from typing import NamedTuple

TOP = os.path.dirname(os.path.dirname(os.path.abspath(__file__)))
sys.dont_write_bytecode = True
sys.path.insert(0, os.path.join(TOP, "tools"))
from nesthv_tools import command_line, start, whole_files

TICKS = os.sysconf("SC_CLK_TCK")
LOOKS = 0.5  # seconds between two looks
CRATE = re.compile(r"--crate-name (\w+)")
TEST_CRATE = re.compile(r"tests?_|\w+_cases$")
PARTS = ("proofs of the product", "tests and cases", "compilers and runs", "edits with their seeds", "other")


class Process(NamedTuple):
    parent: int
    began: int
    seconds: float
    words: str
    folder: str


class Work(NamedTuple):
    """What a process is counted for."""
    part: str
    crate: str


def process(pid: int) -> Process | None:
    """A process as it is now, or None where it has ended."""
    try:
        with open(f"/proc/{pid}/stat", encoding="utf-8", errors="replace") as file:
            numbers = file.read().rpartition(")")[2].split()
        with open(f"/proc/{pid}/cmdline", encoding="utf-8", errors="replace") as file:
            words = file.read().replace("\0", " ")
        folder = os.readlink(f"/proc/{pid}/cwd")
    except OSError:
        return None
    return Process(int(numbers[1]), int(numbers[19]), (int(numbers[11]) + int(numbers[12])) / TICKS, words, folder)


def work_of(words: str, folder: str) -> Work | None:
    """What rt has started a process for, by its command line and the folder that it runs in."""
    named = CRATE.search(words)
    if not named:
        return None
    crate = named[1]
    if "/rt-edit-" in folder:
        return Work("edits with their seeds", crate)
    if "--crate-checked" in words:
        return Work("compilers and runs", crate)
    if "--test" in words or TEST_CRATE.match(crate):
        return Work("tests and cases", crate)
    return Work("proofs of the product", crate)


class Looks:
    """The processor seconds of each process that was seen below one, and what each is counted for."""

    def __init__(self, root: int) -> None:
        self.root = root
        self.seconds: dict[tuple[int, int], float] = {}
        self.works: dict[tuple[int, int], Work] = {}

    def look(self) -> None:
        """Looks at all processes below the root once."""
        looked = {int(name): process(int(name)) for name in os.listdir("/proc") if name.isdigit()}
        now = {pid: found for pid, found in looked.items() if found}
        children: dict[int, list[int]] = defaultdict(list)
        for pid, found in now.items():
            children[found.parent].append(pid)
        below = [(self.root, Work("other", "-"))]
        while below:
            pid, above = below.pop()
            if pid in now:
                work = self.count(pid, now[pid], above)
                below += [(child, work) for child in children[pid]]

    def count(self, pid: int, found: Process, above: Work) -> Work:
        """Counts a process, and gives what those below it are counted for."""
        key = pid, found.began
        self.seconds[key] = found.seconds
        self.works[key] = work_of(found.words, found.folder) or above
        return self.works[key]

    def by_work(self) -> dict[Work, float]:
        """The processor seconds of each work."""
        sums: dict[Work, float] = defaultdict(float)
        for key, seconds in self.seconds.items():
            sums[self.works[key]] += seconds
        return sums


def table(sums: dict[Work, float], used: float, passed: float, most: int) -> str:
    """The table of parts and of the dearest crates; `used` is what all processes have used, `passed` the time."""
    lines = [f"{used / 60:7.1f}  processor minutes in {passed / 60:.1f} minutes on {os.cpu_count()} processors"]
    for part in PARTS:
        lines.append(f"{sum(s for work, s in sums.items() if work.part == part) / 60:7.1f}  {part}")
    lines.append(f"{max(0.0, used - sum(sums.values())) / 60:7.1f}  not seen")
    lines.append("")
    dearest = sorted(sums.items(), key=lambda item: -item[1])[:most]
    lines += [f"{seconds:7.0f}  {work.crate}: {work.part}" for work, seconds in dearest]
    return "\n".join(lines) + "\n"


def used_by_children() -> float:
    """The processor seconds of all children that have ended."""
    usage = resource.getrusage(resource.RUSAGE_CHILDREN)
    return usage.ru_utime + usage.ru_stime


def measure(command: list[str]) -> tuple[int, dict[Work, float], float, float]:
    """Runs a command: its status, seconds by work, all that it used, and how long it took."""
    began = time.monotonic()
    with subprocess.Popen(command, cwd=TOP) as ran:
        looks = Looks(ran.pid)
        while ran.poll() is None:
            looks.look()
            time.sleep(LOOKS)
    return ran.returncode, looks.by_work(), used_by_children(), time.monotonic() - began


def main() -> int:
    parser = command_line.Parser(__doc__)
    parser.add_argument("--most", metavar="N", type=command_line.number(0, 1000), default=20,
                        help="how many crates are printed (20)")
    parser.add_argument("--out", metavar="FILE", help="where the table goes (standard error)")
    parser.add_argument("command", metavar="COMMAND", nargs="*", default=["rt", "ci"], help="what is run (rt ci)")
    words = parser.parse_args()
    status, sums, used, passed = measure(words.command)
    text = table(sums, used, passed, words.most)
    if words.out:
        whole_files.write(words.out, text.encode())
    else:
        print(text, end="", file=sys.stderr)
    return status


if __name__ == "__main__":
    start.run(main)
