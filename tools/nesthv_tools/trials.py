"""Trials: runs of a guest that go on after an event, and what they come to by the log of nesthv-trace, which
takes about as long as the run."""
import re
from typing import NamedTuple

from nesthv_tools import guest_runs, saves, verdicts

KINDS = ("traps", "calls")
PUT = re.compile(rb"^put [0-9]+ \S+ [0-9a-f]+ ([0-9a-f]+)$", re.M)
STOP = re.compile(rb"^call ([0-9]+) \S+ [0-9a-f]+ number 8 a0 [0-9a-f]+ answer -$", re.M)
NEVER = re.compile(rb"^wait ([0-9]+) (\S+) ([0-9a-f]+) until never$", re.M)
TRAP = re.compile(rb"^trap ([0-9]+) (\S+) ([0-9a-f]+) to (HS|VS) exception ([0-9]+) ", re.M)
CALLS = (8, 9, 10)  # exceptions that are calls of an environment: a program makes them by right
SLACK = 10000  # steps that a trial has at least, beyond those of the undisturbed run


class Fault(NamedTuple):
    """An exception other than a call: the mode and pc from which it was taken, where to, and its code."""
    mode: str
    pc: int
    level: str
    code: int


class Outcome(NamedTuple):
    """What a run comes to: its status, the number of its last step, its console, where it waits for good, and
    its exceptions other than calls, each with the step of the first such."""
    status: str
    steps: int
    console: bytes
    waits_at: tuple[str, int] | None
    faults: dict[Fault, int]

    def text(self) -> str:
        return self.console.decode("latin-1")

    def verdict(self) -> int:
        return verdicts.verdict_of({"status": self.status, "console": self.text()})

    def names_verdict(self) -> bool:
        return bool(verdicts.LAST_LINE.search(self.text()))


def outcome_of(log: bytes, console: bytes, start: int, steps: int, most: int) -> Outcome:
    """What a log tells of a run of at most `steps` steps from one on, whose console has at most `most`
    bytes and had these."""
    put = bytes(int(each[1], 16) for each in PUT.finditer(log))
    stop, never = STOP.search(log), NEVER.search(log)
    found: dict[Fault, int] = {}
    for each in TRAP.finditer(log):
        fault = Fault(each[2].decode(), int(each[3], 16), each[4].decode(), int(each[5]))
        if fault.code not in CALLS:
            found.setdefault(fault, start + int(each[1]))
    waits = (never[2].decode(), int(never[3], 16)) if never else None
    status = "stopped" if stop else "waiting" if never else "running"
    last = int(stop[1]) + 1 if stop else int(never[1]) if never else steps
    return Outcome(status, start + last, (console + put)[:most], waits, found)


class Trial(NamedTuple):
    """A run that goes on from a state, which an event has changed before a step. A WFI that ends at once is
    behind it."""
    kind: str
    step: int
    saved: saves.Saved

    def line(self, runs: guest_runs.Runs) -> guest_runs.Line:
        return guest_runs.Line(runs, self.start(), self.saved)

    def start(self) -> int:
        """The step from which it goes on."""
        return self.saved.numbers["steps"]

    def outcome(self, runs: guest_runs.Runs, end: int) -> Outcome:
        """What it comes to, up to a step."""
        with self.line(runs) as line:
            return outcome_in(line, self.saved, self.start(), end - self.start())

    def report(self, runs: guest_runs.Runs, end: int) -> bytes:
        """The report of this run, by the program whose report is proved."""
        with self.line(runs) as line:
            return line.call("run", end).read()


def outcome_in(line: guest_runs.Line, saved: saves.Saved, start: int, steps: int) -> Outcome:
    with line.log_of(KINDS, 0, steps) as file:
        log = file.read()
    return outcome_of(log, saved.console, start, steps, saved.numbers["console"])


def undisturbed(runs: guest_runs.Runs) -> Outcome:
    """What the run comes to by itself."""
    with guest_runs.Line(runs, runs.first, runs.start) as line:
        return outcome_in(line, runs.start, runs.first, runs.last - runs.first)


def world_of(saved: saves.Saved) -> tuple[str, int]:
    """The mode of a state, and hgatp where V is 1."""
    return saved.mode(), saved.numbers["hgatp"] if saved.numbers["mode"] >= 2 else 0
