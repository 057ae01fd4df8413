"""A guest whose unread inputs a fuzzer makes: the state before it reads the first one, and the folder
from which `fuzz_target` runs it."""
import os
import re
import struct

from nesthv_tools import guest_runs, saves, whole_files
from nesthv_tools.trials import Outcome, Trial

READ = re.compile(rb"^(?:call ([0-9]+) \S+ [0-9a-f]+ number 2 |got ([0-9]+) |"
                  rb"wait ([0-9]+) \S+ [0-9a-f]+ until never$)", re.M)
MOST_LINES = 1024  # of exceptions that the target reads


class Bad(Exception):
    """Why there is nothing to fuzz, in words."""


def step_before(runs: guest_runs.Runs) -> int:
    """The step of a run without inputs that first asks for one, or waits for one for good."""
    with guest_runs.Line(runs, runs.first, without_inputs(runs.start)) as line:
        with line.log_of(["calls"], 0, runs.last - runs.first) as file:
            found = READ.search(file.read())
    if not found:
        raise Bad("the guest asks for no input by call 2, and does not wait for one for good: --at STEP "
                  "names the step from which on it has them")
    return runs.first + int(next(filter(None, found.groups())))


def without_inputs(saved: saves.Saved) -> saves.Saved:
    return with_inputs(saved, b"")


def with_inputs(saved: saves.Saved, data: bytes) -> saves.Saved:
    """A state whose unread inputs are these bytes, all of which have come."""
    made = saved.changed({"status": 0} if saves.STATUSES[saved.numbers["status"]] == "waiting" else {})
    made.inputs = [(moment_of(saved), byte) for byte in data[:saves.MOST_INPUTS]]
    return made


def moment_of(saved: saves.Saved) -> int:
    return saved.numbers["clock"]


def base_at(runs: guest_runs.Runs, step: int) -> saves.Saved:
    """The state at a step of the run without inputs."""
    with guest_runs.Line(runs, runs.first, without_inputs(runs.start)) as line:
        return line.at(step)


class Fuzzed:
    """The runs of a guest that go on from a state with other inputs. Those of the corpus are as they ought to
    be: their exceptions, waits for good and ends are no failures."""

    def __init__(self, runs: guest_runs.Runs, base: saves.Saved, corpus: list[bytes], steps: int) -> None:
        self.runs, self.base, self.steps = runs, base, steps
        self.outcomes = [self.outcome(data) for data in corpus]

    def trial(self, data: bytes) -> Trial:
        return Trial("input", self.base.numbers["steps"], with_inputs(self.base, data))

    def outcome(self, data: bytes) -> Outcome:
        """What the run with these inputs comes to."""
        return self.trial(data).outcome(self.runs, self.end())

    def end(self) -> int:
        return self.base.numbers["steps"] + self.steps

    def why_failed(self, run: Outcome) -> str:
        """Why a run is a failure, as the target judges it, or nothing."""
        known = {fault for each in self.outcomes for fault in each.faults}
        statuses = {each.status for each in self.outcomes}
        new = next((fault for fault in run.faults if fault not in known), None)
        if run.status == "stopped" and run.verdict():
            return f"exit {run.verdict()}"
        if new:
            return f"exception {new.code} into {new.level} at {new.pc:x} in {new.mode}, where no run of " \
                "the corpus has one"
        if run.status != "stopped" and run.status not in statuses:
            return f"it is {run.status} after {run.steps - self.base.numbers['steps']:,} steps"
        return ""

    def prepare(self, folder: str, tracer: str) -> None:
        """Puts what the target reads into a folder."""
        head = self.base.changed({"status": 0}) if self.base.numbers["status"] == 1 else self.base
        data, count = head.head(), len(head.inputs)
        at = 8 + 8 * len(saves.NAMES) + 8 + len(head.console)
        front, rest = data[:at], data[at + 8 + 9 * count:]
        assert struct.unpack_from("<Q", data, at) == (count,)
        waits, runs = (int(any(each.status == status for each in self.outcomes))
                       for status in ("waiting", "running"))
        lines = [f"tracer {tracer}", f"moment {moment_of(head)}", f"wait {waits}", f"run {runs}"]
        lines += sorted({f"fault {fault.mode} {fault.pc:x} {fault.code}" for each in self.outcomes
                         for fault in each.faults})[:MOST_LINES]
        text = f'format = 2\nturns = [[0, {self.steps}]]\n\n[[guest]]\nname = "{self.runs.guest.name}"\n' \
            'resume = "/proc/self/fd/9"\n'
        for name, made in (("front", front), ("rest", rest + head.ram[:]), ("run.toml", text.encode()),
                           ("rules", "\n".join([*lines, ""]).encode())):
            whole_files.write(os.path.join(folder, name), made)


def corpus_in(folder: str) -> dict[str, bytes]:
    """The files of a folder, by their names."""
    try:
        paths = sorted(entry.path for entry in os.scandir(folder) if entry.is_file())
    except OSError as error:
        raise Bad(f"the corpus {folder} cannot be read: {error.strerror}") from None
    found = {}
    for path in paths:
        with open(path, "rb") as file:
            found[os.path.basename(path)] = file.read(saves.MOST_INPUTS)
    if not any(found.values()):
        raise Bad(f"the corpus {folder} has no file with a byte: put one input there at least")
    return found
