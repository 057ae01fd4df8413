"""What the handler of an interrupt changed that the code which it interrupted had read, by the log of a run
that goes on after an event."""
from collections.abc import Iterator

from nesthv_tools import event_logs, guest_runs, registers
from nesthv_tools.event_logs import Access, Line
from nesthv_tools.trials import Trial

SRET = 0x10200073
LONGEST = 20000  # steps of a handler
BEFORE = 64  # steps before the event, among whose loads it is looked
MOST = 4  # lines


class Handler:
    """What was made from the interrupt after an event until the interrupted code goes on: stores, and
    registers that then have other values. `is_left` says that it goes on."""

    def __init__(self, runs: guest_runs.Runs, trial: Trial) -> None:
        number = trial.saved.numbers
        self.before = {name: number[f"x{index}"] for index, name in enumerate(registers.INTEGER) if index}
        self.values = dict(self.before)
        self.stores: list[Access] = []
        self.came_from: tuple[str, int] | None = None
        self.is_left = False
        self.is_return = False  # whether the step before is an SRET
        with trial.line(runs) as line:
            for each in line.logged(["steps", "traps"], 0, LONGEST, has_all=True):
                self.take(each)
                if self.is_left:
                    break

    def take(self, line: Line) -> None:
        if line.kind == "trap" and self.came_from is None and line.word("cause") == "interrupt":
            self.came_from, self.before = (line.mode, line.number("pc")), dict(self.values)
        if line.kind != "step":
            return
        if self.is_return and self.came_from == (line.mode, line.number("pc")):
            self.is_left = True
            return
        step = event_logs.step_of(line)
        self.is_return = step.word == SRET
        self.values.update(step.written)
        if step.stored and self.came_from:
            self.stores.append(step.stored)

    def lost(self) -> Iterator[str]:
        """The registers that it has not put back."""
        for name, value in self.before.items():
            if self.is_left and self.values[name] != value:
                yield f"the handler changes {name} from {value:x} to {self.values[name]:x}, and does not " \
                    "put it back"


def is_over(one: Access, other: Access) -> bool:
    return one.place < other.place + other.width and other.place < one.place + one.width


def lines_of(runs: guest_runs.Runs, trial: Trial, mode: str) -> list[str]:
    """What an interrupt's handler changed of what the interrupted code had read, in words."""
    handler = Handler(runs, trial)
    if not handler.came_from:
        return []
    found = list(handler.lost())
    start = max(runs.first, trial.step - BEFORE)
    before = list(runs.logged(["steps"], start, trial.step, has_all=True)) if start < trial.step else []
    for line in reversed(before):
        read = event_logs.step_of(line).read if line.kind == "step" and line.mode == mode else None
        store = next((each for each in handler.stores if read and is_over(each, read)), None)
        if read and store:
            ago = trial.step - line.step
            found.append(f"the handler stores to {store.place:x}, which the load at {line.number('pc'):x}, "
                         f"{ago} step{'s' * (ago > 1)} before, had read as {read.value:x}")
            break
    return found[:MOST]
