"""The exits of guests' guests: how many there are of each cause, and how long the way back takes, as a
table.
"""
from collections.abc import Iterator

from nesthv_tools import event_logs, registers
from nesthv_tools.event_logs import Line

KINDS = ("worlds",)  # of lines that are needed
COLUMNS = ("exits", "%", "steps", "%", "mean", "largest", "at step")


class Cause:
    """The exits of one cause: how many, how many of them have a way back, the sum of its steps, and the
    largest, with the step of its exit."""

    def __init__(self) -> None:
        self.exits = self.returns = self.steps = self.largest = self.at = 0

    def go_back(self, left: int, entered: int) -> None:
        """Counts the way back of an exit, in the steps that are made until the guest's guest goes on."""
        self.returns += 1
        self.steps += entered - left
        if entered - left > self.largest:
            self.largest, self.at = entered - left, left


class Exits:
    """The exits of each guest's guest, by hgatp, and by cause."""

    def __init__(self) -> None:
        self.guests: dict[int, dict[int, Cause]] = {}
        self.left: dict[int, tuple[int, int]] = {}  # the step and the cause of the last exit of each

    def take(self, line: Line) -> None:
        if line.kind == "leave":
            hgatp, cause = line.number("hgatp"), line.cause()
            self.guests.setdefault(hgatp, {}).setdefault(cause, Cause()).exits += 1
            self.left[hgatp] = line.step, cause
        elif line.kind == "enter" and line.number("hgatp") in self.left:
            hgatp = line.number("hgatp")
            step, cause = self.left.pop(hgatp)
            self.guests[hgatp][cause].go_back(step, line.step)

    def lines(self) -> Iterator[str]:
        """The table of each guest's guest."""
        if not self.guests:
            yield "there is no exit in these steps"
        for number, (hgatp, causes) in enumerate(self.guests.items()):
            yield from [""] * bool(number)
            yield from lines_of(hgatp, causes)
            if hgatp in self.left:
                step, cause = self.left[hgatp]
                yield f"left when the log ends: {words_of(cause)} at step {step}"


def words_of(cause: int) -> str:
    """A cause in words, with its code."""
    return f"{registers.cause_of(cause)} ({cause & 2**63 - 1})"


def share(part: int, whole: int) -> str:
    return f"{100 * part / whole:.1f}" if whole else "-"


def cells_of(found: Cause, exits: int, steps: int) -> tuple[str, ...]:
    """The cells of a row, of these numbers of exits and steps in all."""
    front = f"{found.exits:,}", share(found.exits, exits), f"{found.steps:,}", share(found.steps, steps)
    if not found.returns:
        return *front, "-", "-", "-"
    return *front, f"{found.steps / found.returns:,.1f}", f"{found.largest:,}", str(found.at)


def total_of(causes: dict[int, Cause]) -> Cause:
    """All causes as one."""
    total = Cause()
    for each in causes.values():
        total.exits += each.exits
        total.returns += each.returns
        total.steps += each.steps
        if each.largest > total.largest:
            total.largest, total.at = each.largest, each.at
    return total


def lines_of(hgatp: int, causes: dict[int, Cause]) -> Iterator[str]:
    """The table of a guest's guest, the most frequent cause first."""
    yield f"exits of {event_logs.words_of_guest(hgatp)}"
    total = total_of(causes)
    order = sorted(causes, key=lambda cause: (-causes[cause].exits, cause))
    rows: list[tuple[str, ...]] = [("cause", *COLUMNS)]
    rows += [(words_of(cause), *cells_of(causes[cause], total.exits, total.steps)) for cause in order]
    rows.append(("all", *cells_of(total, total.exits, total.steps)))
    widths = [max(len(row[column]) for row in rows) for column in range(len(rows[0]))]
    for name, *cells in rows:
        yield "  ".join([name.ljust(widths[0]), *map(str.rjust, cells, widths[1:])])
