"""Single steps of a guest's run by the stub nesthv-gdb, which shows the registers after each. What a saved
guest has beside them is foretold, and the last state of each part is compared with the program's own.
"""
from collections.abc import Callable, Iterator

from nesthv_tools import forecasts, saves, stubs

MOST = 1 << 10  # states that are foretold before the last one is compared
MOST_WRONG = 3  # parts of a run that may be foretold wrong
STEPPED = b"T05"


def is_same(one: saves.Saved, other: saves.Saved) -> bool:
    """Whether two states have the same in all."""
    def parts(state: saves.Saved) -> tuple[object, ...]:
        return state.numbers, state.console, state.inputs, state.spaces, state.first
    return parts(one) == parts(other) and one.ram.is_same(other.ram)


class Steps:
    """The steps of a run after a state, which a stub shows at its position 0. `saved_at` gives the
    program's own state at a step."""

    def __init__(self, stub: stubs.Stub, saved_at: Callable[[int], saves.Saved], state: saves.Saved) -> None:
        self.stub, self.saved_at, self.state = stub, saved_at, state
        self.first = self.step = state.numbers["steps"]
        self.most, self.wrong = MOST, 0

    def until(self, end: int) -> Iterator[saves.Saved]:
        """The states after this one, up to that at a step that the run makes."""
        while self.step < end:
            found, is_cut = self.foretold(min(end - self.step, self.most))
            right = self.right(found) if found else []
            yield from right
            if len(right) < len(found):
                self.go_back(len(right))
                continue
            self.most = min(2 * self.most, MOST)
            if is_cut:
                yield self.gone_to(self.saved_at(self.step + 1))

    def foretold(self, count: int) -> tuple[list[saves.Saved], bool]:
        """The next states, at most `count`, and whether one step more is made, which cannot be foretold."""
        found: list[saves.Saved] = []
        while len(found) < count:
            answer, = self.stub.answers(["s"])
            before = found[-1] if found else self.state
            after = forecasts.forecast(before, self.stub.numbers()) if answer == STEPPED else None
            if not after:
                return found, True
            found.append(after)
        return found, False

    def right(self, found: list[saves.Saved]) -> list[saves.Saved]:
        """Those of these states that are right, as far as the program's own after them says, which is then
        the last."""
        count = len(found)
        own = self.saved_at(self.step + count)
        while count > 1 and not is_same(found[count - 1], own):
            count //= 2
            own = self.saved_at(self.step + count)
        return [*found[:count - 1], self.gone_to(own)]

    def gone_to(self, state: saves.Saved) -> saves.Saved:
        """A state as the program saves it, from which the steps then go on."""
        self.state, self.step = state, state.numbers["steps"]
        return state

    def go_back(self, right: int) -> None:
        """Goes back to the last state that is right, and on by fewer steps at a time."""
        self.wrong, self.most = self.wrong + 1, right
        place = self.step - self.first
        if self.wrong > MOST_WRONG or self.stub.monitored(f"goto {place}") != place:
            raise stubs.Ended
