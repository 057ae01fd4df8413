"""What `doctor` finds of a run: in words, with what shows it, and the command that shows more."""
import enum
from collections.abc import Iterable
from typing import Any, NamedTuple


class Rank(enum.IntEnum):
    """How bad it is: the lower the worse."""
    STUCK = 0  # the run does not go on
    GAVE_UP = 1  # it ends where a trap was taken
    LOST = 2  # a register is not as it was left
    SERVED = 3  # an exit is not served as the standard asks
    STALE = 4  # a stale translation is used
    REPEATED = 5  # an interrupt comes again and again
    WRITTEN = 6  # a register has not got what was written
    CALLED = 7  # the environment does not have a call
    ENDED = 8  # the guest itself says that it failed
    LOOP = 9  # the same instructions are executed again and again


class Finding(NamedTuple):
    """What is found at a step; `is_suspected` where what the run shows need not be a fault, and `is_possible`
    where hardware may show it, and this run does not. `times` is how often the same was found."""
    rank: Rank
    step: int
    words: str
    shown_by: list[str]
    look: str
    is_suspected: bool = False
    is_possible: bool = False
    times: int = 1

    def value(self) -> dict[str, Any]:
        """As JSON has it."""
        return {"rank": self.rank.name.lower(), "suspected": self.is_suspected, "possible": self.is_possible,
                "step": self.step, "words": self.words, "shown_by": self.shown_by, "look": self.look,
                "times": self.times}

    def head(self) -> str:
        """Its first line."""
        front = "suspected: " if self.is_suspected else "possible: " if self.is_possible else ""
        return front + self.words

    def lines(self, number: int) -> list[str]:
        """As lines, after its number in a list."""
        more = [f"the same was found {self.times:,} times"] if self.times > 1 else []
        return [f"{number}. {self.head()}", *(f"     {line}" for line in [*self.shown_by, *more]),
                f"     more: {self.look}"]


def worst_first(found: Iterable[Finding]) -> list[Finding]:
    """These in their order: what is only suspected stands after what the run shows, and what is possible at the
    end. Those of the same words are folded into the first of them."""
    folded: dict[str, Finding] = {}
    for each in sorted(found, key=lambda each: (each.is_possible, each.is_suspected, each.rank, each.step)):
        first = folded.get(each.head())
        folded[each.head()] = first._replace(times=first.times + each.times) if first else each
    return list(folded.values())
