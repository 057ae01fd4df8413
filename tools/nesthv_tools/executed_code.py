"""What of the code of each world was executed, and how often, by the counts of a log."""
from collections import defaultdict
from collections.abc import Iterable, Iterator
from typing import NamedTuple

from nesthv_tools import event_logs
from nesthv_tools.code_places import Code, Frames
from nesthv_tools.event_logs import Line

KINDS = ("counts",)  # of lines that are needed
NESTED = ("VS", "VU")
MOST_LOST, MOST_LOST_OF = 2, 50  # instructions that may lack one after them: 2, and one in 50

Costs = list[int]  # how many instructions, by mode


class World(NamedTuple):
    """A mode, and with V = 1 hgatp."""
    mode: str
    hgatp: int | None

    def words(self) -> str:
        return self.mode if self.hgatp is None else f"{self.mode} of hgatp {self.hgatp:x}"


class Files(NamedTuple):
    """The ELF files of the guest itself, those of its guests, and those of the guests of one hgatp, where
    they are named."""
    own: list[Code]
    nested: list[Code]
    by_hgatp: dict[int, list[Code]]

    def of(self, world: World) -> list[Code]:
        """Those of a world: none of V = 0 is one of V = 1, nor the other way."""
        if world.mode not in NESTED:
            return self.own
        return self.by_hgatp.get(world.hgatp or 0) or self.nested

    def all(self) -> list[Code]:
        return list(dict.fromkeys([*self.own, *self.nested, *(each for some in self.by_hgatp.values()
                                                              for each in some)]))


class Counts:
    """How often the instruction at each pc was executed, by world."""

    def __init__(self) -> None:
        self.worlds: dict[World, dict[int, int]] = defaultdict(dict)

    def take(self, line: Line) -> None:
        if line.kind == "count":
            world = World(line.mode, line.hgatp())
            self.worlds[world][line.number("pc")] = int(line.found["times"])


def costs_of(mode: str, times: int) -> Costs:
    return [times * (mode == each) for each in event_logs.MODES]


def add(costs: Costs, more: Costs) -> None:
    costs[:] = map(int.__add__, costs, more)


class Fit(NamedTuple):
    """How well an ELF file fits what is executed in a world: how many of the instructions it has, or none
    where it is another file by them. Below 0 it tells for how many it lacks the one after them."""
    has: int
    lost: int


def fit_of(code: Code, times: dict[int, int]) -> Fit:
    """How well an ELF file fits. Behind an instruction that neither jumps nor traps the next one is executed;
    but where the log ends, or a mode is left for good."""
    addresses = {code.address_of(pc) for pc in times} - {None}
    after = [code.next_of(address) for address in addresses if address is not None]
    known = [address for address in after if address is not None]
    lost = sum(address not in addresses for address in known)
    is_other = lost > MOST_LOST + len(known) // MOST_LOST_OF
    return Fit(0, 0) if is_other else Fit(len(addresses), -lost)


class Executed:
    """The costs of each executed instruction of each ELF file, and those at each pc of which no file is
    known, by world. Beside them what there is to say of them."""

    def __init__(self, counts: Counts, files: Files) -> None:
        self.costs: dict[Code, dict[int, Costs]] = {code: {} for code in files.all()}
        self.unknown: dict[World, dict[int, int]] = {}
        self.notices: list[str] = []
        for world, times in counts.worlds.items():
            self.add(world, times, files.of(world))

    def add(self, world: World, times: dict[int, int], files: list[Code]) -> None:
        """Adds the counts of a world. Of the files that fit, its own is the one that has most of its
        instructions, and of these the one that fits best."""
        fits = {code: fit_of(code, times) for code in files}
        best = [code for code in files if fits[code] == max(fits.values()) and fits[code].has]
        if len(best) > 1:
            names = " and ".join(code.path for code in best)
            self.notices.append(f"{names} both have what is executed in {world.words()}: neither is taken")
        code = best[0] if len(best) == 1 else None
        unknown = self.unknown.setdefault(world, {})
        for pc, count in times.items():
            address = code.address_of(pc) if code else None
            if code is None or address is None:
                unknown[pc] = count
            else:
                add(self.costs[code].setdefault(address, costs_of("", 0)), costs_of(world.mode, count))
        if unknown and not best:
            what = "1 instruction is" if len(unknown) == 1 else f"{len(unknown):,} instructions are"
            self.notices.append(f"{world.words()}: {what} of no ELF file")


class Piece:
    """The instructions of a function, or of one call of it that was inlined, which is told by the places of
    the calls. It has the first one's address, the first line, how often it was entered, and the costs of all."""

    def __init__(self, first: int, line: int, is_inlined: bool) -> None:
        self.first, self.line, self.is_inlined = first, line, is_inlined
        self.entries = self.least = 0
        self.costs = costs_of("", 0)

    def add(self, address: int, line: int, costs: Costs) -> None:
        """Adds an instruction of this line. A function is entered at its first instruction. Of what is
        inlined the compiler may move the first before a loop around it, so its first line tells."""
        times = sum(costs)
        if self.is_inlined and line < self.line:
            self.line, self.entries = line, times
        elif line == self.line if self.is_inlined else address == self.first:
            self.entries = max(self.entries, times)
        self.least = min(filter(None, (self.least, times)), default=0)
        add(self.costs, costs)

    def times(self) -> int:
        """How often it was entered, or where that is not known, how often the instruction was executed that
        was least often."""
        return self.entries or self.least


Key = tuple[str, str, Frames]  # a function, its file, and the places of the calls that were inlined


def keys_of(frames: Frames) -> Iterator[Key]:
    """The pieces that an instruction is in, the innermost first."""
    for index, frame in enumerate(frames):
        yield frame.function, frame.file, frames[index + 1:]


def pieces_of(places: dict[int, Frames], costs: dict[int, Costs]) -> dict[Key, Piece]:
    """The pieces of these instructions, which are in the order of their addresses."""
    pieces: dict[Key, Piece] = {}
    none = costs_of("", 0)
    for address, frames in places.items():
        for frame, key in zip(frames, keys_of(frames)):
            piece = pieces.setdefault(key, Piece(address, frame.line, bool(key[2])))
            piece.add(address, frame.line, costs.get(address, none))
    return pieces


def sum_of(parts: Iterable[Costs]) -> Costs:
    """The sum of these costs."""
    total = costs_of("", 0)
    for each in parts:
        add(total, each)
    return total
