"""Writes what was executed in the form of callgrind, which kcachegrind and callgrind_annotate read. A call
that the compiler has inlined is shown as a call.
"""
from collections import defaultdict
from collections.abc import Iterator

from nesthv_tools import event_logs, executed_code
from nesthv_tools.code_places import Code, Frames
from nesthv_tools.executed_code import Costs, Executed, Key, Piece

HEAD = """# callgrind format
version: 1
creator: nesthv-profile
cmd: {command}
positions: instr line
event: Ir : instructions
{modes}events: Ir {names}
"""
UNKNOWN = "???"  # callgrind's own word for a file that is not known


def shown(costs: Costs) -> str:
    """Costs as they stand in the file: of all modes, and of each."""
    return " ".join(map(str, (sum(costs), *costs)))


def name_of(function: str, address: int) -> str:
    """A function's name, or the page of an instruction that is of none."""
    return function or f"page {address >> 12 << 12:x}"


class Function:
    """A function in one file: lines for its own instructions, and for its calls that were inlined."""

    def __init__(self) -> None:
        self.own: list[str] = []
        self.calls: list[str] = []


Functions = dict[tuple[str, str], Function]  # by file and name


def functions_of(places: dict[int, Frames], costs: dict[int, Costs]) -> Functions:
    """The functions of an ELF file of which something was executed."""
    found: Functions = defaultdict(Function)
    for address, frames in places.items():
        frame = frames[0]
        own = found[frame.file, name_of(frame.function, address)].own
        own.append(f"{address:#x} {frame.line} {shown(costs[address])}")
    for key, piece in executed_code.pieces_of(places, costs).items():
        if key[2]:
            frame = key[2][0]
            caller = found[frame.file, name_of(frame.function, piece.first)]
            caller.calls += lines_of_call(key, piece, places[piece.first])
    return found


def lines_of_call(key: Key, piece: Piece, frames: Frames) -> list[str]:
    """The lines of a call that was inlined: what is called, how often and where, and what it costs."""
    function, file, outer = key
    inner = frames[len(frames) - len(outer) - 1]
    return [f"cfi={file or UNKNOWN}", f"cfn={name_of(function, piece.first)}",
            f"calls={piece.times()} {piece.first:#x} {inner.line}",
            f"{piece.first:#x} {outer[0].line} {shown(piece.costs)}"]


def lines_of_code(code: Code, costs: dict[int, Costs]) -> Iterator[str]:
    """The lines of an ELF file."""
    yield f"ob={code.path}"
    for (file, name), function in sorted(functions_of(code.frames_of(costs), costs).items()):
        yield from ["", f"fl={file or UNKNOWN}", f"fn={name}", *function.own, *function.calls]


def lines_of_world(world: executed_code.World, times: dict[int, int]) -> Iterator[str]:
    """The lines of what is of no ELF file, by pages."""
    yield from [f"ob={world.words()}", "", f"fl={UNKNOWN}"]
    page = None
    for pc, count in sorted(times.items()):
        if pc >> 12 != page:
            page = pc >> 12
            yield f"fn={name_of('', pc)} in {world.words()}"
        yield f"{pc:#x} 0 {shown(executed_code.costs_of(world.mode, count))}"


def lines_of(executed: Executed, command: str) -> Iterator[str]:
    """The lines of the file, where the log is that of a command."""
    modes = "".join(f"event: {mode} : instructions in {mode}\n" for mode in event_logs.MODES)
    yield HEAD.format(command=command, modes=modes, names=" ".join(event_logs.MODES))
    for code, costs in executed.costs.items():
        if costs:
            yield from [*lines_of_code(code, costs), ""]
    for world, times in executed.unknown.items():
        if times:
            yield from [*lines_of_world(world, times), ""]
    known = [each for costs in executed.costs.values() for each in costs.values()]
    others = [executed_code.costs_of(world.mode, sum(times.values()))
              for world, times in executed.unknown.items()]
    yield f"totals: {shown(executed_code.sum_of([*known, *others]))}"
