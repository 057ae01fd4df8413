"""Writes what was executed in the form of lcov, of which genhtml makes pages and lcov sums."""
from collections import defaultdict
from collections.abc import Iterator

from nesthv_tools import executed_code
from nesthv_tools.code_places import Code, Frames
from nesthv_tools.executed_code import Costs, Executed


class Source:
    """What was executed of a file: how often each line that has code, and each function, with its first
    line."""

    def __init__(self) -> None:
        self.lines: dict[int, int] = {}
        self.functions: dict[str, tuple[int, int]] = {}

    def add_line(self, line: int, times: int) -> None:
        self.lines[line] = self.lines.get(line, 0) + times

    def add_function(self, name: str, line: int, times: int) -> None:
        first, before = self.functions.get(name, (line, 0))
        self.functions[name] = min(first, line), before + times

    def text(self, path: str) -> Iterator[str]:
        yield f"SF:{path}"
        for name, (line, _) in self.functions.items():
            yield f"FN:{line},{name}"
        for name, (_, times) in self.functions.items():
            yield f"FNDA:{times},{name}"
        hit = sum(times > 0 for _, times in self.functions.values())
        yield from [f"FNF:{len(self.functions)}", f"FNH:{hit}"]
        for line, times in sorted(self.lines.items()):
            yield f"DA:{line},{times}"
        yield from [f"LF:{len(self.lines)}", f"LH:{sum(times > 0 for times in self.lines.values())}",
                    "end_of_record"]


Sources = dict[str, Source]  # by path


def add_code(sources: Sources, code: Code, costs: dict[int, Costs]) -> None:
    """Adds an ELF file, of which these instructions were executed. A line is executed as often as the one of
    its instructions that is so most often; or as a call that is inlined there. What is inlined at some places
    is summed up."""
    places = code.frames_of(code.addresses())
    lines: dict[Frames, int] = defaultdict(int)
    for address, frames in places.items():
        lines[frames] = max(lines[frames], sum(costs.get(address, ())))
    pieces = executed_code.pieces_of(places, costs)
    for (function, file, outer), piece in pieces.items():
        if file and function:
            sources[file].add_function(function, piece.line, piece.times())
        if outer:
            lines[outer] = max(lines[outer], piece.times())
    for (frame, *_), times in lines.items():
        if frame.line:
            sources[frame.file].add_line(frame.line, times)


def sources_of(executed: Executed) -> Sources:
    """The sources of all ELF files."""
    found: Sources = defaultdict(Source)
    for code, costs in executed.costs.items():
        add_code(found, code, costs)
    return {path: source for path, source in sorted(found.items()) if source.lines}


def lines_of(sources: Sources, name: str) -> Iterator[str]:
    """The lines of the file, for a test of this name."""
    for path, source in sources.items():
        yield from [f"TN:{name}", *source.text(path)]
