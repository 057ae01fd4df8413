"""Draws which functions executed the instructions of a run, as SVG. Each of those that executed most has a bar
in the colours of the modes, and all others have one.
"""
import os
from collections import defaultdict
from collections.abc import Iterator
from xml.sax import saxutils

from nesthv_tools import drawing, event_logs, executed_code, timeline_drawing
from nesthv_tools.drawing import LETTER, ROW
from nesthv_tools.executed_code import Costs, Executed

Row = tuple[str, Costs]  # what a bar is called, and what it made

MOST = 24  # bars of functions
WIDTH, BAR, MARGIN = 512, 14, 14  # pixels of the longest bar, of a bar's height, and around all
TOP = ROW * 3
STYLE = f"{drawing.TEXT}{drawing.BOLD}"


def functions_of(executed: Executed) -> list[Row]:
    """Each function, the one that made most first. What is inlined is of the function that it is in, and what
    is in no ELF file is of its world."""
    found: dict[str, Costs] = defaultdict(lambda: executed_code.costs_of("", 0))
    has_many = sum(bool(costs) for costs in executed.costs.values()) > 1
    for code, costs in executed.costs.items():
        suffix = f" ({os.path.basename(code.path)})" * has_many
        for address, each in costs.items():
            name = code.elf.symbol_at(address).partition("+")[0] or f"page {address >> 12 << 12:x}"
            executed_code.add(found[name + suffix], each)
    for world, times in executed.unknown.items():
        if times:
            costs_of_world = executed_code.costs_of(world.mode, sum(times.values()))
            executed_code.add(found[f"no ELF file, {world.words()}"], costs_of_world)
    return sorted(found.items(), key=lambda row: (-sum(row[1]), row[0]))


def rows_of(executed: Executed) -> list[Row]:
    """The functions that have a bar of their own, and after them all others as one."""
    functions = functions_of(executed)
    others = functions[MOST:]
    if len(others) < 2:
        return functions
    name = f"{len(others):,} other functions"
    return [*functions[:MOST], (name, executed_code.sum_of(costs for _, costs in others))]


def bars_of(row: Row, x: int, y: int, scale: float) -> Iterator[str]:
    """The bar of a row from x on, a part of it for each mode."""
    name, costs = row
    place = float(x)
    for mode, count in zip(event_logs.MODES, costs):
        if count:
            title = saxutils.escape(f"{name}, {mode}: {count:,}")
            yield f'<rect x="{place:.2f}" y="{y + 3}" width="{count * scale:.2f}" height="{BAR}" ' \
                f'fill="{timeline_drawing.COLOURS[mode]}"><title>{title}</title></rect>'
        place += count * scale


def legend_of(rows: list[Row], left: int) -> Iterator[str]:
    """What the colours are, above the bars."""
    x = left
    for index, mode in enumerate(event_logs.MODES):
        if any(costs[index] for _, costs in rows):
            yield f'<rect x="{x}" y="{TOP - ROW - 8}" width="12" height="12" ' \
                f'fill="{timeline_drawing.COLOURS[mode]}"/>'
            yield f'<text x="{x + 18}" y="{TOP - ROW + 3}">{mode}</text>'
            x += 18 + int(len(mode) * LETTER) + timeline_drawing.GAP


def svg_of(executed: Executed, guest: str) -> str:
    """The picture of a guest's run."""
    rows = rows_of(executed)
    total = max(sum(sum(costs) for _, costs in rows), 1)
    title = saxutils.escape(f"{guest}: {total:,} instructions by function")
    left = MARGIN + int(max(len(name) for name, _ in rows) * LETTER) + 10
    scale = WIDTH / max(1, *(sum(costs) for _, costs in rows))
    parts = [f'<text class="title" x="{MARGIN}" y="20">{title}</text>', *legend_of(rows, left)]
    for number, row in enumerate(rows):
        y, count = TOP + ROW * number, sum(row[1])
        parts += [timeline_drawing.label(left, y, row[0]), *bars_of(row, left, y, scale)]
        x = left + count * scale + 8
        parts.append(f'<text x="{x:.2f}" y="{y + 14}">{100 * count / total:.1f} %</text>')
    height = TOP + ROW * len(rows) + MARGIN
    return drawing.picture(title, STYLE, left + WIDTH + int(9 * LETTER) + MARGIN, height, parts)
