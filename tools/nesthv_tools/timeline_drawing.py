"""Draws a timeline as SVG: a row for each mode of each world, and below them rows of marks. A long run is cut
into columns of as many steps each, and a column is drawn in the row in which most of its steps are. In
another row that has some of them it is pale.
"""
from collections import Counter
from typing import TypeVar
from xml.sax import saxutils

from nesthv_tools import drawing, timelines
from nesthv_tools.drawing import LETTER, ROW
from nesthv_tools.timelines import Mark, Stretch, Visit

Row = tuple[str, str]  # a world, and a mode
T = TypeVar("T")

COLUMNS = 1024  # at most, where nothing else is asked for
WIDTH, BAR = 1024, 14  # pixels of all columns, and of the height of a bar
MARGIN, GAP = 14, 24
TOP = ROW * 2
MOST_WORLDS, PALE = 16, ".3"
OTHERS = "other guests"
BLUE, BROWN, GREEN, PURPLE, YELLOW, CYAN = drawing.COLOURS
COLOURS = {"HS": BLUE, "U": CYAN, "VS": BROWN, "VU": YELLOW, "V = 0": BLUE, "V = 1": BROWN}
MARK_COLOURS = {"traps": drawing.GREY, "fences": GREEN, "inputs": PURPLE, "stale uses": drawing.RED}
ORDER = list(COLOURS)
STYLE = f"{drawing.TEXT}{drawing.BOLD}.axis{{stroke:#000}}.grid{{stroke:#ddd}}"


def row_of(visit: Visit, mode: str | None) -> Row:
    return visit.world(), mode or ("V = 1" if visit.is_nested else "V = 0")


def joined(columns: list[Counter[T]]) -> list[Counter[T]]:
    """These columns, each two of them as one."""
    return [sum(columns[at:at + 2], Counter()) for at in range(0, len(columns), 2)]


class Columns:
    """The steps of a run from `start` on, in at most `most` columns, each of as many. Where there are more
    steps, two columns are made one."""

    def __init__(self, start: int, most: int) -> None:
        self.start, self.most = start, most
        self.end, self.width = start, 1
        self.rows: list[Counter[Row]] = []
        self.marks: list[Counter[str]] = []

    def reach(self, end: int) -> None:
        """Has columns for the steps up to `end`."""
        if end <= self.end:
            return
        self.end = end
        while self.end - self.start > self.most * self.width:
            self.width *= 2
            self.rows = joined(self.rows)
            self.marks = joined(self.marks)
        count = -(-(self.end - self.start) // self.width)
        self.rows += [Counter() for _ in range(count - len(self.rows))]
        self.marks += [Counter() for _ in range(count - len(self.marks))]

    def index(self, step: int) -> int:
        """The column of a step."""
        return (step - self.start) // self.width

    def first(self, index: int) -> int:
        """The first step of a column, or of what is after the last one."""
        return min(self.start + index * self.width, self.end)

    def add(self, row: Row, start: int, end: int) -> None:
        """Adds steps to a row."""
        self.reach(end)
        for index in range(self.index(start), self.index(end - 1) + 1):
            self.rows[index][row] += min(end, self.first(index + 1)) - max(start, self.first(index))

    def mark(self, kind: str, step: int) -> None:
        self.reach(step + 1)
        self.marks[self.index(step)][kind] += 1

    def place(self, index: int) -> float:
        """Where a column begins, in pixels from the first."""
        return round(index * WIDTH / len(self.rows), 2)

    def runs(self, chosen: list[bool]) -> list[tuple[int, int]]:
        """The columns that are chosen, those beside each other together: the first, and that after the
        last."""
        edges = [index for index, pair in enumerate(zip([False, *chosen], [*chosen, False]))
                 if pair[0] != pair[1]]
        return list(zip(edges[::2], edges[1::2]))


class Drawing:
    """Takes a timeline, and draws it in at most `most` columns."""

    def __init__(self, guest: str, most: int = COLUMNS) -> None:
        self.guest, self.columns = guest, Columns(0, most)
        self.worlds: dict[str, int] = {}  # in the order of their rows
        self.modes: set[Row] = set()
        self.marks: Counter[str] = Counter()
        self.world("HS")

    def world(self, world: str) -> str:
        """The world itself, or all for which there is no more room."""
        if world not in self.worlds and len(self.worlds) > MOST_WORLDS:
            world = OTHERS
        self.worlds.setdefault(world, len(self.worlds))
        return world

    def take(self, item: Stretch | Mark) -> None:
        if not self.columns.end:
            self.columns = Columns(item.visit.start, self.columns.most)
        if isinstance(item, Mark):
            self.columns.mark(item.kind, item.step)
            self.marks[item.kind] += 1
            return
        world, mode = row_of(item.visit, item.mode)
        row = self.world(world), mode
        self.modes.add(row)
        self.columns.add(row, item.start, item.end)

    def rows(self) -> list[Row]:
        """The rows from above: HS, and then the guests as they came."""
        return sorted(self.modes, key=lambda row: (self.worlds[row[0]], ORDER.index(row[1])))

    def name_of(self, row: Row) -> str:
        """The label of a row."""
        return row[1] if row[0] == "HS" else f"{row[1]}, {row[0]}"

    def name_of_marks(self, kind: str) -> str:
        count = self.marks[kind]
        return f"{count:,} {kind if count > 1 else kind.removesuffix('s')}"

    def parts_of_rows(self, left: int) -> list[str]:
        """The rows of the modes, each with its label, and those of the marks."""
        most = [column.most_common(1)[0][0] if column else None for column in self.columns.rows]
        found, y = [], TOP
        for row in self.rows():
            name = self.name_of(row)
            found.append(label(left, y, name))
            some = [row in column and each != row for column, each in zip(self.columns.rows, most)]
            found += self.bars(left, y, f'{COLOURS[row[1]]}" fill-opacity="{PALE}', f"some of {name}", some)
            found += self.bars(left, y, COLOURS[row[1]], name, [each == row for each in most])
            y += ROW
        for kind in timelines.MARKS:
            if self.marks[kind]:
                found.append(label(left, y, self.name_of_marks(kind)))
                has = [bool(each[kind]) for each in self.columns.marks]
                found += self.bars(left, y, MARK_COLOURS[kind], kind, has)
                y += ROW
        return found

    def bars(self, left: int, y: int, colour: str, name: str, chosen: list[bool]) -> list[str]:
        """The bars of a row, each of which says its steps."""
        columns, found = self.columns, []
        for first, last in columns.runs(chosen):
            x, width = columns.place(first), columns.place(last) - columns.place(first)
            start, end = columns.first(first), columns.first(last) - 1
            steps = f"step {start:,}" if start == end else f"steps {start:,} to {end:,}"
            title = saxutils.escape(f"{name}: {steps}")
            found.append(f'<rect x="{left + x:.2f}" y="{y + 3}" width="{width:.2f}" height="{BAR}" '
                         f'fill="{colour}"><title>{title}</title></rect>')
        return found

    def height(self) -> int:
        """Where the axis is."""
        return TOP + ROW * (len(self.modes) + sum(map(bool, self.marks.values()))) + 4

    def parts_of_axis(self, left: int) -> list[str]:
        """The axis below the rows, and a line above each of its numbers."""
        columns, y = self.columns, self.height()
        start = columns.start
        steps = len(columns.rows) * columns.width
        found = [f'<path class="axis" d="M{left} {y}H{left + WIDTH}"/>']
        for step in marks_of_axis(start, start + steps):
            x = left + (step - start) * WIDTH / steps
            found += [f'<path class="grid" d="M{x:.2f} {TOP}V{y}"/>',
                      f'<path class="axis" d="M{x:.2f} {y}v5"/>',
                      f'<text text-anchor="middle" x="{x:.2f}" y="{y + 18}">{step:,}</text>']
        return found

    def parts_of_legend(self, y: int) -> list[str]:
        """What the colours are, and what a column is."""
        modes = [mode for mode in ORDER if any(row[1] == mode for row in self.modes)]
        named = [(mode, COLOURS[mode]) for mode in modes]
        named += [(kind, MARK_COLOURS[kind]) for kind in timelines.MARKS if self.marks[kind]]
        found, x = [], float(MARGIN)
        for name, colour in named:
            found += [f'<rect x="{x:.2f}" y="{y}" width="12" height="12" fill="{colour}"/>',
                      f'<text x="{x + 18:.2f}" y="{y + 11}">{name}</text>']
            x += 18 + len(name) * LETTER + GAP
        width = self.columns.width
        words = f"a column is {width:,} steps, drawn in the row in which most of them are; pale where a " \
            "row has some of them" if width > 1 else "a column is one step"
        return [*found, f'<text x="{MARGIN}" y="{y + ROW + 11}">{words}</text>']

    def svg(self) -> str:
        columns = self.columns
        title = saxutils.escape(f"{self.guest}: steps {columns.start:,} to {columns.end - 1:,}")
        names = [self.name_of(row) for row in self.modes] + [self.name_of_marks(kind) for kind in self.marks]
        longest = max(map(len, names))
        left = MARGIN + int(longest * LETTER) + 10
        y = self.height() + ROW * 2
        texts = [f'<text class="title" x="{MARGIN}" y="20">{title}</text>',
                 f'<text x="{left + WIDTH}" y="{self.height() + 34}" text-anchor="end">step</text>']
        parts = [*texts, *self.parts_of_axis(left), *self.parts_of_rows(left), *self.parts_of_legend(y)]
        return drawing.picture(title, STYLE, left + WIDTH + 5 * MARGIN, y + ROW * 2 + MARGIN, parts)


def label(left: int, y: int, name: str) -> str:
    """The label of a row, on its left."""
    return f'<text text-anchor="end" x="{left - 8}" y="{y + 14}">{saxutils.escape(name)}</text>'


def marks_of_axis(start: int, end: int) -> range:
    """The steps that the axis names: multiples of 1, 2 or 5 times a power of ten, as many as have room."""
    wide = len(f"{end:,}") * LETTER + GAP
    most = max(int(WIDTH // wide), 1)
    apart = next(front * 10**power for power in range(20) for front in (1, 2, 5)
                 if (end - start) // (front * 10**power) < most)
    return range(-(-start // apart) * apart, end + 1, apart)
