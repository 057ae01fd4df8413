"""Draws the address spaces of a guest as SVG: who maps what to whom. Each usable range is a box, and a band
goes from it to what it is mapped to, in the colour of its table. A box of RAM says which tables map it, and
how. A dashed line is a cached translation that is stale.
"""
from xml.sax import saxutils
from collections.abc import Iterator
from typing import Any

from nesthv_tools import saves

Map = dict[str, Any]  # what presentation.maps_of gives, or a part of it
Group = int | str | None  # hgatp of the boxes of a column that belong together

ROW, LEAST, SPACE, TOP, LETTER = 20, 250, 130, 30, 7.4  # LETTER is the width of one, or a little more
MOST, MOST_NAMES = 200, 4  # boxes of a column; tables in a box of RAM
COLOURS = ["#3566b0", "#b06a1f", "#3f8f4f", "#8a4fa0", "#a8873a", "#2f8f95"]
GREY = "#777777"
RED = "#c22"
TEXT, BOLD = "text{font:12px monospace}", ".title{font-weight:bold}"
STYLE = f"{TEXT}.stale{{fill:none;stroke:{RED};stroke-width:1.5;stroke-dasharray:4 3}}{BOLD}" \
    ".band{fill-opacity:.3;stroke-opacity:.6}"
STALE = "dashed: a cached translation that is stale"
PRESENT = "present: hgatp names this table now"
UNITS = ((1 << 30, "GiB"), (1 << 20, "MiB"), (1 << 10, "KiB"), (1, "bytes"))


class Box:
    """Addresses of a group from `start` to `end`, at a place of a column."""

    def __init__(self, group: Group, start: int, end: int, y: int) -> None:
        self.group, self.start, self.end, self.y = group, start, end, y


class Column:
    """Titles and boxes below each other. `x` is known once the columns on the left have their widths."""

    def __init__(self) -> None:
        self.x, self.y, self.width = 0, TOP, LEAST
        self.boxes: list[Box] = []
        self.rows: list[tuple[int, str, str, str | None]] = []

    def write(self, text: str, kind: str, colour: str | None = None) -> None:
        self.width = max(self.width, int(len(text) * LETTER) + 12)
        self.rows.append((self.y, text, kind, colour))
        self.y += ROW

    def title(self, text: str) -> None:
        self.y += ROW // 2
        self.write(text, "title")

    def box(self, group: Group, start: int, size: int, text: str, colour: str) -> Box:
        if len(self.boxes) == MOST:
            self.write("and more", "title")
        box = Box(group, start, start + size, min(self.y, TOP + ROW * 2 * MOST))
        self.boxes.append(box)
        if len(self.boxes) <= MOST:
            self.write(f"{start:#x}, {shown_size(size)}: {text}", "label", colour)
        return box

    def places(self, group: Group, start: int, end: int) -> list[int]:
        """Where the boxes of a group are that have some of these addresses."""
        return [box.y for box in self.boxes[:MOST]
                if box.group == group and box.start < end and start < box.end]

    def parts(self) -> Iterator[str]:
        for y, text, kind, colour in self.rows:
            if colour:
                yield f'<rect x="{self.x}" y="{y}" width="{self.width}" height="{ROW}" fill="{colour}" ' \
                    f'fill-opacity=".12" stroke="{colour}"/>'
            yield f'<text class="{kind}" x="{self.x + 4}" y="{y + 14}">{saxutils.escape(text)}</text>'


class Band:
    """What leads from a box of one column to boxes of another, which lie below each other: a band in a
    colour, or a dashed line."""

    def __init__(self, left: Column, y: int, right: Column, places: list[int],
                 colour: str | None = None) -> None:
        self.left, self.y, self.right, self.places, self.colour = left, y, right, places, colour

    def part(self) -> str:
        x, to = self.left.x + self.left.width, self.right.x
        low, high = min(self.places), max(self.places) + ROW
        if not self.colour:
            return f'<path class="stale" d="M{x} {self.y + ROW // 2}L{to} {(low + high) // 2}"/>'
        return f'<path class="band" fill="{self.colour}" stroke="{self.colour}" ' \
            f'd="M{x} {self.y}L{to} {low}L{to} {high}L{x} {self.y + ROW}Z"/>'


def shown_size(size: int) -> str:
    """A size in the largest unit of which it is a multiple."""
    unit, name = next((unit, name) for unit, name in UNITS if size % unit == 0)
    return f"{size // unit:,} {name}"


def pieces_of(ranges: list[tuple[int, int]]) -> list[tuple[int, int]]:
    """These ranges, each a start and an end, cut where one of them begins or ends, without what none has."""
    edges = sorted({edge for pair in ranges for edge in pair})
    return [(low, high) for low, high in zip(edges, edges[1:])
            if any(start <= low and high <= end for start, end in ranges)]


def usable(found: Map) -> list[Map]:
    return [part for part in found["ranges"] if not part["wrong"]][:MOST]


def title_of(each: Map) -> str:
    """The title of a table's boxes."""
    return f"{each['what']}, {each['table']}".replace(" root ", " root 0x")


def short_name(each: Map) -> str:
    """What a box of RAM says of a table that maps it."""
    return "satp" if each["register"] == "satp" else f"VMID {each['value'] >> 44 & 0x7F}"


class Drawing:
    """The columns and bands of what `maps` shows: VS, what HS and each hgatp have, and RAM."""

    def __init__(self, found: Map) -> None:
        *to_ram, self.own = found["maps"]
        self.maps = [each for each in to_ram if each["value"]]
        self.colours = {id(each): COLOURS[number % len(COLOURS)] for number, each in enumerate(self.maps)}
        self.stale = [(each, entry) for each in self.maps for entry in each.get("cached", [])
                      if entry["page"] in {other["page"] for other in each["stale"]}]
        self.nested, self.middle, self.ram = Column(), Column(), Column()
        self.bands: list[Band] = []
        self.draw_ram()
        self.draw_middle()
        self.draw_nested()

    def draw_ram(self) -> None:
        mapped = [(part["to"], part["to"] + part["size"], f"{short_name(each)} {part['rights']}")
                  for each in self.maps for part in usable(each)]
        mapped += [(entry["frame"], entry["frame"] + 4096, f"{short_name(each)} {entry['rights']} stale")
                   for each, entry in self.stale]
        self.ram.title("RAM of the guest, and which tables map it")
        for low, high in pieces_of([(start, end) for start, end, _ in mapped]):
            who = list(dict.fromkeys(words for start, end, words in mapped if start <= low and high <= end))
            who = who[:MOST_NAMES] + ([f"and {len(who) - MOST_NAMES} more"] if len(who) > MOST_NAMES else [])
            what = "the device page, " if low == saves.DEVICE else ""
            self.ram.box("", low, high - low, what + ", ".join(who), GREY)

    def draw_middle(self) -> None:
        for each in self.maps:
            colour, present = self.colours[id(each)], {True: ", present"}.get(each.get("is_present"), "")
            self.middle.title(f"{title_of(each)}{present}")
            for part in usable(each):
                box = self.middle.box(each["value"], part["start"], part["size"], part["rights"], colour)
                places = self.ram.places("", part["to"], part["to"] + part["size"])
                self.lead(self.middle, box, self.ram, places, colour)
        for each, entry in self.stale:
            places = self.middle.places(each["value"], entry["page"] << 12, (entry["page"] << 12) + 1)
            to = self.ram.places("", entry["frame"], entry["frame"] + 1)
            self.bands += [Band(self.middle, y, self.ram, to) for y in places if to]

    def draw_nested(self) -> None:
        present = next((each["value"] for each in self.maps if each.get("is_present")), None)
        self.nested.title(title_of(self.own))
        for number, part in enumerate(usable(self.own)):
            colour = COLOURS[-1 - number % len(COLOURS)]
            box = self.nested.box("", part["start"], part["size"], part["rights"], colour)
            places = self.middle.places(present, part["to"], part["to"] + part["size"])
            self.lead(self.nested, box, self.middle, places, colour)
        stale = {other["page"] for other in self.own["stale"]}
        for entry in [each for each in self.own["cached"] if each["page"] in stale]:
            to = self.middle.places(present, entry["frame"], entry["frame"] + 1)
            places = self.nested.places("", entry["page"] << 12, (entry["page"] << 12) + 1)
            self.bands += [Band(self.nested, y, self.middle, to) for y in places if to]

    def lead(self, left: Column, box: Box, right: Column, places: list[int], colour: str) -> None:
        if places:
            self.bands.append(Band(left, box.y, right, places, colour))

    def columns(self) -> list[Column]:
        """The columns that have boxes, from left to right, each at its place."""
        columns, x = [column for column in (self.nested, self.middle, self.ram) if column.boxes], 10
        for column in columns:
            column.x, x = x, x + column.width + SPACE
        return columns

    def legend(self) -> list[str]:
        has_stale = self.stale or self.own["stale"]
        return [PRESENT] * any(each.get("is_present") for each in self.maps) + [STALE] * bool(has_stale)

    def svg(self, step: int) -> str:
        columns, title = self.columns(), f"Address spaces at step {step}"
        if not columns:
            title += ": no table maps an address"
        width = max([column.x + column.width + 10 for column in columns] + [int(len(title) * LETTER) + 28])
        bottom = max([column.y for column in columns], default=TOP)
        legend = self.legend()
        texts = [f'<text class="title" x="14" y="18">{title}</text>']
        texts += [f'<text x="14" y="{bottom + ROW * number}">{line}</text>'
                  for number, line in enumerate(legend, 1)]
        height = bottom + ROW * len(legend) + ROW // 2
        bands = (band.part() for band in self.bands if band.left in columns and band.right in columns)
        parts = [*texts, *bands, *(part for column in columns for part in column.parts())]
        return picture(title, STYLE, width, height, parts)


def picture(title: str, style: str, width: int, height: int, parts: list[str]) -> str:
    """A picture of these parts, on white."""
    size = f'width="{width}" height="{height}"'
    head = f'<svg xmlns="http://www.w3.org/2000/svg" {size} viewBox="0 0 {width} {height}">'
    return "\n".join([f"{head}<title>{title}</title><style>{style}</style>", f'<rect {size} fill="#fff"/>',
                      *parts, "</svg>"]) + "\n"


def svg_of(found: Map) -> str:
    """The drawing of what `maps` shows."""
    return Drawing(found).svg(found["step"])
