"""Shows what is in a file that `nesthv save` wrote: the guest's sizes, how far it is, its registers, its
unread inputs, its cached translations, and where its RAM is. With --console it writes the bytes of the
console, and with --ram those of RAM, and nothing else.

The status is 0, or 2 where the file is not a saved guest, which is said in words, or cannot be read.
"""
import os
from collections.abc import Iterable

from nesthv_tools import command_line, saves, streams, terminal

USAGE = "%(prog)s [--console | --ram] FILE"
EXAMPLES = """examples:
  nesthv save hello.toml 0 > hello.saved
  %(prog)s hello.saved
  %(prog)s --console hello.saved
  %(prog)s --ram hello.saved > hello.ram    may be an image of another guest
"""


def read_at(path: str) -> bytes:
    with open(path if path != "-" else 0, "rb") as file:
        return file.read(saves.MOST_BYTES)


def number_lines(names: Iterable[str], numbers: dict[str, int]) -> list[str]:
    """The numbers of these names, three in a line."""
    cells = [f"{name:<10} {numbers[name]:016x}" for name in names]
    return ["  ".join(cells[at:at + 3]).rstrip() for at in range(0, len(cells), 3)]


def space_lines(key: int, entries: list[saves.Entry]) -> list[str]:
    lines = [f"space {key:016x}: {len(entries)} entries, oldest first"]
    for page, frame, flags in entries:
        rights = "".join(letter if flags >> bit & 1 else "-" for bit, letter in enumerate("rwx"))
        lines.append(f"  page {page:x} frame {frame:x} {rights} level {flags >> 3}")
    return lines


def first_lines(first: list[saves.First]) -> list[str]:
    lines = [f"first stage: {len(first)} entries, oldest first"]
    for entry in first:
        bits = zip((0, 1, 2, 5), "rwxu")
        rights = "".join(letter if entry.flags >> bit & 1 else "-" for bit, letter in bits)
        who = f"hgatp {entry.hgatp:016x} vsatp" if entry.v else "satp"
        lines.append(f"  {who} {entry.atp:016x} page {entry.page:x} frame {entry.frame:x} {rights} level "
                     f"{entry.flags >> 3 & 3}")
    return lines


def lines_of(saved: saves.Saved, length: int) -> list[str]:
    number = saved.numbers
    lines = [f"{saves.STATUSES[number['status']]} in {saves.MODES[number['mode']]}, steps {number['steps']}, "
             f"clock {number['clock']}, timer {number['timer']}",
             f"blocks {number['blocks']}, spaces {number['spaces']}, entries {number['entries']}, console "
             f"{number['console']}, device {number['device']}",
             f"{len(saved.console)} console bytes, {len(saved.inputs)} unread inputs, {len(saved.spaces)} of "
             f"{number['spaces']} spaces",
             f"RAM from offset {saved.front} to {length}"]
    lines += number_lines(saves.NAMES[10:42], number) + number_lines(saves.REGISTERS, number)
    if number["reservation width"]:
        lines.append(f"reservation of {number['reservation width']} bytes at "
                     f"{number['reservation address']:x}")
    lines += [f"input {byte} at {moment}" for moment, byte in saved.inputs]
    for key, entries in saved.spaces:
        lines += space_lines(key, entries)
    return lines + (first_lines(saved.first) if saved.has_first() else [])


def main() -> int:
    parser = command_line.Parser(__doc__, USAGE, EXAMPLES)
    parser.add_argument("file", metavar="FILE", help="the file, or `-` for standard input")
    only = parser.add_mutually_exclusive_group()
    only.add_argument("--console", action="store_true", help="writes the bytes of the console")
    only.add_argument("--ram", action="store_true", help="writes the bytes of RAM")
    parser.add_argument("--raw", action="store_true",
                        help="writes control characters of the console to a terminal as they are, and does "
                        "not show them as \\x1b")
    options = parser.parse_args()
    data = read_at(options.file)
    try:
        saved = saves.Saved(data)
    except saves.Wrong as why:
        streams.say(f"{options.file} is not a saved guest: {why}")
        return 2
    if options.ram and os.isatty(1):
        parser.error("--ram writes bytes to standard output, which is a terminal: give it a file, by `>FILE`")
    if options.console or options.ram:
        output = terminal.Output(options.raw)
        streams.write(output.of(saved.console, True) if options.console else data[saved.front:])
        return 0
    print("\n".join(lines_of(saved, len(data))))
    return 0
