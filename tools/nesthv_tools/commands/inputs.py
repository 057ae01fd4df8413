"""Makes a file of inputs, which `input` of a guest names in format 2, of a text; with --text a text of such a
file. A line of the text is a moment of the guest's clock, and the bytes that come from then on, one at each
moment: texts in double quotes, in UTF-8, with the escapes \\n, \\r, \\t, \\", \\\\ and \\xHH, and numbers
from 0 to 255. Numbers are decimal, or hexadecimal after 0x. What stands after # is a comment.

No moment is less than the one before, and two lines may have the same one. Moments are below 2^62, and there
are at most 65,536 bytes. The status is 0, or 2 where a line or a record is wrong, or a file fails: then
nothing is written.
"""
import os
import re
from argparse import Namespace
from collections.abc import Iterator

from nesthv_tools import command_line, records, streams, whole_files

Pairs = list[tuple[int, int]]

MOST_TEXT = 1 << 24  # bytes of a text
MOST_SHOWN = 64  # bytes of a line that --text writes
USAGE = "%(prog)s [--text] IN [OUT]"
EXAMPLES = """examples:
  %(prog)s typed.txt typed.inputs      makes the file of the text
  %(prog)s --text typed.inputs         prints the text of the file
  echo '10 "hello\\n"' | %(prog)s - typed.inputs
where typed.txt may be
  10 "hello\\n"                # h at moment 10, e at 11, and so on
  100 "h"                     # two bytes at one moment
  100 "i"
  2500 0x1b "[A" 13           # numbers and texts may stand together
"""
WORD = re.compile(r'\s*(?:(?P<comment>#.*)|"(?P<text>(?:[^"\\]|\\.)*)"|(?P<number>[^\s"#]+)|(?P<open>"))')
NUMBER = re.compile(r"0[xX][0-9a-fA-F][0-9a-fA-F_]*|[0-9][0-9_]*")
ESCAPE = re.compile(r"\\(x[0-9a-fA-F]{2}|.)")
ESCAPES = {"n": 10, "r": 13, "t": 9, '"': 34, "\\": 92}
SHOWN = {byte: "\\" + letter for letter, byte in ESCAPES.items()}
MOMENT = "moment: a line begins with one, an integer from 0 to 2^62 - 1"
BYTE = "byte: an integer from 0 to 255, or a text in double quotes"
say = streams.say


class Wrong(Exception):
    """What is wrong with a text or a file, in words."""


def number_of(text: str, most: int, what: str) -> int:
    try:
        value = int(text, 16 if text[:2] in ("0x", "0X") else 10) if NUMBER.fullmatch(text) else -1
    except ValueError:  # an underscore at its end; thousands of digits
        value = -1
    if not 0 <= value <= most:
        raise Wrong(f"{text[:40]} is not a {what}")
    return value


def bytes_of_text(text: str) -> bytes:
    """The bytes of a text, whose escapes stand for one each."""
    made, at = bytearray(), 0
    for found in ESCAPE.finditer(text):
        made += text[at:found.start()].encode()
        code = found[1]
        if len(code) == 1 and code not in ESCAPES:
            raise Wrong(f"\\{code} is not an escape: \\n, \\r, \\t, \\\", \\\\ and \\xHH are")
        made.append(int(code[1:], 16) if len(code) == 3 else ESCAPES[code])
        at = found.end()
    return bytes(made + text[at:].encode())


def pieces_of(line: str) -> Iterator[re.Match[str]]:
    """The numbers and texts of a line, up to its comment or its end."""
    line, at = line.rstrip(), 0
    while at < len(line):
        found = WORD.match(line, at)
        if not found:
            return
        at = found.end()
        if found["open"]:
            raise Wrong("a text has no end: a double quote is missing")
        if found["comment"]:
            return
        yield found


def bytes_of_piece(piece: re.Match[str]) -> bytes:
    if piece["number"]:
        return bytes([number_of(piece["number"], 255, BYTE)])
    return bytes_of_text(piece["text"])


def words_of(line: str) -> tuple[int | None, bytes]:
    """The moment of a line, or none where the line is empty, and its bytes."""
    pieces = list(pieces_of(line))
    if not pieces:
        return None, b""
    moment = number_of(pieces[0][0].strip(), records.END - 1, MOMENT)
    made = b"".join(map(bytes_of_piece, pieces[1:]))
    if not made:
        raise Wrong(f"no byte follows the moment {moment}")
    return moment, made


def pairs_of_line(line: str, pairs: Pairs) -> Pairs:
    """The pairs that a line adds to those before it."""
    moment, made = words_of(line)
    if moment is None:
        return []
    if pairs and moment < pairs[-1][0]:
        raise Wrong(f"the moment {moment} is less than {pairs[-1][0]}, that of the byte before")
    if moment + len(made) > records.END:
        raise Wrong(f"the last of {len(made)} bytes from moment {moment} on comes too late: moments are "
                    "below 2^62")
    if len(pairs) + len(made) > records.MOST:
        raise Wrong(f"this makes more than {records.MOST:,} bytes, which are the most")
    return [(moment + index, byte) for index, byte in enumerate(made)]


def pairs_of_text(data: bytes) -> Pairs:
    """The pairs of a text, given as bytes."""
    if len(data) > MOST_TEXT:
        raise Wrong(f"it has more than {MOST_TEXT:,} bytes")
    pairs: Pairs = []
    for number, line in enumerate(data.split(b"\n"), 1):
        try:
            pairs += pairs_of_line(line.decode(), pairs)
        except UnicodeDecodeError:
            raise Wrong(f"line {number}: it is not UTF-8: write other bytes as \\xHH") from None
        except Wrong as why:
            raise Wrong(f"line {number}: {why}") from None
    return pairs


def shown(byte: int) -> str:
    return SHOWN.get(byte) or (chr(byte) if 32 <= byte < 127 else f"\\x{byte:02x}")


def lines_of(pairs: Pairs) -> list[str]:
    """The lines of a text that has these pairs. A line ends where no byte comes at the next moment, after a
    line feed, and where it is long."""
    lines, start = [], 0
    for index, (moment, byte) in enumerate(pairs):
        is_last = index + 1 == len(pairs) or pairs[index + 1][0] != moment + 1
        if is_last or byte == 10 or index + 1 - start == MOST_SHOWN:
            text = "".join(shown(byte) for _, byte in pairs[start:index + 1])
            lines.append(f'{pairs[start][0]} "{text}"\n')
            start = index + 1
    return lines


def text_of_records(data: bytes) -> bytes:
    wrong = records.first_wrong(data)
    if wrong:
        raise Wrong(f"record {wrong[0]}: {wrong[1]}")
    return "".join(lines_of(records.pairs_of(data))).encode()


def read(name: str, most: int) -> bytes:
    """At most `most` bytes of a file, or of standard input."""
    with open(0 if name == "-" else name, "rb", closefd=name != "-") as file:
        return file.read(most)


def write(name: str | None, data: bytes) -> None:
    if name is None:
        streams.write(data)
        return
    whole_files.write(name, data)


def options_of_words() -> Namespace:
    parser = command_line.Parser(__doc__, USAGE, EXAMPLES)
    parser.add_argument("input", metavar="IN",
                        help="the text, or with --text the file of inputs; - is standard input")
    parser.add_argument("output", metavar="OUT", nargs="?",
                        help="the file to write; standard output if left out")
    parser.add_argument("--text", action="store_true", help="makes a text of a file of inputs")
    return parser.parse_args()


def main() -> int:
    options = options_of_words()
    name, out = options.input, options.output
    if out and name != "-" and os.path.exists(out) and os.path.samefile(name, out):
        say(f"{out} is what is read: give another name to the file to write")
        return 2
    try:
        if options.text:
            made = text_of_records(read(name, records.MOST_BYTES))
        else:
            made = records.bytes_of(pairs_of_text(read(name, MOST_TEXT + 1)))
    except Wrong as why:
        say(f"{'standard input' if name == '-' else name}: {why}")
        return 2
    write(out, made)
    return 0
