"""Reads TOML 1.1, as the program does: Python's `tomllib` takes 1.0. What 1.1 adds is written as 1.0 has it:
line ends, comments and a last comma in inline tables, the escapes \\e and \\x, and times without seconds.
"""
import re
import tomllib
from typing import Any

PIECE = re.compile(r'"""(?:\\.|[^\\])*?"{3,5}|\'\'\'.*?\'{3,5}|"(?:\\.|[^"\\\n])*"|\'[^\'\n]*\'|#[^\n]*|'
                   r"(?<![\d:.+-])\d\d:\d\d(?![\d:])|\n|.", re.S)
ESCAPE = re.compile(r"\\(?:x([0-9A-Fa-f]{2})|(.))", re.S)


def escape_of(found: re.Match[str]) -> str:
    if found[1]:
        return f"\\u00{found[1]}"
    return "\\u001b" if found[2] == "e" else found[0]


class Writer:
    """Writes a text of TOML 1.1 as one of 1.0."""

    def __init__(self) -> None:
        self.pieces: list[str] = []
        self.brackets: list[str] = []
        self.lines: list[int] = []
        self.marks: list[int] = []
        self.line = 1

    def put(self, piece: str, source: str) -> None:
        """Puts a piece that stands for this source."""
        self.pieces.append(piece)
        self.lines += [self.line] * len(piece)
        self.line += source.count("\n")

    def close(self, bracket: str) -> None:
        """Drops the comma before the end of an inline table that has something before it."""
        if bracket == "}" and len(self.marks) > 1 and self.pieces[self.marks[-1]] == "," \
                and self.pieces[self.marks[-2]] not in ("{", ","):
            self.pieces[self.marks[-1]] = " "
        if self.brackets:
            self.brackets.pop()

    def take(self, piece: str) -> None:
        is_inline = self.brackets[-1:] == ["{"]
        shown = piece
        if piece[0] == "#" or piece == "\n":
            shown = " " * len(piece) if is_inline else piece
        elif piece in ("{", "["):
            self.brackets.append(piece)
        elif piece in ("}", "]"):
            self.close(piece)
        elif piece[0] == '"':
            shown = ESCAPE.sub(escape_of, piece)
        elif re.fullmatch(r"\d\d:\d\d", piece):
            shown = piece + ":00"
        if piece[0] != "#" and not piece.isspace():
            self.marks.append(len(self.pieces))
        self.put(shown, piece)


def loads(text: str) -> dict[str, Any]:
    """The document of this text; where there is none, the error of `tomllib`, with a line of this text."""
    text = text.replace("\r\n", "\n")
    try:
        return tomllib.loads(text)
    except tomllib.TOMLDecodeError:
        writer = Writer()
    for found in PIECE.finditer(text):
        writer.take(found[0])
    written = "".join(writer.pieces)
    try:
        return tomllib.loads(written)
    except tomllib.TOMLDecodeError as error:
        raise tomllib.TOMLDecodeError(placed(str(error), written, writer.lines)) from None


def placed(message: str, written: str, lines: list[int]) -> str:
    """The message with the line of the source in place of the line of what was written."""
    found = re.search(r" \(at line (\d+), column (\d+)\)$", message)
    if not found:
        return message
    starts = [0, *(at.end() for at in re.finditer("\n", written))]
    at = starts[int(found[1]) - 1] + int(found[2]) - 1
    return f"{message[:found.start()]} (at line {lines[at] if at < len(lines) else lines[-1]})"
