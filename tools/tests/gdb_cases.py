"""Reads the cases of the debugger: what gdb says, and what is answered (cases/README.md)."""
from collections.abc import Iterator
from dataclasses import dataclass, field

import case_files
from case_files import Assembler, Block, Content, End, Guests, Line, Script, Suite

WORDS = "nesthv-gdb k 0"


@dataclass(frozen=True)
class Row:
    """What gdb says at once, and what is answered. Nothing is answered to a packet before all of it has come."""
    at: Line
    text: str
    coming: bytes
    answer: bytes
    is_packet: bool


@dataclass(frozen=True)
class Case:
    """A talk: the words, the target description, the files with the configuration `k`, what fails, the rows, how many
    of these gdb says before it leaves, if it does, how it ends, and whether it is cut in all ways."""
    name: str
    at: Line
    text: str
    description: bytes
    files: dict[str, Content]
    script: Script
    rows: tuple[Row, ...]
    leaves: int | None
    end: End
    is_cut: bool

    @property
    def words(self) -> tuple[str, ...]:
        return case_files.words_in(self.text)


@dataclass
class Reading:
    """What the lines of a case have said so far."""
    block: Block
    guests: Guests
    text: str = WORDS
    description: bytes = b""
    rows: list[Row] = field(default_factory=list)
    leaves: int | None = None
    end: End = End()
    is_cut: bool = False

    def obey(self, line: Line, word: str, rest: str) -> bool:
        match word:
            case "words":
                self.text = rest
            case "description":
                self.description += case_files.unescaped(line, case_files.quoted(line, rest))
            case "ends":
                self.end = case_files.end_in(line, rest)
            case "cut" if not rest:
                self.is_cut = True
            case "leaves" if not rest:
                self.leaves = len(self.rows)
            case "monitor" | "raw":
                self.rows.append((requested if word == "monitor" else raw)(line, *sides(line, rest)))
            case _ if word.startswith("$"):
                self.rows.append(packets(line, *(case_files.unescaped(line, side)
                                                 for side in sides(line, line.text[1:]))))
            case _:
                return False
        return True

    def case(self, assemble: Assembler) -> Case:
        guests, block = self.guests, self.block
        case_files.obey(guests, block, assemble, self.obey)
        files = {**guests.files, "k": guests.written(guests.configuration.runs[0])}
        return Case(block.name, block.at, self.text, self.description, files, guests.script, tuple(self.rows),
                    self.leaves, self.end, self.is_cut)


def sides(line: Line, text: str) -> tuple[str, str]:
    """What stands before the arrow, and behind it."""
    said, arrow, answer = text.partition("->")
    if not arrow:
        raise line.refusal("a row without an arrow ->")
    return said.rstrip(), answer.lstrip()


def raw(line: Line, said: str, answer: str) -> Row:
    coming, answered = (case_files.unescaped(line, case_files.quoted(line, side)) for side in (said, answer))
    return Row(line, line.text, coming, answered, False)


def requested(line: Line, said: str, answer: str) -> Row:
    """What gdb sends for `monitor TEXT`, and the line that it prints, which go as digits."""
    return packets(line, f"qRcmd,{said.encode().hex()}".encode(), f"{answer}\n".encode().hex().encode())


def packets(line: Line, payload: bytes, answer: bytes) -> Row:
    """A packet, and the answer to it: that it has come, and a packet."""
    return Row(line, line.text, packet(payload), b"+" + packet(answer), True)


def packet(data: bytes) -> bytes:
    """The packet of these data (manual of gdb, "Overview" of the remote protocol)."""
    return b"$%s#%02x" % (data, sum(data) % 256)


def cases(suite: Suite, assemble: Assembler) -> Iterator[Case]:
    """The cases of a file."""
    for block in suite.blocks:
        yield Reading(block, Guests(suite.names)).case(assemble)
