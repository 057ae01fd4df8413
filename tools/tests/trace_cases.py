"""Reads the cases of the log (cases/README.md)."""
from collections.abc import Iterator
from dataclasses import dataclass, field

import case_files
from case_files import Assembler, Block, Content, End, Guests, Line, Saved, Script, Suite

WORDS = "nesthv-trace k 0"


@dataclass(frozen=True)
class Case:
    """A log: the words, the files with the configuration `k`, what fails, the lines, how it ends, and whether the
    stream closes behind each byte. Before it `saves` are made, each by `nesthv save k 0` over these files. A piece
    `Saved` of the files is of the save of that index."""
    name: str
    at: Line
    text: str
    files: dict[str, Content]
    saves: tuple[dict[str, Content], ...]
    script: Script
    lines: tuple[Line, ...]
    end: End
    is_cut: bool

    @property
    def words(self) -> tuple[str, ...]:
        return case_files.words_in(self.text)

    @property
    def log(self) -> bytes:
        """The log that is wanted."""
        return b"".join(line.text.removeprefix("=")[1:].encode() + b"\n" for line in self.lines)


@dataclass
class Reading:
    """What the lines of a case have said so far."""
    block: Block
    guests: Guests
    text: str = f"{WORDS} traps"
    saves: list[dict[str, Content]] = field(default_factory=list)
    lines: list[Line] = field(default_factory=list)
    end: End = End()
    is_cut: bool = False

    def obey(self, line: Line, word: str, rest: str) -> bool:
        match word:
            case "words":
                self.text = rest
            case "log":
                self.text = f"{WORDS} {rest}"
            case "=":
                self.lines.append(line)
            case "save" if not rest:
                self.saves.append(self.files())
                self.guests.begin("saved", (Saved(len(self.saves) - 1, 0, None),))
            case "ends":
                self.end = case_files.end_in(line, rest)
            case "cut" if not rest:
                self.is_cut = True
            case _:
                return False
        return True

    def files(self) -> dict[str, Content]:
        """The files with the configuration of the first run."""
        return {**self.guests.files, "k": self.guests.written(self.guests.configuration.runs[0])}

    def case(self, assemble: Assembler) -> Case:
        block = self.block
        case_files.obey(self.guests, block, assemble, self.obey)
        return Case(block.name, block.at, self.text, self.files(), tuple(self.saves), self.guests.script,
                    tuple(self.lines), self.end, self.is_cut)


def cases(suite: Suite, assemble: Assembler) -> Iterator[Case]:
    """The cases of a file."""
    for block in suite.blocks:
        yield Reading(block, Guests(suite.names)).case(assemble)
