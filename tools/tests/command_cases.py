"""Reads the cases of the command, and the answers that stand beside them (cases/README.md)."""
import os
import re
from collections.abc import Iterator
from dataclasses import dataclass, field

import case_files
from case_files import Assembler, Block, Content, Guests, Line, Refusal, Saved, Script, Suite

KINDS = ("case", "table")
TOLD = ("trace", "reads", "asked", "entries", "taken", "moves")
STREAM = re.compile(r"(?:out|err)(?:\.\.)?(?: .*)?")
INSIDE = re.compile(rf"(?:{'|'.join(TOLD)}) .*")
SAVE = re.compile(r"out (\d+) bytes, sum 0x[0-9a-f]+")
# A configuration that has one of these words does not mean the same in format 2.
OF_FORMAT_1 = ("input", "weight", "device", "spare", "resume")
# The lines of the configuration that a row of three columns changes, behind that of the format.
LINES = ("quantum = 10000", "rounds = 1", "[[guest]]", *case_files.table_of("a"))


@dataclass(frozen=True)
class Answer:
    """What is wanted of an ask: the status, the lines of the streams, and those that tell of the inside."""
    at: Line
    status: int
    streams: tuple[str, ...]
    inside: tuple[str, ...]

    def saved(self) -> int:
        """How many bytes a save is to write."""
        found = [SAVE.fullmatch(line) for line in self.streams]
        return sum(int(each.group(1)) for each in found if each)


@dataclass(frozen=True)
class Run:
    """A run of an ask: what tells it apart, and its configuration."""
    name: str
    configuration: Content


@dataclass(frozen=True)
class Ask:
    """What is asked: the words, the runs that are to leave the same, the files beside the configuration `k`, what
    fails, and the answer."""
    at: Line
    text: str
    runs: tuple[Run, ...]
    files: dict[str, Content]
    script: Script
    wanted: Answer

    @property
    def words(self) -> tuple[str, ...]:
        return case_files.words_in(self.text)


@dataclass(frozen=True)
class Case:
    """A case. A piece `Saved` of its files is of the ask of that index."""
    name: str
    at: Line
    asks: tuple[Ask, ...]


@dataclass(frozen=True)
class Row:
    """A row of a table: a configuration, the same one in format 2 where it means the same there, and the fault that is
    wanted, or `accepted`."""
    at: Line
    text: str
    configuration: bytes
    changed: bytes | None
    wanted: str


@dataclass(frozen=True)
class Table:
    name: str
    at: Line
    rows: tuple[Row, ...]


@dataclass
class Answers:
    """The lines of a file of answers, which are taken in order."""
    lines: list[Line]

    def head(self, at: Line, text: str) -> str:
        """What follows this text in the line that begins with it."""
        if not self.lines:
            raise at.refusal("the file of answers ends before the answer to this line")
        line = self.lines[0]
        if not line.text.startswith(text):
            raise line.refusal(f"`{text}` is to stand here, the answer to line {at.number} of the cases")
        return self.lines.pop(0).text.removeprefix(text)

    def taken(self, form: re.Pattern[str]) -> Iterator[str]:
        while self.lines and form.fullmatch(self.lines[0].text):
            yield self.lines.pop(0).text

    def answer(self, at: Line, words: str) -> Answer:
        line = self.lines[0] if self.lines else at
        status = self.head(at, f"{words}: status ")
        return Answer(line, case_files.number_in(line, status), tuple(self.taken(STREAM)), tuple(self.taken(INSIDE)))


@dataclass
class Told:
    """What the answers of a case tell of the inside."""
    words: set[str] = field(default_factory=set)
    least: set[str] = field(default_factory=set)

    def obey(self, line: Line, word: str, rest: str) -> bool:
        if word == "tell":
            for each in rest.split():
                if each not in TOLD:
                    raise line.refusal(f"`{each}` is not told: {', '.join(TOLD)}")
                self.words.add(each)
        elif word == "least":
            what, _, count = rest.partition(" ")
            if what not in ("entries", "taken"):
                raise line.refusal("not `least entries N` or `least taken N`")
            case_files.number_in(line, count)
            self.least.add(what)
        else:
            return False
        return True

    def check(self, answer: Answer) -> None:
        """Refuses an answer that tells anything else."""
        wanted = [each for each in TOLD if each in self.words] + sorted(self.least)
        found = [line.split(" ")[0] for line in answer.inside]
        if list(dict.fromkeys(found)) != list(dict.fromkeys(wanted)):
            raise answer.at.refusal(f"tells {', '.join(found) or 'nothing'}, where the case tells "
                                    f"{', '.join(wanted) or 'nothing'}")


@dataclass
class Reading:
    """What the lines of a case have said so far."""
    block: Block
    answers: Answers
    guests: Guests
    told: Told = field(default_factory=Told)
    asks: list[Ask] = field(default_factory=list)

    def obey(self, line: Line, word: str, rest: str) -> bool:
        if word != "ask":
            return self.told.obey(line, word, rest)
        self.ask(line, rest)
        return True

    def ask(self, line: Line, text: str) -> None:
        guests = self.guests
        wanted = self.answers.answer(line, text)
        self.told.check(wanted)
        files = {name: content for name, content in guests.files.items() if name != "k"}
        self.asks.append(Ask(line, text, tuple(self.runs(line, text)), files, guests.script, wanted))
        guests.script = Script()
        saved = wanted.saved() if text.startswith("nesthv save ") else 0
        if saved:
            guests.begin("saved", (Saved(len(self.asks) - 1, 0, saved),))

    def runs(self, line: Line, text: str) -> Iterator[Run]:
        """The runs of an ask: each with its configuration as it is written, in format 2 where it means the same there,
        and with the spare blocks that the case names."""
        configuration = self.guests.configuration
        has_own = "k" in self.guests.files
        turns = text.startswith(("nesthv run k", "nesthv replay k", "nesthv save k"))
        for run in configuration.runs if turns and not has_own else configuration.runs[:1]:
            written = self.guests.written(run)
            yield Run(f"by {run}", written)
            if not turns and not text.startswith("nesthv check k"):
                continue
            changed = in_format_two(case_files.bytes_of(written, {}))
            if changed is not None:
                yield Run(f"by {run} in format 2", case_files.pieces_of(changed))
            for spare in () if has_own else configuration.spares:
                text_with = configuration.text_with_spare(run, spare)
                yield Run(f"by {run} with {spare} spare", case_files.pieces_of(text_with.encode()))

    def case(self, assemble: Assembler) -> Case:
        block = self.block
        case_files.obey(self.guests, block, assemble, self.obey)
        if not self.asks:
            self.ask(block.at, "nesthv run k")
        return Case(block.name, block.at, tuple(self.asks))


def in_format_two(configuration: bytes) -> bytes | None:
    """The configuration in format 2, where it is of format 1 and means the same in both, or none."""
    try:
        text = configuration.decode()
    except UnicodeDecodeError:
        return None
    if any(word in text for word in OF_FORMAT_1):
        return None
    for old in ("format = 1", "format=1"):
        if old in text:
            return text.replace(old, "format = 2", 1).encode()
    return None


def columns(text: str) -> tuple[str, str] | None:
    """The first column of a row, and the others, or none where there is one alone."""
    first, bar, others = text.partition(" |")
    return (first, others.lstrip()) if bar else None


def row(line: Line, text: str, template: str, wanted: str) -> Row:
    """The row of a line, which fills the template or changes a line of the configuration."""
    found = columns(text)
    if found is None:
        raise line.refusal("a row of one column")
    format_, other = found
    change = columns(other)
    if change is not None:
        old, new = change
        lines = (f"format = {format_}", *LINES)
        if old not in lines:
            raise line.refusal(f"`{old}` is not a line of the configuration")
        filled = "".join(f"{new if each == old else each}\n" for each in lines)
    else:
        if "TEXT" not in template:
            raise line.refusal("a row of two columns without a template that has TEXT")
        front, _, back = template.partition("TEXT")
        filled = front.replace("FORMAT", format_, 1) + other + back
    configuration = case_files.unescaped(line, filled)
    return Row(line, text, configuration, in_format_two(configuration), wanted)


def table(block: Block, answers: Answers) -> Table:
    template, is_filled = "", False
    rows = []
    for line in block.lines:
        word, rest = line.split()
        if word == "template":
            template = ("" if is_filled else template) + case_files.quoted(line, rest)
            is_filled = False
        elif word == "row":
            rows.append(row(line, rest, template, answers.head(line, f"{rest}: ")))
            is_filled = True
        else:
            raise line.refusal(f"`{word}` begins no line of a table: template or row")
    return Table(block.name, block.at, tuple(rows))


def answers_path(path: str) -> str:
    """Where the answers to a file of cases stand."""
    return os.path.splitext(path)[0] + ".answers"


def answers_of(path: str) -> Answers:
    path = answers_path(path)
    texts = case_files.lines_of(path)
    if texts.pop():
        raise Refusal(f"{os.path.basename(path)}: its last line has no end")
    return Answers([Line(os.path.basename(path), index + 1, text) for index, text in enumerate(texts)])


def cases(suite: Suite, assemble: Assembler) -> Iterator[Case | Table]:
    """The cases and tables of a file, with their answers."""
    answers = answers_of(suite.path)
    for block in suite.blocks:
        answers.head(block.at, f"{block.kind} {block.name}")
        if block.kind == "table":
            yield table(block, answers)
        else:
            yield Reading(block, answers, Guests(suite.names)).case(assemble)
    if answers.lines:
        raise answers.lines[0].refusal("no case has this answer")
