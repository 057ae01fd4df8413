"""How a trap is shown: as a value and as lines, with why it was taken."""
import contextlib
import itertools
from collections.abc import Callable, Iterator

from nesthv_tools import (
    event_logs, guest_runs, logged_traps, presentation, saves, state_changes, stubs, trap_causes, walks)
from nesthv_tools.presentation import Value
from nesthv_tools.sessions import Session

Worded = tuple[event_logs.Line, int | None]  # the line of a trap, and the word of its instruction
Question = Callable[[stubs.Stub, list[tuple[int, int]]], list[int | None]]
Told = Callable[[Question, list[event_logs.Line]], list[int | None]]

AT_ONCE = 64  # traps whose places are asked for in one go


def trap_at(session: Session, step: int) -> tuple[saves.Saved, Value | None]:
    """The trap that leads to the state at this step, and the state before it."""
    before, after = (session.runs.at(each) for each in (step - 1, step))
    return before, state_changes.trap_of(before, after)


def short_trap(session: Session, step: int) -> tuple[Value, str]:
    """The trap that leads to the state at this step, as a value and as a line."""
    before, trap = trap_at(session, step)
    line = f"{session.line(before)}  {presentation.line_of_trap(trap) if trap else 'a trap'}"
    return {"step": step - 1, "mode": before.mode(), "pc": before.numbers["pc"],
            "instruction": session.instruction(before), "trap": trap}, line


def logged_traps_of(session: Session, start: int, end: int) -> Iterator[tuple[Value, str]]:
    """The same of the traps in the log of these steps. Where the log does not tell the word of an
    instruction, or it has a symbol by its physical address, the stub tells that, if it can, else a state."""
    found = logged_traps.with_words(session.runs, start, end)
    with contextlib.ExitStack() as stack:
        told = stack.enter_context(stub_about(session, start, end))
        while some := list(itertools.islice(found, AT_ONCE)):
            if end - start > logged_traps.MOST_WORDS:
                some = with_read_words(told, some)
            symbols = [symbol_at_virtual(session, line, word) for line, word in some]
            wanted = [at for at, symbol in enumerate(symbols) if symbol is None and some[at][1] is not None]
            places = told(stubs.Stub.places_at, [some[at][0] for at in wanted])
            for at, place in zip(wanted, places):
                symbols[at] = symbol_at(session, *some[at], place)
            for (line, word), symbol in zip(some, symbols):
                if word is None or symbol is None:
                    yield short_trap(session, line.step + 1)
                else:
                    yield logged_trap(session, line, word, symbol)


def with_read_words(told: Told, some: list[Worded]) -> list[Worded]:
    """Lines of traps with the words of their instructions, those that are left as the stub reads them."""
    unread = [at for at, (line, word) in enumerate(some) if word is None and logged_traps.has_word(line)]
    words = dict(zip(unread, told(stubs.Stub.words_at, [some[at][0] for at in unread])))
    return [(line, words.get(at, word)) for at, (line, word) in enumerate(some)]


@contextlib.contextmanager
def stub_about(session: Session, start: int, end: int) -> Iterator[Told]:
    """What asks the stub about the instructions at some traps, and answers none where it cannot tell. The
    stub is started at the first question."""
    with contextlib.ExitStack() as stack:
        stubs_left: list[stubs.Stub | None] = [None]

        def told(question: Question, lines: list[event_logs.Line]) -> list[int | None]:
            if lines and stubs_left:
                try:
                    stub = stubs_left[0] or started()
                    stubs_left[0] = stub
                    return question(stub, [(line.step - start, line.number("pc")) for line in lines])
                except stubs.Ended:
                    stubs_left.clear()
            return [None] * len(lines)

        def started() -> stubs.Stub:
            line = stack.enter_context(guest_runs.Line(session.runs, start, session.runs.at(start)))
            return stack.enter_context(line.stub(end))
        yield told


def symbol_at_virtual(session: Session, line: event_logs.Line, word: int | None) -> str | None:
    """The symbol of the instruction at a trap, where its virtual address tells that."""
    return None if word is None else session.symbols.symbol_at_virtual(word, line.number("pc"), line.mode)


def symbol_at(session: Session, line: event_logs.Line, word: int | None, place: int | None) -> str | None:
    """That of one with a physical address, or none where it has not got one by that."""
    if word is None or place is None:
        return None
    return session.symbols.symbol_of(word, line.number("pc"), place, line.mode) or None


def logged_trap(session: Session, line: event_logs.Line, word: int, symbol: str) -> tuple[Value, str]:
    """A trap in the log, with the word of its instruction and its symbol, as a value and as a line."""
    pc, trap = line.number("pc"), logged_traps.value_of(line)
    session.disassembler.learn([word])
    instruction = {"word": word, "symbol": symbol, "text": session.disassembler.text_of(word, pc), "why": ""}
    shown = presentation.line_of_instruction(pc, instruction)
    value = {"step": line.step, "mode": line.mode, "pc": pc, "instruction": instruction, "trap": trap}
    return value, f"{line.step} {line.mode} {shown}  {presentation.line_of_trap(trap)}"


def whole_trap(session: Session, step: int) -> tuple[Value, list[str]]:
    """A trap, as a value and as lines, with why it was taken, or the walk of the address of a fault."""
    before, trap = trap_at(session, step)
    instruction = session.instruction(before)
    lines = [f"taken at {session.line(before)}", presentation.line_of_trap(trap) if trap else "a trap"]
    value: Value = {"step": step, "instruction": instruction, "trap": trap, "reasons": [], "walk": None}
    if trap:
        value["reasons"] = trap_causes.reasons_of(session, before, instruction["word"], trap)
        lines += [f"  {words}" for words in value["reasons"]]
    if trap and trap["cause"] in (1, 5, 7, 12, 13, 15, 20, 21, 23):
        view = walks.view_of_access(before, instruction["word"])
        found = presentation.translation_of(walks.Translation(view, trap["tval"]), before)
        value["walk"] = found
        lines += presentation.lines_of_translation(found)
    return value, lines
