"""A place of a run that is followed, as a line of a trace has it."""
from nesthv_tools import presentation
from nesthv_tools.followed_runs import Place
from nesthv_tools.sessions import Session


def line_of(session: Session, place: Place) -> str:
    """The step, the mode and the instruction. Where the symbol needs memory, a state is asked for."""
    if place.word is not None:
        symbol = session.symbols.symbol_at_virtual(place.word, place.pc, place.mode)
        if symbol is not None:
            text = session.disassembler.text_of(place.word, place.pc)
            value = {"word": place.word, "symbol": symbol, "text": text, "why": ""}
            return f"{place.step} {place.mode} {presentation.line_of_instruction(place.pc, value)}"
    return session.line(session.runs.at(place.step))
