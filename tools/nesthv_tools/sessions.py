"""A guest that tools/look shows: its runs, its symbols, and how what is found is printed."""
import json
import time
from argparse import Namespace
from collections.abc import Callable

from nesthv_tools import (
    code_places, debuggers, guest_runs, presentation, programs, saves, state_cache, streams, symbols,
    terminal, world_symbols)
from nesthv_tools.presentation import Value

TOLD_EVERY = 10.0  # seconds


class Bad(Exception):
    """What is wrong with the words, in words."""


def number_of(text: str, what: str) -> int:
    if not text.isdecimal() or len(text) > 20:
        raise Bad(f"{text} is not a {what}: give a decimal number")
    return int(text)


class Session:
    """A guest that is looked at, and how it is shown."""

    def __init__(self, options: Namespace, program: programs.Program, config: str, guest: int,
                 made_of: str | None = None) -> None:
        self.options, self.program = options, program
        self.guest = guest_runs.Guest(program.path, config, guest)
        key = f"{programs.hash_of(program.path)[:16]}-{self.guest.hash()}"
        cache = state_cache.Cache(options.cache, options.cache_size * state_cache.MIB, key)
        self.runs, self.told = guest_runs.Runs(program.path, self.guest, cache), time.monotonic()
        self.symbols = symbols_of(self.guest.image, made_of, options.elf)
        self.disassembler = symbols.Disassembler()
        self.doing: Callable[[int, int], str] = \
            lambda low, high: f"{self.runs.calls} runs made, now between step {low:,} and {high:,}"

    def close(self) -> None:
        """Ends what was begun."""
        self.symbols.close()
        self.runs.close()

    def tell(self, low: int, high: int) -> None:
        """Says how far a search is, where it takes long."""
        if time.monotonic() - self.told > TOLD_EVERY:
            self.told = time.monotonic()
            streams.say(self.doing(low, high))

    def step_of(self, text: str) -> int:
        """The step that a word names; what is out of the run is said."""
        if text == "end":
            return self.runs.last
        step = number_of(text, "step")
        if not self.runs.first <= step <= self.runs.last:
            raise Bad(f"step {step} is not in the run, which goes from {self.runs.first} to {self.runs.last}")
        return step

    def state(self, text: str) -> saves.Saved:
        """The state at a step. Where the guest has come to its end before, that is said."""
        step = self.step_of(text)
        saved = self.runs.at(step)
        made = saved.numbers["steps"]
        if made < step and text != "end":
            status = saves.STATUSES[saved.numbers["status"]]
            streams.say(f"the guest is {status} at step {made}: this is shown")
        return saved

    def end(self) -> int:
        """The last step that the guest makes."""
        return self.runs.at(self.runs.last).numbers["steps"]

    def print(self, value: object, lines: list[str]) -> None:
        shown = json.dumps(value) if self.options.json else "\n".join(map(terminal.line_of, lines))
        print(shown, flush=True)
        self.told = time.monotonic()

    def instruction(self, saved: saves.Saved) -> Value:
        return presentation.instruction_of(saved, self.symbols, self.disassembler)

    def line(self, saved: saves.Saved) -> str:
        """The next instruction of a state, with its step and mode."""
        shown = presentation.line_of_instruction(saved.numbers["pc"], self.instruction(saved))
        return f"{saved.numbers['steps']} {saved.mode()} {shown}"


def symbols_of(image: str | None, made_of: str | None, names: list[str]) -> world_symbols.Symbols:
    """The symbols of a guest that begins with an image, which may be made of another file, or goes on from a file,
    and of more ELF files."""
    worlds = debuggers.worlds_beside(image, made_of) if image else debuggers.Worlds(None, [])
    own = code_places.code_at(worlds.own.path) if worlds.own else None
    nested = [code_places.code_at(each.path) for each in worlds.nested]
    return world_symbols.Symbols(own, filter(None, nested), [code_of(name) for name in names])


def code_of(name: str) -> code_places.Code:
    code = code_places.code_at(name)
    if not code:
        raise Bad(f"{name} cannot be read as an ELF file of 64 bits, little endian")
    return code
