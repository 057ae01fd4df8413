"""Looks at a guest of a configuration at any step of its run, which the program's `save` gives: registers
with their fields, walks of both stages, address spaces, the first step at which something holds, each step,
traps, where two runs differ, and whether a hypervisor lacks a fence. State N is that after N steps; the
instruction that is shown with it is the next one.

commands:
  at STEP            all of the state but its RAM; STEP is a number or `end`
  walk ADDRESS       both stages of an address: each entry, why it cannot be used, the cached translation of
                     each stage, and what the device page serves where it leads there
  maps               the address spaces of HS and VS and of each hgatp that is cached; what is cached of each
                     stage, and what of it is stale
  first console N    the first state whose console has N bytes
  first status WORD  the first one that is `waiting` or `stopped`
  first clock N      the first one whose clock is at least N
  first memory ADDRESS N
                     a state in which the doubleword at a physical address is at least N, and before is not
  trace FROM TO      a line for each step: the instruction, and what it changed
  traps [FROM TO]    the traps of these steps
  first-trap [N]     the first trap, or the Nth, with why it was taken: the walk of the address that it is
                     about, or what lets an interrupt come
  last-trap          the last one up to --step, and since when there were none but such
  entered [FROM TO]  each entry into V = 1, and what the guest's guest finds other than when it was left; a
                     `!` marks what an exit that is not a call should have left
  diff CONFIG2 [GUEST2]
                     a state in which two runs differ that were the same before it, and in what
  fences [FROM TO]   whether the report rests on a translation that the guest should have fenced; with --strict
                     which ones hardware may use, by the standard, though this machine does not
  doctor             looks for faults by itself, and tells what it finds, the worst first; --time says for how long

where to begin, by what the report says:
  you do not know                doctor
  running, and no byte more      last-trap; where there is none, trace the last steps: it loops
  waiting                        at end: what is pending, and why it is not taken
  stopped, by its own handler    last-trap
  a wrong byte                   first console N, and in a hypervisor entered
  the same bytes again           traps near the end, and last-trap --step of one that should not come
  right here, and not elsewhere  fences

Addresses are hexadecimal, and may be a register's name; numbers of steps are decimal. The status is 0; 1
where `first`, `first-trap`, `last-trap` and `diff` find nothing, or `fences` or `doctor` finds something; or
2 where there is nothing to look at. Where nesthv-trace stands beside the program, traps, entries and steps
are found by its log, without which there is no `doctor`. Else `trace` makes each step, and the other commands
find traps by other values of stvec and vstvec: a guest that reads one of them, changes it, and writes the
same back may hide the traps between from them, but not from `trace`.
"""
import os
from argparse import Namespace
from collections.abc import Callable, Iterator
from typing import NamedTuple

from nesthv_tools import (
    command_line, configurations, faults, guest_runs, image_configurations, logged_bytes, logged_traps,
    presentation, programs, registers, reports, saves, searches, sessions, shown_traps, state_cache,
    state_changes, streams, trap_causes, walks, whole_files)
from nesthv_tools.sessions import Session

USAGE = "%(prog)s [OPTION]... CONFIG [GUEST] COMMAND [WORD]..."
EXAMPLES = """examples:
  %(prog)s kernel.toml at 100
  %(prog)s two.toml 1 at end                the guest of number 1
  %(prog)s kernel.toml walk 1008 --as VS --step 53
  %(prog)s kernel.toml walk sepc            the address that sepc has, in the last state
  %(prog)s kernel.toml last-trap            why a guest hangs
  %(prog)s kernel.toml --json trace 0 20    a JSON object a line
  %(prog)s kernel.toml diff other.toml
  %(prog)s kernel.elf --steps 5000 last-trap
  %(prog)s hypervisor.toml fences
  %(prog)s hypervisor.toml doctor           what is wrong, as far as the run shows it
"""
COUNTS = {"at": [1], "walk": [1], "maps": [0], "first": [2, 3], "trace": [2], "traps": [0, 2],
          "first-trap": [0, 1], "last-trap": [0], "entered": [0, 2], "diff": [1, 2], "fences": [0, 2],
          "doctor": [0]}
OF_ONE_STATE = ("at", "walk", "maps")
MODES = ["HS", "U", "VS", "VU"]
# A tool compiles its modules each time, so what one command alone needs is imported in its function.
PROBES = 16  # of two runs that are the same at their end
NOTHING = 1
say = streams.say


def options_of_words() -> Namespace:
    parser = command_line.Parser(__doc__, USAGE, EXAMPLES)
    parser.add_argument("words", metavar="WORD", nargs="*",
                        help="CONFIG, or an ELF file or an image in place of one, the number of a guest (0 "
                        "if left out), a command and its words")
    parser.add_argument("--as", dest="mode", choices=MODES,
                        help="the mode of a walk; the state's if left out")
    parser.add_argument("--step", metavar="STEP", default="end",
                        help="the state for `walk`, `maps` and `last-trap`; the last one if left out")
    parser.add_argument("--svg", metavar="FILE", help="`maps` writes a drawing to this file")
    parser.add_argument("--most", type=command_line.number(0, 1000000), default=0, metavar="N",
                        help="at how many steps `fences` drops translations; at all if left out, or 0")
    parser.add_argument("--first", action="store_true", help="`fences` ends with the first that it finds")
    parser.add_argument("--strict", action="store_true",
                        help="`fences` tells of translations that hardware may use, and this machine does not")
    parser.add_argument("--time", type=command_line.number(1, 100000), default=30, metavar="SECONDS",
                        help="about how long `doctor` may look at the run, in seconds of the processor; "
                        "%(default)s if left out")
    parser.add_argument("--elf", metavar="FILE", action="append", default=[],
                        help="one more ELF file with symbols, as of a nested kernel")
    parser.add_argument("--json", action="store_true",
                        help="prints JSON: each number is decimal, and each byte of a console a character")
    parser.add_argument("--program", metavar="PATH", help="the program to take, as in tools/run")
    parser.add_argument("--cache", metavar="FOLDER", default=cache_folder(),
                        help="where states are kept; %(default)s if left out")
    parser.add_argument("--cache-size", type=command_line.number(0, 1 << 20),
                        default=state_cache.DEFAULT_SIZE // state_cache.MIB, metavar="MIB",
                        help="how much of the disk they may take; %(default)s if left out. With 0 they are "
                        "kept while the tool runs")
    image_configurations.add_options(parser)
    return parser.parse_words()


def cache_folder() -> str:
    base = os.environ.get("XDG_CACHE_HOME") or os.path.join(os.path.expanduser("~"), ".cache")
    return os.path.join(base, "nesthv-look")


def split_words(words: list[str]) -> tuple[str, int, str, list[str]]:
    """The configuration, the number of the guest, the command, and its words."""
    config, rest = words[0], words[1:]
    guest = int(rest.pop(0)) if rest and rest[0].isdecimal() and len(rest[0]) < 4 else 0
    if not rest:
        raise sessions.Bad(f"a command is missing after {config}: it is one of {', '.join(COUNTS)}")
    if rest[0] not in COUNTS:
        raise sessions.Bad(f"{rest[0]} is not a command: {', '.join(COUNTS)} are")
    command, rest = rest[0], rest[1:]
    if len(rest) not in COUNTS[command]:
        raise sessions.Bad(f"`{command}` takes {counted(COUNTS[command])}")
    return config, guest, command, rest


def look_at(session: Session, words: list[str]) -> int:
    saved = session.state(words[0])
    state = presentation.state_of(saved, session.guest, session.symbols, session.disassembler)
    session.print(state, presentation.lines_of_state(state))
    return 0


def counted(counts: list[int]) -> str:
    """How many words a command takes, in words."""
    if counts == [0]:
        return "no word"
    return f"{' or '.join(map(str, counts))} word{'' if counts[-1] == 1 else 's'}"


def address_of(text: str, saved: saves.Saved) -> int:
    """The address that a word names: a register's value, or a hexadecimal number."""
    if text in registers.INTEGER:
        return saved.numbers[f"x{registers.INTEGER.index(text)}"] if text != "zero" else 0
    if text == "htval":
        return saved.numbers["htval"] << 2 & 2**64 - 1
    if text in saved.numbers and text not in state_changes.SIZES:
        return saved.numbers[text]
    try:
        value = int(text, 16)
    except ValueError:
        value = -1
    if not 0 <= value < 2**64:
        raise sessions.Bad(f"{text} is not an address: give a hexadecimal number, or a register's name")
    return value


def show_walk(session: Session, words: list[str]) -> int:
    saved = session.state(session.options.step)
    view = walks.View(saved, session.options.mode)
    found = presentation.translation_of(walks.Translation(view, address_of(words[0], saved)), saved)
    session.print(found, presentation.lines_of_translation(found))
    return 0


def show_maps(session: Session, words: list[str]) -> int:
    found = presentation.maps_of(session.state(session.options.step))
    if session.options.svg:
        from nesthv_tools import drawing
        whole_files.write(session.options.svg, drawing.svg_of(found).encode())
        return 0
    session.print(found, presentation.lines_of_maps(found))
    return 0


class Condition(NamedTuple):
    """Whether a state has what words say, whether it then stays so, and whether a report tells it."""
    holds: Callable[[saves.Saved | reports.Told], bool]
    stays: bool
    is_told: bool


def condition_of(words: list[str], saved: saves.Saved) -> Condition:
    """The condition of these words."""
    kind, value = words[0], words[-1]
    if len(words) != (3 if kind == "memory" else 2):
        raise sessions.Bad(f"`first {kind}` takes other words: --help says which")
    if kind == "status" and value in ("waiting", "stopped"):
        return Condition(lambda state: state.numbers["status"] == saves.STATUSES.index(value), True, True)
    if kind not in ("console", "clock", "memory"):
        raise sessions.Bad(f"{' '.join(words)} is not a condition: console N, clock N, status waiting or "
                           "stopped, and memory ADDRESS N are")
    count = sessions.number_of(value, "number")
    if kind == "console":
        return Condition(lambda state: len(state.console) >= count, True, True)
    if kind == "clock":
        return Condition(lambda state: state.numbers["clock"] >= count, True, False)
    place = address_of(words[1], saved)
    if saved.word_at(place) is None:
        raise sessions.Bad(f"{words[1]} is not a physical address in the guest's RAM")
    return Condition(lambda state: isinstance(state, saves.Saved) and (state.word_at(place) or 0) >= count,
                     False, False)


def first_step(session: Session, words: list[str], holds: searches.Holds) -> int:
    """The step that is found by halves; where the bytes of the console are counted, its last part by the
    log."""
    runs, low, high = session.runs, session.runs.first, session.end()
    if words[0] == "console" and runs.tracer:
        width = logged_bytes.WINDOW * runs.guest.blocks
        low, high = searches.narrowed(holds, low, high, width, session.tell)
        step = logged_bytes.step_with(runs, sessions.number_of(words[1], "number"), low, high)
        if step is not None:
            return step
    return searches.first_step(holds, low, high, session.tell)


def show_first(session: Session, words: list[str]) -> int:
    """Finds the first state in which something holds, by halves."""
    runs = session.runs
    holds, stays, is_told = condition_of(words, runs.start)
    shown = runs.told_at if is_told else runs.at
    if holds(runs.start):
        step = runs.first
    elif not holds(runs.at(runs.last)):
        what = f"it does not hold at step {session.end()}, the end"
        session.print({"step": None}, [what if stays else what + "; whether it did before is not known"])
        return NOTHING
    else:
        step = first_step(session, words, lambda step: holds(shown(step)))
    before = runs.at(step - 1) if step > runs.first else None
    lines = [f"step {step}"] + ([f"made by {session.line(before)}"] if before else [])
    if before and not stays:
        lines.append("it is the first one where the number does not fall")
    session.print({"step": step, "stays": stays,
                   "instruction": session.instruction(before) if before else None}, lines)
    return 0


def show_step(session: Session, before: saves.Saved, after: saves.Saved) -> None:
    """Shows a step by the states before and after it."""
    trap = state_changes.trap_of(before, after)
    changes = [each for each in state_changes.differences(before, after) if each.name not in ("pc", "clock")]
    cached = state_changes.cache_changes(before, after)
    if after.numbers["clock"] != before.numbers["clock"] + 1:
        changes.append(state_changes.change_of("clock", before.numbers["clock"], after.numbers["clock"]))
    line = session.line(before)
    if trap:
        line += "  trap: " + presentation.line_of_trap(trap)
    else:
        line += "".join(f"  {each.line('->')}" for each in changes)
    line += "".join(f"  {each.what} {each.page:x} -> {each.frame:x}{presentation.shown_page(each.frame)}"
                    for each in cached)
    value = {"step": before.numbers["steps"], "mode": before.mode(), "pc": before.numbers["pc"],
             "instruction": session.instruction(before), "trap": trap,
             "changes": [each.value() for each in changes], "cached": [each._asdict() for each in cached]}
    session.print(value, [line])


def span_of(session: Session, words: list[str]) -> tuple[int, int]:
    """The steps FROM and TO of these words; of all steps where there are none."""
    start, end = (session.step_of(word) for word in words or (str(session.runs.first), "end"))
    if start > end:
        raise sessions.Bad(f"TO is {end}, which is before FROM, {start}")
    return start, session.runs.at(end).numbers["steps"]


def show_trace(session: Session, words: list[str]) -> int:
    start, end = span_of(session, words)
    before = None
    for after in session.runs.singles(start, end):
        if before:
            show_step(session, before, after)
        before = after
    return 0


def finder_of(session: Session) -> searches.Traps | logged_traps.Traps:
    names = ("stvec", "vstvec")
    if session.runs.tracer:
        return logged_traps.Traps(session.runs, names)
    return searches.Traps(session.runs, names, session.tell)


def traps_from(session: Session, start: int, end: int) -> Iterator[int]:
    """The steps of the traps between two steps, each that after the trap."""
    finder = finder_of(session)
    found = finder.next(start, end)
    while found:
        yield found.step
        found = finder.next(found.step, end)


def show_traps(session: Session, words: list[str]) -> int:
    start, end = span_of(session, words)
    if session.runs.tracer:
        shown = shown_traps.logged_traps_of(session, start, end)
    else:
        shown = (shown_traps.short_trap(session, step) for step in traps_from(session, start, end))
    for value, text in shown:
        session.print(value, [text])
    return 0


def show_first_trap(session: Session, words: list[str]) -> int:
    wanted = sessions.number_of(words[0], "number of a trap") if words else 1
    if not wanted:
        raise sessions.Bad("traps are counted from 1")
    count = 0
    for step in traps_from(session, session.runs.first, session.runs.last):
        count += 1
        if count == wanted:
            session.print(*shown_traps.whole_trap(session, step))
            return 0
    found = "1 trap is" if count == 1 else f"{count} traps are"
    session.print({"trap": None}, [f"{found} found up to step {session.end()}, the end"])
    return NOTHING


def show_last_trap(session: Session, words: list[str]) -> int:
    end = session.state(session.options.step).numbers["steps"]
    finder = finder_of(session)
    step = finder.last(end)
    if step is None:
        session.print({"trap": None}, [f"no trap is found up to step {end}"])
        return NOTHING
    value, lines = shown_traps.whole_trap(session, step)
    trap = value["trap"]
    since = trap_causes.repetition_of(session, session.runs.at(step), trap) if trap else None
    value.update(since=since, before=None)
    if since:
        lines.append(f"{' '.join(trap_causes.registers_of(trap))}: the same from step {since} on")
        other = finder.last(since - 1)
        if other:
            value["before"], line = shown_traps.short_trap(session, other)
            lines.append(f"the trap before these: {line}")
    session.print(value, lines)
    return 0


def show_entered(session: Session, words: list[str]) -> int:
    """Shows the entries into V = 1, and what has changed for each guest's guest since it was left."""
    from nesthv_tools import shown_entries
    return shown_entries.shown(session, *span_of(session, words))


def both_at(one: guest_runs.Runs, other: guest_runs.Runs, step: int) -> tuple[saves.Saved, saves.Saved]:
    return one.at(step), other.at(step)


def probes_of(low: int, high: int) -> list[int]:
    """Steps up to `high`, evenly."""
    return sorted({low + (high - low) * part // PROBES for part in range(PROBES + 1)})


def first_difference(one: guest_runs.Runs, other: guest_runs.Runs, probes: list[int], ignored: set[int],
                     tell: searches.Tell) -> int | None:
    """The step at which two states differ that were the same at the one before; or none where they
    are the same at each of the probes."""
    def differ(step: int) -> bool:
        return bool(state_changes.differences(*both_at(one, other, step), ignored))
    if differ(probes[-1]):
        return searches.first_step(differ, probes[0], probes[-1], tell)
    return next((searches.first_step(differ, low, high, tell) for low, high in zip(probes, probes[1:])
                 if differ(high)), None)


def lines_of_difference(session: Session, other: Session, step: int,
                        found: list[state_changes.Change]) -> list[str]:
    lines = [f"the same at step {step - 1}, and different at {step}, which is made by"]
    made = [each.line(each.runs.at(step - 1)) for each in (session, other)]
    lines += [f"  {line}" for line in dict.fromkeys(made)]
    return lines + [f"  {each.line('|')}" for each in found]


def show_diff(session: Session, words: list[str]) -> int:
    """Compares two runs, but not the RAM that differs from the start on, sizes, whether there is a device
    page, and cached translations."""
    number = sessions.number_of(words[1], "number of a guest") if len(words) == 2 else 0
    path = configurations.file_of(words[0])
    with image_configurations.opened(path, session.options, is_second=True) as given:
        other = sessions.Session(session.options, session.program, given.path, number)
        try:
            return compare(session, other)
        finally:
            other.close()


def compare(session: Session, other: Session) -> int:
    runs, others = session.runs, other.runs
    if runs.first != others.first:
        raise sessions.Bad(f"one guest begins at step {runs.first}, and the other at {others.first}")
    ignored = set(state_changes.words_that_differ(runs.start.ram, others.start.ram))
    if ignored:
        say(f"{len(ignored):,} doublewords of RAM differ from the start on, and are not compared")
    if runs.start.numbers["device"] != others.start.numbers["device"]:
        say("one guest has the device page and the other has not, which is not compared")
    found = state_changes.differences(runs.start, others.start, ignored)
    if found:
        session.print({"step": runs.first, "differences": [each.value() for each in found]},
                      ["different at the start"] + [f"  {each.line('|')}" for each in found])
        return 0
    end = max(session.end(), other.end())
    end = min(end, runs.last, others.last)
    probes = probes_of(runs.first, end)
    step = first_difference(runs, others, probes, ignored, session.tell)
    if step is None:
        session.print({"step": None}, [f"the same at step {end}, the end of the shorter run, and at "
                                       f"{len(probes) - 1} steps before"])
        return NOTHING
    found = state_changes.differences(*both_at(runs, others, step), ignored)
    session.print({"step": step, "differences": [each.value() for each in found]},
                  lines_of_difference(session, other, step, found))
    return 0


def show_fences(session: Session, words: list[str]) -> int:
    """Says whether dropped translations change the report, and where; with --strict what hardware may use."""
    if session.options.strict:
        from nesthv_tools import strict_fences
        return strict_fences.shown(session, *span_of(session, words))
    from nesthv_tools import fences
    return fences.shown(session, *span_of(session, words))


def show_findings(session: Session, words: list[str]) -> int:
    """Says what seems to be wrong."""
    from nesthv_tools import doctor
    return doctor.shown(session)


COMMANDS = {"at": look_at, "walk": show_walk, "maps": show_maps, "first": show_first, "trace": show_trace,
            "traps": show_traps, "first-trap": show_first_trap, "last-trap": show_last_trap,
            "entered": show_entered, "diff": show_diff, "fences": show_fences,
            "doctor": show_findings}


def main() -> int:
    options, session = options_of_words(), None
    try:
        config, guest, command, words = split_words(options.words)
        program = programs.found(options.program)
        if not program:
            raise sessions.Bad("there is no program: `--program PATH` or NESTHV names one")
        with image_configurations.opened(configurations.file_of(config), options) as given:
            names = faults.image_names(faults.parsed(faults.text_of(given.path))[0])
            image_configurations.refuse_elf_images(os.path.dirname(given.path), names)
            session = sessions.Session(options, program, given.path, guest, given.made_of)
            session.runs.goes_back = command not in OF_ONE_STATE
            return COMMANDS[command](session, words)
    except (sessions.Bad, guest_runs.Unusable, programs.Unusable, configurations.Unknown,
            image_configurations.Wrong) as why:
        say(str(why))
        return 2
    finally:
        if session:
            session.close()
