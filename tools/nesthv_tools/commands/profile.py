"""Shows the whole run of a guest by a log of its events, which nesthv-trace writes: how often each
instruction was executed, by function and line, why and for how long guests of the guest were left, and which
world ran when.

CONFIG is a configuration, or an ELF file or an image in place of one. With --log the log of a run is read
that has been made before; CONFIG then tells the ELF files alone, and may be left out.

The ELF file of the guest itself has the image's name, and stands beside it. Others in its folder are those of
the guest's own guests where the image has their bytes in it. Instructions in HS and U are shown with the
symbols of the first, those in VS and VU with the symbols of the others.
"""
import contextlib
import os
import re
import sys
from argparse import ArgumentTypeError, Namespace
from collections.abc import Iterator
from typing import BinaryIO, NamedTuple

from nesthv_tools import (
    code_places, command_line, configurations, debuggers, event_logs, faults, image_configurations, profiles,
    programs, streams, timeline_drawing, tracers)
from nesthv_tools.code_places import Code
from nesthv_tools.commands import debug, run
from nesthv_tools.executed_code import Files

USAGE = "%(prog)s [OPTION]... CONFIG [GUEST]\n       %(prog)s [OPTION]... --log FILE [CONFIG [GUEST]]"
EXAMPLES = """examples:
  %(prog)s hypervisor.toml --exits
  %(prog)s hypervisor.toml --svg run.svg --timeline run.json
  %(prog)s kernel.elf --callgrind run.callgrind && callgrind_annotate run.callgrind
  %(prog)s kernel.elf --functions functions.svg
  %(prog)s kernel.toml --lcov run.info && genhtml run.info --output-directory coverage
  nesthv-trace kernel.toml 0 worlds >run.log && %(prog)s --log run.log --exits
"""
OUTPUTS = ("callgrind", "functions", "lcov", "timeline", "svg")
MOST_STEPS = 1 << 52
HGATP = re.compile("([0-9a-f]{1,16})=(.+)")


class Nested(NamedTuple):
    """An ELF file of guests of the guest, of those with one hgatp, or of all."""
    hgatp: int | None
    path: str


def nested_file(text: str) -> Nested:
    """Reads the word of --vs."""
    found = HGATP.fullmatch(text)
    if found:
        return Nested(int(found[1], 16), found[2])
    if not text or "=" in text and not os.path.exists(text):
        raise ArgumentTypeError(f"{text} is not FILE, and not HGATP=FILE with a hexadecimal number")
    return Nested(None, text)


def add_outputs(parser: command_line.Parser) -> None:
    """Adds the options that say what is made."""
    group = parser.add_argument_group("what is made, of which there is one or more")
    group.add_argument("--callgrind", metavar="FILE",
                       help="instructions by function and line, with a cost for each mode, for kcachegrind "
                       "and callgrind_annotate")
    group.add_argument("--functions", metavar="FILE",
                       help="a picture of the functions that executed most instructions, in each mode")
    group.add_argument("--lcov", metavar="FILE",
                       help="coverage of the sources, by line and function, for genhtml and lcov")
    group.add_argument("--exits", action="store_true",
                       help="prints a table of the exits of each guest of the guest: their causes, how many, "
                       "and how many steps are made until the guest of the guest goes on")
    group.add_argument("--timeline", metavar="FILE",
                       help="which world ran when, with traps, fences, inputs and stale uses of "
                       "translations, as JSON of Chrome's trace events, for Perfetto")
    group.add_argument("--svg", metavar="FILE", help="the same as a picture")
    group.add_argument("--columns", metavar="N", type=command_line.number(1, timeline_drawing.COLUMNS),
                       default=timeline_drawing.COLUMNS,
                       help="how many columns the picture of --svg has at most, so that its file is small; "
                       "%(default)s if left out")


def options_of_words() -> Namespace:
    parser = command_line.Parser(__doc__, USAGE, EXAMPLES)
    parser.add_argument("config", metavar="CONFIG", nargs="?",
                        help="the file of a configuration, or an ELF file or an image")
    parser.add_argument("guest", metavar="GUEST", nargs="?", type=command_line.number(0, 99), default=0,
                        help="the guest's number, from 0 on; 0 if left out")
    add_outputs(parser)
    parser.add_argument("--from", dest="start", metavar="N", type=command_line.number(0, MOST_STEPS),
                        help="the first step of the log; 0 if left out")
    parser.add_argument("--to", dest="end", metavar="N", type=command_line.number(0, MOST_STEPS),
                        help="the step after its last one; the end of the run if left out")
    parser.add_argument("--no-modes", action="store_true",
                        help="does not tell VS from VU, and HS from U, in --timeline and --svg: their log "
                        "then has no line for each step, and is made much faster")
    parser.add_argument("--log", metavar="FILE",
                        help="reads this log in place of running the guest; standard input where it is `-`")
    parser.add_argument("--trace", metavar="PATH",
                        help="the nesthv-trace to take; the installed one if left out")
    parser.add_argument("--hs", metavar="FILE", action="append", default=[],
                        help="an ELF file of what runs in HS and U, in place of the one beside the image")
    parser.add_argument("--vs", metavar="[HGATP=]FILE", action="append", default=[], type=nested_file,
                        help="an ELF file of what runs in VS and VU, in place of those beside the image; "
                        "with HGATP, which is hexadecimal, of what runs under this hgatp")
    image_configurations.add_options(parser)
    options = parser.parse_intermixed_args(sys.argv[1:])
    refuse(parser, options)
    return options


def refuse(parser: command_line.Parser, options: Namespace) -> None:
    """Refuses options that do not fit together."""
    paths = [path for path in (getattr(options, name) for name in OUTPUTS) if path]
    if not paths and not options.exits:
        names = ", ".join(f"--{name}" for name in (*OUTPUTS, "exits"))
        parser.error(f"there is nothing to make: give one of {names}")
    if not options.config and not options.log:
        parser.error("the following arguments are required: CONFIG, or --log FILE")
    if options.log and not (options.start is None and options.end is None and options.trace is None):
        parser.error("--from, --to and --trace are for a run, and --log reads a log that is there")
    if options.end is not None and options.end < (options.start or 0):
        parser.error(f"--to is {options.end}, which is before --from, {options.start}")
    real = [os.path.realpath(path) for path in paths if not is_special(path)]
    taken = [options.config, options.log, *options.hs, *(each.path for each in options.vs)]
    for path in real:
        if real.count(path) > 1:
            parser.error(f"{path} would be written twice: name another file")
        if path in [os.path.realpath(each) for each in taken if each]:
            parser.error(f"{path} is read, and would be written over: name another file")


def is_special(path: str) -> bool:
    """Whether there is a device or a pipe at this path."""
    return os.path.exists(path) and not os.path.isfile(path)


def code_of(path: str) -> Code:
    """The ELF file that a user names."""
    code = code_places.code_at(path)
    if not code:
        raise profiles.Refused(f"{path} cannot be read as an ELF file of 64 bits, little endian, for RISC-V")
    return code


def files_of(options: Namespace, worlds: debuggers.Worlds) -> Files:
    """The ELF files of each world: those that are named, else those beside the image."""
    own = [code_of(path) for path in options.hs]
    if not own and worlds.own:
        own = [code_of(worlds.own.path)]
    nested = [code_of(each.path) for each in options.vs if each.hgatp is None]
    by_hgatp: dict[int, list[Code]] = {}
    for each in options.vs:
        if each.hgatp is not None:
            by_hgatp.setdefault(each.hgatp, []).append(code_of(each.path))
    if not options.vs:
        nested = [code_of(each.path) for each in worlds.nested]
    return Files(own, nested, by_hgatp)


def name_of(options: Namespace, path: str | None) -> str:
    """What the guest is called: its name in the configuration at this path, or the name of a file."""
    name = debug.table_of(path, options.guest)[1].get("name") if path else None
    return name if isinstance(name, str) else os.path.basename(str(options.config or options.log))


@contextlib.contextmanager
def log_at(path: str) -> Iterator[BinaryIO]:
    """The log that a user names."""
    if path == "-":
        yield sys.stdin.buffer
        return
    with open(path, "rb") as file:
        yield file


def run_of(options: Namespace, path: str) -> contextlib.AbstractContextManager[BinaryIO]:
    """The log of a run of the configuration at this path."""
    program = programs.companion(tracers.NAME, options.trace)
    if not program:
        raise profiles.Refused(f"{options.trace} is not a program" if options.trace else
                               f"there is no {tracers.NAME}: --trace PATH names one, and --log FILE reads a "
                               "log that it has written")
    folder = run.folder_of(path)
    place = path if folder == "." else os.path.join(".", os.path.basename(path))
    document, _ = debug.table_of(path, options.guest)
    image_configurations.refuse_elf_images(folder, faults.image_names(document))
    guest = tracers.Guest(path, folder, place, options.guest)
    words = tracers.words_of(profiles.kinds_of(options), options.start, options.end)
    return tracers.log_of(program, guest, words)


def show(options: Namespace, given: image_configurations.Given | None) -> int:
    """Shows the run of a configuration, or the log that is named."""
    path = given.path if given else None
    worlds = debug.worlds_of(given.path, run.folder_of(given.path), options.guest, given.made_of) if given else \
        debuggers.Worlds(None, [])
    command = f"nesthv-trace {given.shown} {options.guest}" if given else options.log
    about = profiles.Run(name_of(options, path), command, files_of(options, worlds))
    with contextlib.ExitStack() as stack:
        with log_at(options.log) if options.log else run_of(options, path or "") as file:
            log = event_logs.Log(file, options.log or "the log")
            profile = profiles.Profile(options, about, log, stack)
            profile.take()
        profile.finish()
    return 0


def main() -> int:
    options = options_of_words()
    try:
        if not options.config:
            return show(options, None)
        options.config = path = configurations.file_of(options.config)
        with image_configurations.opened(path, options) as given:
            return show(options, given)
    except (profiles.Refused, tracers.Refused, event_logs.Wrong, code_places.Failed,
            configurations.Unknown, image_configurations.Wrong) as why:
        streams.say(str(why))
        return 2
