"""What is made of the log of a run, in one pass over its lines."""
import contextlib
import os
import re
from argparse import Namespace
from collections.abc import Callable, Iterable, Iterator
from typing import NamedTuple

from nesthv_tools import (
    callgrind_files, code_places, coverage_files, executed_code, exits, function_drawing, streams,
    timeline_drawing, timeline_events, timelines, whole_files)
from nesthv_tools.event_logs import Line, Log
from nesthv_tools.executed_code import Executed, Files
from nesthv_tools.timelines import Mark, Stretch


class Refused(Exception):
    """Why there is nothing to show, in words."""


def is_about_code(options: Namespace) -> bool:
    """Whether something is asked for that is made of counts."""
    return bool(options.callgrind or options.lcov or options.functions)


def kinds_of(options: Namespace) -> set[str]:
    """The kinds of lines that the log needs."""
    kinds: set[str] = set()
    if is_about_code(options):
        kinds.update(executed_code.KINDS)
    if options.exits:
        kinds.update(exits.KINDS)
    if options.timeline or options.svg:
        kinds.update([*timelines.KINDS, *["steps"] * (not options.no_modes)])
    return kinds


class Run(NamedTuple):
    """A run that is shown: its name, how a user names it to nesthv-trace, and its ELF files."""
    name: str
    command: str
    files: Files


class Profile:
    """Takes the lines of a log, and makes of them what was asked for."""

    def __init__(self, options: Namespace, shown: Run, log: Log, stack: contextlib.ExitStack) -> None:
        self.options, self.run, self.log = options, shown, log
        self.counts, self.exits = executed_code.Counts(), exits.Exits()
        self.timeline = timelines.Timeline(log, options.start if options.log else options.start or 0)
        self.events: timeline_events.Writer | None = None
        self.drawing = timeline_drawing.Drawing(shown.name, options.columns)
        self.sinks: list[Callable[[Stretch | Mark], None]] = []
        if options.timeline:
            file = stack.enter_context(whole_files.opened(options.timeline))
            self.events = timeline_events.Writer(file, shown.name)
            self.sinks.append(self.events.take)
        if options.svg:
            self.sinks.append(self.drawing.take)

    def take(self) -> None:
        """Reads the log."""
        takers: list[Callable[[Line], None]] = []
        if is_about_code(self.options):
            takers.append(self.counts.take)
        if self.options.exits:
            takers.append(self.exits.take)
        if self.sinks:
            takers.append(lambda line: self.show(self.timeline.take(line)))
        for line in self.log:
            for taker in takers:
                taker(line)
        self.show(self.timeline.rest())

    def show(self, items: Iterable[Stretch | Mark]) -> None:
        for item in items:
            for sink in self.sinks:
                sink(item)

    def finish(self) -> None:
        """Writes what was made, once all of it is there."""
        if self.sinks and not self.timeline.visit:
            raise Refused(f"{self.log.name} has no event, so there is no timeline")
        made = dict(self.texts_of_code()) if is_about_code(self.options) else {}
        if self.options.svg:
            made[self.options.svg] = self.drawing.svg()
        if self.events:
            self.events.finish()
        for path, text in made.items():
            whole_files.write(path, text.encode(errors="backslashreplace"))
        if self.options.exits:
            print("\n".join(self.exits.lines()))

    def texts_of_code(self) -> Iterator[tuple[str, str]]:
        """The files of what was executed: the path and the text of each."""
        if not self.counts.worlds:
            raise Refused(f"{self.log.name} has no counts, by which --callgrind, --lcov and --functions are "
                          "made: nesthv-trace writes them where `counts` is among its kinds")
        executed = Executed(self.counts, self.run.files)
        for notice in executed.notices:
            streams.say(notice)
        if self.options.callgrind:
            lines = callgrind_files.lines_of(executed, self.run.command)
            yield self.options.callgrind, "\n".join(lines) + "\n"
        if self.options.functions:
            yield self.options.functions, function_drawing.svg_of(executed, self.run.name)
        if self.options.lcov:
            yield self.options.lcov, self.coverage(executed)

    def coverage(self, executed: Executed) -> str:
        """The file of lcov."""
        if not code_places.program():
            raise Refused(f"there is no {code_places.ADDR2LINE}, which --lcov needs ({code_places.PACKAGE})")
        sources = coverage_files.sources_of(executed)
        if not sources:
            names = ", ".join(code.path for code in executed.costs)
            raise Refused(f"{names} tells of no lines: build it with -g" if names else
                          "no ELF file is known, which --lcov needs: --hs FILE and --vs FILE name one")
        lost = [path for path in sources if not os.path.isfile(path)]
        if lost:
            streams.say(f"{lost[0]}" + (f" and {len(lost) - 1} more sources are" if lost[1:] else " is") +
                        " not here: genhtml then takes `--ignore-errors source`")
        name = re.sub("[^A-Za-z0-9_]", "_", self.run.name)
        return "\n".join(coverage_files.lines_of(sources, name)) + "\n"
