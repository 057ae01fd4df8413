"""Reads the words of a tool."""
import argparse
import sys
from collections.abc import Callable
from typing import IO, Any

from nesthv_tools import places, streams


VERSION = "prints the version, and of the program its commit, the kit that proved it, and its SHA-256"


class TellVersion(argparse.Action):
    """Prints the version, and ends."""

    def __call__(self, parser: argparse.ArgumentParser, namespace: argparse.Namespace, values: Any,
                 option: str | None = None) -> None:
        from nesthv_tools import programs, versions  # which each tool would compile, each time
        try:
            streams.write(versions.text_of(programs.found()).encode())
        except programs.Unusable as error:
            parser.error(str(error))
        parser.exit()


class Parser(argparse.ArgumentParser):
    """Reads the words of a tool. A help text that cannot be written is an error. Where there are examples,
    their lines and those of the description stay as they are. The tool tells its version, unless it does so
    by itself."""

    def __init__(self, description: str | None, usage: str | None = None,
                 examples: str | None = None, tells_version: bool = True) -> None:
        form = argparse.RawDescriptionHelpFormatter if examples else argparse.HelpFormatter
        super().__init__(prog=places.name(), description=description, usage=usage, epilog=examples,
                         formatter_class=form, allow_abbrev=False)
        if tells_version:
            self.add_argument("--version", action=TellVersion, nargs=0, help=VERSION)

    def print_help(self, file: IO[str] | None = None) -> None:
        streams.write(self.format_help().encode())

    def parse_words(self, alone: str = "") -> argparse.Namespace:
        """The options, with `words`: those between the options, and all after `--`. There is a word, unless
        the option `alone` is given."""
        given = sys.argv[1:]
        at = given.index("--") if "--" in given else len(given)
        options = self.parse_intermixed_args(given[:at])
        options.words += given[at + 1:]
        if not options.words and not getattr(options, alone, False):
            self.error("the following arguments are required: WORD")
        return options


def number(least: int, most: int) -> Callable[[str], int]:
    """Reads an option's integer, decimal or with 0x, from `least` to `most`."""
    def parsed(text: str) -> int:
        try:
            value = int(text, 0)
        except ValueError:
            value = least - 1
        if not least <= value <= most:
            raise argparse.ArgumentTypeError(f"{text} is not an integer from {least} to {most}")
        return value
    return parsed


def seconds(text: str) -> float:
    """Reads an option's time, in seconds."""
    try:
        value = float(text)
    except ValueError:
        value = 0.0
    if not 0 < value <= 1e6:
        raise argparse.ArgumentTypeError(f"{text} is not a time in seconds, above 0 and at most 1,000,000")
    return value
