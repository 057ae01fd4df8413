"""Bytes as a terminal may get them: control characters but line feed and tab are shown, so that a guest
cannot steer the terminal.
"""
import codecs
import os
import re

CONTROLS = re.compile("[\x00-\x08\x0b-\x1f\x7f-\x9f]")


def shown(text: str) -> str:
    """A text in which control characters but line feed and tab stand as `\\x1b`."""
    return CONTROLS.sub(lambda found: f"\\x{ord(found[0]):02x}", text)


def line_of(text: str) -> str:
    """A text as one line, such as the name of a file in a message."""
    return shown(text).replace("\n", "\\n")


class Output:
    """What standard output gets of bytes that come in pieces. Where it is a terminal, and not `is_raw`,
    control characters are shown, and so is what is not UTF-8."""

    def __init__(self, is_raw: bool = False) -> None:
        self.is_shown = not is_raw and os.isatty(1)
        self.decoder = codecs.getincrementaldecoder("utf-8")("backslashreplace")

    def of(self, data: bytes, is_last: bool = False) -> bytes:
        return shown(self.decoder.decode(data, is_last)).encode() if self.is_shown else data
