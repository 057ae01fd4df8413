"""The three standard streams: a tool ends with an error where its output cannot be written."""
import errno
import os
import sys

from nesthv_tools import places, terminal

OUTPUT = "standard output"
CLOSED: set[int] = set()  # those that were closed when the tool began


def say(text: str) -> None:
    """Writes a line to standard error. Where that cannot be written, the status tells enough."""
    try:
        os.write(2, f"{places.name()}: {terminal.line_of(text)}\n".encode(errors="backslashreplace"))
    except OSError:
        pass


def write(data: bytes) -> None:
    """Writes all these bytes to standard output."""
    try:
        while data:
            data = data[os.write(1, data):]
    except OSError as error:
        raise OSError(error.errno, error.strerror, OUTPUT) from None


def hold() -> None:
    """Opens what is closed of the three streams, so that no file gets its number. A write to an output that
    was closed fails."""
    for number, mode in (0, os.O_RDONLY), (1, os.O_RDONLY), (2, os.O_WRONLY):
        try:
            os.fstat(number)
        except OSError:
            CLOSED.add(number)
            os.open(os.devnull, mode)
    sys.stdout = sys.stdout or open(1, "w", closefd=False)
    sys.stderr = sys.stderr or open(2, "w", closefd=False)
    for stream in (sys.stdout, sys.stderr):  # the name of a file may be no text
        stream.reconfigure(errors="backslashreplace")  # type: ignore[attr-defined]


def check_output() -> None:
    """Raises the error of a write where standard output was closed, for a program that would not tell of
    it."""
    if 1 in CLOSED:
        raise OSError(errno.EBADF, os.strerror(errno.EBADF), OUTPUT)


def drop() -> None:
    """Drops what was printed and is not yet written: to write it may wait for good."""
    os.dup2(os.open(os.devnull, os.O_WRONLY), 1)


def flush() -> OSError | None:
    """Writes all that was printed, and gives the error of standard output. What cannot be written is
    dropped."""
    failed = None
    for number, stream in (1, sys.stdout), (2, sys.stderr):
        try:
            stream.flush()
        except OSError as error:
            failed = failed or (error if number == 1 else None)
            os.dup2(os.open(os.devnull, os.O_WRONLY), number)
    return failed
