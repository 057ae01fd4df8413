"""Runs nesthv-trace, which writes the log of a guest's run."""
import contextlib
import subprocess
import tempfile
from collections.abc import Iterator
from typing import IO, BinaryIO, NamedTuple, cast

from nesthv_tools import children, event_logs, faults

NAME = "nesthv-trace"


class Refused(Exception):
    """Why there is no log, in words."""


class Guest(NamedTuple):
    """A guest whose log is wanted: the path of its configuration, the folder in which the program runs, how
    the configuration is named there, and the guest's number."""
    path: str
    folder: str
    place: str
    number: int


def words_of(kinds: set[str], start: int | None, end: int | None) -> list[str]:
    """What nesthv-trace is asked for: kinds of lines, and steps."""
    bounds = [] if start is None and end is None else [start or 0] if end is None else [start or 0, end]
    return [",".join(kind for kind in event_logs.KINDS if kind in kinds), *map(str, bounds)]


@contextlib.contextmanager
def log_of(program: str, guest: Guest, words: list[str]) -> Iterator[BinaryIO]:
    """The log of a guest, which is read to its end. Where the program fails, it is refused in words."""
    with tempfile.TemporaryFile() as errors:
        command = [program, guest.place, str(guest.number), *words]
        try:
            process = children.start(command, guest.folder, errors)
        except OSError as error:
            raise Refused(f"{program} cannot be run: {error.strerror}") from None
        try:
            yield cast(BinaryIO, process.stdout)
            refuse_failure(program, process, errors, guest)
        except event_logs.Cut:
            refuse_failure(program, process, errors, guest)
            raise
        finally:
            children.stop(process)


def refuse_failure(program: str, process: subprocess.Popen[bytes], errors: IO[bytes], guest: Guest) -> None:
    """Waits for the program's end, and refuses a status that is not 0."""
    status = process.wait()
    if status < 0:
        raise Refused(f"{program} was ended by signal {-status}")
    if status:
        errors.seek(0)
        line = next(iter(errors.read().decode(errors="replace").splitlines()), f"status {status}")
        meaning = faults.explained(line, guest.path, faults.text_of(guest.path))
        raise Refused(line + (f": {meaning}" if meaning else ""))
