"""Files that are written whole or not at all: what was there stays until all is on the disk."""
import contextlib
import itertools
import os
import stat
from collections.abc import Iterator
from typing import BinaryIO

NUMBERS = itertools.count()  # of the files that are being written


def write(path: str, data: bytes, mode: int | None = None) -> None:
    """Writes a file of these bytes. Where that fails, the error names the file."""
    with opened(path, mode) as file:
        file.write(data)


@contextlib.contextmanager
def opened(path: str, mode: int | None = None) -> Iterator[BinaryIO]:
    """A file to be written, which stands at this path once all is written. What a link names is written, and
    so is a device or a pipe. Without a mode the file keeps the one that it has."""
    target = os.path.realpath(path)
    try:
        if is_replaced(target):
            with beside(target, mode) as file:
                yield file
        else:
            with open(target, "wb") as file:
                yield file
    except OSError as error:
        raise OSError(error.errno, error.strerror, path) from None


def is_replaced(target: str) -> bool:
    """Whether the file is missing, or is a regular one that may be written."""
    try:
        kept = os.stat(target).st_mode
    except FileNotFoundError:
        return True
    return stat.S_ISREG(kept) and os.access(target, os.W_OK)


@contextlib.contextmanager
def beside(target: str, mode: int | None) -> Iterator[BinaryIO]:
    """A file beside another one, in whose place it is put once it is written."""
    part = os.path.join(os.path.dirname(target), f".nesthv-{os.getpid()}-{next(NUMBERS)}")
    try:
        with open(part, "xb") as file:
            yield file
            file.flush()
            os.fchmod(file.fileno(), mode_of(target, file.fileno()) if mode is None else mode)
            os.fsync(file.fileno())
        os.replace(part, target)
    except BaseException:
        with contextlib.suppress(FileNotFoundError):
            os.remove(part)
        raise


def mode_of(target: str, new: int) -> int:
    """The mode that the file has, or that of the new one."""
    with contextlib.suppress(FileNotFoundError):
        return stat.S_IMODE(os.stat(target).st_mode)
    return stat.S_IMODE(os.fstat(new).st_mode)


def link(target: str, path: str) -> None:
    """Puts a link to this target in place of what is there."""
    part = os.path.join(os.path.dirname(path), f".nesthv-{os.getpid()}-link")
    try:
        os.symlink(target, part)
        os.replace(part, path)
    except OSError as error:
        with contextlib.suppress(FileNotFoundError):
            os.remove(part)
        raise OSError(error.errno, error.strerror, path) from None
