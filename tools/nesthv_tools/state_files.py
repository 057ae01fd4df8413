"""Files of a temporary folder with what the program wrote, and states whose RAM stays in its file."""
import contextlib
import mmap
import os
import weakref
from typing import Self

from nesthv_tools import saves


def remove(path: str) -> None:
    with contextlib.suppress(OSError):  # the whole folder may be gone
        os.remove(path)


class OwnFile:
    """A file that is removed once nothing names it any more."""

    def __init__(self, path: str) -> None:
        self.path = path
        weakref.finalize(self, remove, path)

    def read(self) -> bytes:
        with open(self.path, "rb") as file:
            return file.read()

    def mapped(self) -> saves.Bytes:
        """Its bytes, which take memory when they are asked for."""
        with open(self.path, "rb") as file:
            if not os.fstat(file.fileno()).st_size:
                return b""
            return mmap.mmap(file.fileno(), 0, access=mmap.ACCESS_READ)


class State(saves.Saved):
    """A saved guest whose RAM is in a file, and perhaps all of it."""

    def __init__(self, file: OwnFile) -> None:
        super().__init__(file.mapped())
        self.file, self.is_whole = file, True

    def changed(self, numbers: dict[str, int], spaces: saves.Spaces | None = None,
                first: list[saves.First] | None = None) -> Self:
        other = super().changed(numbers, spaces, first)
        other.is_whole = False
        return other


def file_of(saved: saves.Saved, path: str) -> OwnFile:
    """A file that has this state: its own one, or a new one at this path."""
    if not isinstance(saved, State):
        with open(path, "wb") as file:
            file.write(saved.form())
        return OwnFile(path)
    if saved.is_whole and not saved.ram.pages:
        return saved.file
    with open(path, "wb", buffering=0) as file, open(saved.file.path, "rb") as own:
        file.write(saved.head())
        front, at, end = file.tell(), saved.front, saved.front + len(saved.ram)
        while at < end:
            at += os.sendfile(file.fileno(), own.fileno(), at, end - at)
        for page, data in saved.ram.pages.items():
            os.pwrite(file.fileno(), data, front + page)
    return OwnFile(path)
