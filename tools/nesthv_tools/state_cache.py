"""A folder of kept states, with a bound on its size."""
import os
import shutil
from typing import BinaryIO

from nesthv_tools import endings, saves, whole_files

MIB = 1 << 20
DEFAULT_SIZE = 256 * MIB  # of the disk
ZEROS = bytes(1 << 18)


class Cache:
    """A folder of kept states, of which those that were used last stay: at most `most` bytes of the disk in
    all. Where the folder cannot be written, or `most` is 0, it is a temporary one."""

    def __init__(self, folder: str, most: int, key: str) -> None:
        self.top, self.most, self.own = folder, most, None
        try:
            os.makedirs(os.path.join(folder, key), mode=0o700, exist_ok=True)
        except OSError:
            self.most = 0
        if not self.most:
            self.own = endings.Folder("nesthv-look-")
            self.top, self.most = self.own.name, DEFAULT_SIZE
            os.mkdir(os.path.join(self.top, key))
        self.folder = os.path.join(self.top, key)

    def close(self) -> None:
        if self.own:
            self.own.cleanup()

    def steps(self) -> list[int]:
        """The steps of the states that are kept of this guest."""
        try:
            names = os.listdir(self.folder) if self.most else []
        except OSError:
            names = []
        return [int(name) for name in names if name.isdigit()]

    def put_at(self, step: int, path: str) -> bool:
        """Puts the file of a state that is kept at this path, and says whether there is one. It stays there
        though the cache is trimmed."""
        own = os.path.join(self.folder, str(step))
        try:
            os.utime(own)
            try:
                os.link(own, path)
            except OSError:  # another disk
                shutil.copyfile(own, path)
        except OSError:
            return False
        return True

    def keep(self, step: int, data: saves.Bytes) -> None:
        if not self.most:
            return
        try:
            with whole_files.opened(os.path.join(self.folder, str(step))) as file:
                write_sparse(file, data)
            self.trim()
        except OSError:  # the disk is full
            self.most = 0

    def trim(self) -> None:
        """Removes the states that were used longest ago, until the rest is within the bound."""
        found = []
        for folder, _, names in os.walk(self.top):
            for path in (os.path.join(folder, name) for name in names):
                try:
                    status = os.stat(path)
                except OSError:
                    continue
                found.append((status.st_mtime_ns, status.st_blocks * 512, path))
        size = sum(each[1] for each in found)
        for _, has, path in sorted(found):
            if size <= self.most:
                return
            try:
                os.remove(path)
            except OSError:
                pass
            size -= has


def write_sparse(file: BinaryIO, data: saves.Bytes) -> None:
    """Writes these bytes; pieces of zeros take no place of the disk."""
    for at in range(0, len(data), len(ZEROS)):
        piece = data[at:at + len(ZEROS)]
        if piece == ZEROS:
            file.seek(len(ZEROS), os.SEEK_CUR)
            continue
        for page in range(0, len(piece), 4096):
            if piece[page:page + 4096] == ZEROS[:4096]:
                file.seek(4096, os.SEEK_CUR)
            else:
                file.write(piece[page:page + 4096])
    file.truncate(len(data))
