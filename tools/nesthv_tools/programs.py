"""Finds the program that the tools take: the one that is named, else the proved one."""
import functools
import glob
import hashlib
import os
import platform
from collections.abc import Callable, Iterator

from nesthv_tools import places

BUILT = os.path.join(places.TOP, "crates", "nesthv", "out", "nesthv")
INSTALLED = os.path.join(places.TOP, "..", "..", "bin", "nesthv")


class Unusable(Exception):
    """Why the program that is named cannot be taken."""


class Program:
    """A program: its path, whether it is a proved one, and what there is to say of it, which is found once it
    is asked for."""

    def __init__(self, path: str, is_proved: bool, find_notice: Callable[[], str] = str) -> None:
        self.path, self.is_proved, self.find_notice = path, is_proved, find_notice

    @functools.cached_property
    def notice(self) -> str:
        return self.find_notice()


def hash_of(path: str) -> str:
    with open(path, "rb") as file:
        return hashlib.sha256(file.read()).hexdigest()


def is_of(path: str, folder: str, name: str = "nesthv") -> bool:
    """Whether the file at this path has the SHA-256 that the file of this name in this folder says."""
    try:
        with open(os.path.join(folder, f"{name}.sha256"), encoding="ascii") as file:
            return hash_of(path) == file.read().split()[0]
    except (OSError, IndexError, UnicodeDecodeError):
        return False


def sources() -> Iterator[str]:
    """The sources, as dist/sources has them: what `rt ci` reads in the repository."""
    yield from ("HANDLES", "crates.txt")
    for folder, folders, names in os.walk(os.path.join(places.TOP, "crates")):
        crate = os.path.relpath(folder, places.TOP)
        if crate.count(os.sep) == 1:
            folders[:] = [name for name in folders if name not in ("out", "controls")]
        yield from (os.path.join(crate, name) for name in names if name != "README.md")


def hash_of_sources() -> str:
    """The SHA-256 of the sources, which dist/sources prints."""
    paths = [path for path in sources() if not os.path.islink(os.path.join(places.TOP, path))]
    lines = (f"{hash_of(os.path.join(places.TOP, path))}  {path}\n"
             for path in sorted(paths, key=os.fsencode))
    return hashlib.sha256("".join(lines).encode(errors="surrogateescape")).hexdigest()


def is_of_these_sources() -> bool:
    """Whether dist/nesthv was made of the sources that are here."""
    try:
        with open(os.path.join(places.DIST, "MADE"), encoding="utf-8") as file:
            return f"sources {hash_of_sources()}" in file.read().splitlines()
    except OSError:
        return False


def notice_of_sources() -> str:
    """What there is to say of dist/nesthv."""
    return "" if is_of_these_sources() else "is of other sources; dist/check says more"


def is_older_than_sources(program: str) -> bool:
    """Whether a source of a crate has changed since this program was built."""
    built = os.path.getmtime(program)
    return any(os.path.getmtime(path) > built
               for path in glob.glob(os.path.join(places.TOP, "crates", "*", "s*", "*")))


def is_program(path: str) -> bool:
    return os.path.isfile(path) and os.access(path, os.X_OK)


def beside(name: str, program: str) -> str | None:
    """The path of another program, as nesthv-gdb, in the folder of this one, or where rt has built both; or
    none."""
    crate = name.replace("-", "_")
    names = (name, crate, os.path.join("..", "..", crate, "out", crate))
    paths = (os.path.join(os.path.dirname(program), each) for each in names)
    return next((path for path in paths if is_program(path)), None)


def companion(name: str, path: str | None = None) -> str | None:
    """The path of another program, as nesthv-gdb: the one that is named, else the one beside the program that
    NESTHV has. Else it is that of where tools/install has put the tools, that of dist/, or the one that rt
    has built; or none."""
    if path:
        return os.path.abspath(path) if is_program(path) else None
    programs = (os.environ.get("NESTHV"), INSTALLED, os.path.join(places.DIST, "nesthv"), BUILT)
    found = filter(None, (beside(name, each) for each in programs if each))
    return next((os.path.abspath(each) for each in found), None)


def why_not(path: str) -> str:
    """Why the file at this path cannot be a program."""
    if not os.path.exists(path):
        return "there is no such file"
    return "it is not a regular file" if not os.path.isfile(path) else "it is not executable"


def named(path: str) -> Program:
    """The program at the path that a user names."""
    if not is_program(path):
        raise Unusable(f"{path} is not a program: {why_not(path)}")
    path = os.path.abspath(path)
    is_proved = is_of(path, places.DIST) or is_of(path, places.TOOLS)
    return Program(path, is_proved, lambda: "is not known to be proved" * (not is_proved))


def proved() -> Program | None:
    """The proved program of a folder where tools/install has put it. Of a repository it is that of dist/
    where it has the SHA-256 that stands beside it, else the one that `rt run` has built; or none."""
    if is_of(INSTALLED, places.TOOLS) and is_program(INSTALLED):
        return Program(os.path.realpath(INSTALLED), True)
    path = os.path.join(places.DIST, "nesthv")
    is_here = (platform.system(), platform.machine()) == ("Linux", "x86_64")
    if is_here and is_program(path) and is_of(path, places.DIST):
        return Program(path, True, notice_of_sources)
    if is_program(BUILT):
        return Program(BUILT, True, lambda: "is older than the sources" * is_older_than_sources(BUILT))
    return None


def found(path: str | None = None) -> Program | None:
    """The program at this path, else at the one that NESTHV has, else the proved one, or none."""
    path = path or os.environ.get("NESTHV")
    return named(path) if path else proved()
