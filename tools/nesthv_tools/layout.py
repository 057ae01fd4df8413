"""What is installed, and where: the same files below a prefix for tools/install and for dist/package."""
import contextlib
import glob
import os
import subprocess
from collections.abc import Iterator
from typing import NamedTuple

from nesthv_tools import places, programs, versions

# Each tool that is installed, by its script, and its command.
TOOLS = ("run", "build", "look", "debug", "profile", "batch", "explore", "fuzz", "inputs", "saved",
         "qemu-run")
COMMANDS = {name: f"nesthv-{name}" for name in TOOLS}
PROGRAMS = ("nesthv", "nesthv-gdb", "nesthv-trace")
DATA = ("csrs.txt", "debug.gdb", "fuzz_target.c", "qemu.bin")  # files that tools read, beside their scripts
LIBRARY = os.path.join("lib", "nesthv", "tools")
MANIFEST = os.path.join("lib", "nesthv", "FILES")
MANUAL = os.path.join("share", "man", "man1")
BASH = os.path.join("share", "bash-completion", "completions")
ZSH = os.path.join("share", "zsh", "site-functions")
ZSH_OF_DEBIAN = os.path.join("share", "zsh", "vendor-completions")  # which zsh of Debian reads
SCRIPTS = ("examples/run", "examples/check", "examples/words", "examples/build")  # of the repository alone
FISH = os.path.join("share", "fish", "vendor_completions.d")


class File(NamedTuple):
    """A file: its path below the prefix, its bytes and its mode."""
    path: str
    data: bytes
    mode: int


class Link(NamedTuple):
    """A symbolic link: its path below the prefix, and what it names."""
    path: str
    target: str


def paths_of(files: list[File], links: list[Link]) -> list[str]:
    """The paths of these files and links."""
    return [file.path for file in files] + [link.path for link in links]


def bytes_at(path: str) -> bytes:
    with open(path, "rb") as file:
        return file.read()


def copied(source: str, path: str) -> File:
    """A file of the repository, which keeps whether it can be executed."""
    return File(path, bytes_at(source), 0o755 if os.access(source, os.X_OK) else 0o644)


def pages() -> list[str]:
    """The man pages."""
    return sorted(glob.glob(os.path.join(places.TOP, "docs", "*.1")))


def tool_files() -> Iterator[File]:
    """The scripts of the tools, their package, and what they read."""
    package = glob.glob(os.path.join(places.PACKAGE, "**", "*.py"), recursive=True)
    for path in [*(os.path.join(places.TOOLS, name) for name in (*COMMANDS, *DATA)), *package]:
        yield copied(path, os.path.join(LIBRARY, os.path.relpath(path, places.TOOLS)))


def names_in(*patterns: str) -> list[str]:
    """The files of the repository below these paths, by name: those that Git has, or without Git all that there
    are."""
    words = ["git", "ls-files", "-z", *patterns]
    with contextlib.suppress(OSError):
        ran = subprocess.run(words, cwd=places.TOP, stdin=subprocess.DEVNULL, capture_output=True)
        if ran.returncode == 0 and ran.stdout:
            return list(filter(None, ran.stdout.decode().split("\0")))
    found = [path for pattern in patterns for path in glob.glob(os.path.join(places.TOP, pattern))]
    return sorted(os.path.relpath(path, places.TOP) for each in found for path in files_below(each))


def files_below(path: str) -> list[str]:
    """A file, or those in a folder."""
    if os.path.isfile(path):
        return [path]
    return [os.path.join(folder, name) for folder, _, names in os.walk(path) for name in names]


def documents(*patterns: str) -> Iterator[File]:
    """These files of the repository, as they are installed, but for its own scripts."""
    for name in names_in(*patterns):
        if name not in SCRIPTS:
            yield copied(os.path.join(places.TOP, name), os.path.join(places.DOCUMENTS, name))


def files(program: str) -> Iterator[File]:
    """Each file, where this is the path of the proved program."""
    yield copied(program, os.path.join("bin", "nesthv"))
    for name in PROGRAMS[1:]:
        path = os.path.join(places.DIST, name)
        if programs.is_program(path) and programs.is_of(path, places.DIST, name):
            yield copied(path, os.path.join("bin", name))
    yield from tool_files()
    line = f"{programs.hash_of(program)}  nesthv\n"
    yield File(os.path.join(LIBRARY, "nesthv.sha256"), line.encode(), 0o644)
    yield File(os.path.join(LIBRARY, "VERSION"), versions.installed_text().encode(), 0o644)
    for page in pages():
        yield copied(page, os.path.join(MANUAL, os.path.basename(page)))
    for shell, path in (("bash", os.path.join(BASH, "nesthv")), ("zsh", os.path.join(ZSH, "_nesthv")),
                        ("fish", os.path.join(FISH, "nesthv.fish"))):
        yield copied(os.path.join(places.TOOLS, f"completion.{shell}"), path)
    yield from documents("examples")


def links() -> Iterator[Link]:
    """Each link."""
    for tool, command in COMMANDS.items():
        yield Link(os.path.join("bin", command), os.path.join("..", LIBRARY, tool))
    for command in (*COMMANDS.values(), *PROGRAMS[1:]):
        yield Link(os.path.join(BASH, command), "nesthv")
        yield Link(os.path.join(FISH, f"{command}.fish"), "nesthv.fish")
