"""The programs that this process has started and that still run, which a signal ends with it."""
import contextlib
import os
import subprocess
from typing import IO, Any

from nesthv_tools import endings

RUNNING: set[subprocess.Popen[bytes]] = set()
# A program takes a guest's RAM in few large pieces. By default glibc gives each back to the system once it is
# free, and the system clears what is taken again, page by page.
KEPT = "glibc.malloc.mmap_threshold=1073741824:glibc.malloc.trim_threshold=1073741824"
LARGE_PAGES = "glibc.malloc.hugetlb=1"


def environment() -> dict[str, str]:
    """That of a program that runs a guest."""
    return {"GLIBC_TUNABLES": f"{KEPT}:{LARGE_PAGES}", **os.environ}


def begin(words: list[str], **options: Any) -> subprocess.Popen[bytes]:
    """Starts a program. A signal that comes before the program is known here ends it too."""
    with endings.held():
        process = subprocess.Popen(words, **options)
        RUNNING.add(process)
        if endings.STATUS:
            stop(process)
    return process


def start(words: list[str], folder: str,
          errors: IO[bytes] | int = subprocess.DEVNULL) -> subprocess.Popen[bytes]:
    """Starts a program in a folder, which is talked with by its input and output. Its lines go to a file, or
    nowhere."""
    return begin(words, cwd=folder, env=environment(), stdin=subprocess.PIPE, stdout=subprocess.PIPE,
                 stderr=errors)


def stop(process: subprocess.Popen[bytes]) -> None:
    """Ends a program that was started. What it has written and was not read is lost."""
    process.kill()
    for stream in filter(None, (process.stdin, process.stdout, process.stderr)):
        with contextlib.suppress(OSError):
            stream.close()
    process.wait()
    RUNNING.discard(process)


def complete(words: list[str], **options: Any) -> subprocess.CompletedProcess[bytes]:
    """Runs a program to its end, as `subprocess.run` does."""
    process = begin(words, **options)
    try:
        output, lines = process.communicate()
        return subprocess.CompletedProcess(words, process.returncode, output, lines)
    finally:
        process.kill()
        process.wait()
        RUNNING.discard(process)


def run(words: list[str], folder: str, output: IO[bytes]) -> tuple[int, bytes]:
    """Runs a program in a folder, which writes its output to this file. Gives its status and its lines."""
    ran = complete(words, cwd=folder, env=environment(), stdin=subprocess.DEVNULL, stdout=output,
                   stderr=subprocess.PIPE)
    return ran.returncode, ran.stderr


def end() -> None:
    """Ends them all."""
    for process in list(RUNNING):
        process.kill()
