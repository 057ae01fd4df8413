"""The end of this process by a signal, which waits while what it would leave behind is made or removed."""
import contextlib
import sys
import tempfile
import threading
from collections import Counter
from collections.abc import Iterator

STATUS: list[int] = []  # with which a signal ends this process, once one has come
HELD: Counter[int] = Counter()  # by thread, how many blocks it is in that wait for their end


def leave() -> None:
    """Ends this process where a signal ends it and this thread is in no such block."""
    if STATUS and not HELD[threading.get_ident()]:
        sys.exit(STATUS[0])


@contextlib.contextmanager
def held() -> Iterator[None]:
    """A block that a signal ends at its end."""
    thread = threading.get_ident()
    HELD[thread] += 1
    try:
        yield
    finally:
        HELD[thread] -= 1
    leave()


class Folder(tempfile.TemporaryDirectory[str]):
    """A temporary folder that no signal leaves behind."""

    def __init__(self, prefix: str) -> None:
        with held():
            super().__init__(prefix=prefix)

    def cleanup(self) -> None:
        with held():
            super().cleanup()
