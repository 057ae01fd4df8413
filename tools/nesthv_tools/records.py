"""Files of inputs, as format 2 has them: records of 9 bytes, each a moment in 8 bytes, the lowest first, and
the byte that comes then.
"""
import struct
from collections.abc import Iterable, Sequence

LENGTH = 9  # of a record
MOST = 65536  # records of a file
END = 2**62  # no moment is as late
MOST_BYTES = LENGTH * MOST + 1  # that the program reads: one more than a good file has


def pairs_of(data: bytes) -> list[tuple[int, int]]:
    """The moment and the byte of each whole record of these bytes."""
    whole = data[:len(data) // LENGTH * LENGTH]
    return [(moment, byte) for moment, byte in struct.iter_unpack("<QB", whole)]


def bytes_of(pairs: Iterable[Sequence[int]]) -> bytes:
    return b"".join(struct.pack("<QB", moment, byte) for moment, byte in pairs)


def first_wrong(data: bytes) -> tuple[int, str] | None:
    """The number of the first wrong record of these bytes, and what is wrong with it; or none."""
    before = 0
    pairs = pairs_of(data)
    for number, (moment, _) in enumerate(pairs[:MOST]):
        if moment >= END:
            return number, f"its moment is {moment}, and moments are below 2^62"
        if moment < before:
            return number, f"its moment is {moment}, which is less than {before}, the one before"
        before = moment
    if len(data) > LENGTH * MOST:
        return MOST, f"it is one too many: a file has at most {MOST:,}"
    if len(data) % LENGTH:
        return len(pairs), f"it has {len(data) % LENGTH} bytes, and a record has {LENGTH}"
    return None
