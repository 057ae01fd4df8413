"""ELF files for tests."""
import struct

from helper import LETTER

RAM = 0x80000000


def elf(*segments, entry=RAM, machine=243, kind=2, flags=0, front=b"\x7fELF\2\1\1"):
    """An ELF file of these segments, each its place, its bytes, and its length in memory, its kind and its
    address, which may be left out."""
    segments = segments or ((RAM, LETTER),)
    headers, body, at = b"", b"", 64 + 56 * len(segments)
    for place, data, *more in segments:
        length, which, address = (*more, *(len(data), 1, place)[len(more):])
        headers += struct.pack("<IIQQQQQQ", which, 7, at + len(body), address, place, len(data), length, 4)
        body += data
    header = struct.pack("<16sHHIQQQIHHHHHH", front, kind, machine, 1, entry, 64, 0, flags, 64, 56,
                         len(segments), 64, 0, 0)
    return header + headers + body


def with_headers(data, below=b""):
    """An ELF file whose one segment begins with the file's own headers, in the page below RAM, as linkers make
    one. These bytes follow the headers there, and this data is the code."""
    made = bytearray(elf((RAM - 0x1000, b"")) + below)
    made += bytes(0x1000 - len(made)) + data
    struct.pack_into("<Q", made, 72, 0)
    struct.pack_into("<QQ", made, 96, len(made), len(made))
    return bytes(made)
