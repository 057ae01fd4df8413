"""Makes an image of an ELF file by its program headers, as `objcopy -O binary` does. What a guest cannot be
is refused in words.
"""
import struct
from collections.abc import Iterator
from typing import NamedTuple

from nesthv_tools import code_paths

RAM = code_paths.RAM
MAGIC = b"\x7fELF"
HEADER, SEGMENT = struct.Struct("<16sHHIQQQIHHHHHH"), struct.Struct("<IIQQQQQQ")
RISCV = 243
OBJECT, EXECUTABLE, SHARED = 1, 2, 3  # types of ELF files
LOADED, DYNAMIC, INTERPRETER = 1, 2, 3  # types of segments
COMPRESSED, FLOAT = 1, 6  # bits of e_flags
BUILD = "build it with `-march=rv64ima_zicsr_zifencei -mabi=lp64`"
LINK = f"link it with `-Wl,-Ttext={RAM:#x},--build-id=none`"


class Wrong(Exception):
    """Why an ELF file cannot be a guest, in words."""


class Header(NamedTuple):
    """What the first 64 bytes of an ELF file say."""
    kind: int
    machine: int
    entry: int
    segments_at: int
    flags: int
    segment_size: int
    segment_count: int


class Segment(NamedTuple):
    """A loaded segment: its physical and virtual address, the bytes that the file has, its length in memory,
    and where in the file its bytes begin."""
    place: int
    address: int
    data: bytes
    length: int
    offset: int

    def end(self) -> int:
        return self.place + self.length


class Image(NamedTuple):
    """The bytes of RAM from its start on, and how many bytes the segments take there."""
    data: bytes
    length: int


def header_of(data: bytes) -> Header:
    """The header of an ELF file that is for this machine."""
    if data[:4] != MAGIC:
        raise Wrong("it is not an ELF file")
    if len(data) < HEADER.size:
        raise Wrong("it ends within the header of an ELF file")
    if data[4] != 2:
        raise Wrong("it is an ELF file of 32 bits, and a guest has 64")
    if data[5] != 1:
        raise Wrong("it is big endian, and a guest is little endian")
    _, kind, machine, _, entry, at, _, flags, _, size, count, *_ = HEADER.unpack_from(data)
    return Header(kind, machine, entry, at, flags, size, count)


def refuse_kind(header: Header) -> None:
    """Refuses what is not a static executable of the instructions that a guest has."""
    if header.machine != RISCV:
        raise Wrong(f"it is for another machine than RISC-V: e_machine is {header.machine}")
    if header.kind == OBJECT:
        raise Wrong("it is an object file: link it with "
                    f"`-static -nostdlib -Wl,-Ttext={RAM:#x},--build-id=none`")
    if header.kind == SHARED:
        raise Wrong("it is dynamic: link it with `-static -no-pie`")
    if header.kind != EXECUTABLE:
        raise Wrong(f"it is not an executable: e_type is {header.kind}")
    if header.flags & COMPRESSED:
        raise Wrong(f"it has compressed instructions, which a guest does not have: {BUILD}")
    if header.flags & FLOAT:
        raise Wrong(f"it takes floating-point registers, which a guest does not have: {BUILD}")


def segments_of(data: bytes, header: Header) -> Iterator[Segment]:
    """The loaded segments, in order."""
    for index in range(header.segment_count):
        at = header.segments_at + index * header.segment_size
        if header.segment_size < SEGMENT.size or at + SEGMENT.size > len(data):
            raise Wrong("it ends within its program headers")
        kind, _, offset, address, place, size, length, _ = SEGMENT.unpack_from(data, at)
        if kind in (DYNAMIC, INTERPRETER):
            raise Wrong("it is dynamic: link it with `-static -no-pie`")
        if kind != LOADED or not length:
            continue
        if size > length or offset + size > len(data):
            raise Wrong(f"it ends within its segment at {place:#x}")
        yield Segment(place, address, data[offset:offset + size], length, offset)


def headers_in(segment: Segment, header: Header) -> int:
    """How many bytes at the start of a segment are the file's own headers, and zeros after them. Linkers let
    the first segment begin with them, and objcopy leaves them out."""
    if segment.offset:
        return 0
    front = header.segments_at + header.segment_size * header.segment_count
    return len(segment.data) - len(segment.data[front:].lstrip(b"\0"))


def without(segment: Segment, count: int) -> Segment:
    """A segment without the first `count` bytes."""
    place, address, data, length, offset = segment
    return Segment(place + count, address + count, data[count:], length - count, offset + count)


def from_ram(segment: Segment, header: Header) -> Segment:
    """A segment from the start of RAM on, if nothing but the file's own headers lies below."""
    below = min(max(RAM - segment.place, 0), segment.length)
    return without(segment, below) if below <= headers_in(segment, header) else segment


def refuse_places(segments: list[Segment], header: Header, most: int) -> None:
    """Refuses segments that are not in RAM of `most` bytes, or that overlap, and another start than that of
    RAM."""
    if not segments:
        raise Wrong("it has no segment to load")
    for segment in segments:
        if segment.place < RAM:
            raise Wrong(f"its segment at {segment.place:#x} is below RAM, which begins at {RAM:#x}: {LINK}")
        if segment.end() > RAM + most:
            raise Wrong(f"its segment at {segment.place:#x} ends at {segment.end():#x}, and the guest's RAM "
                        f"at {RAM + most:#x}")
    for one, other in zip(segments, segments[1:]):
        if other.place < one.end():
            raise Wrong(f"its segments at {one.place:#x} and {other.place:#x} overlap")
    starts = {segment.place + header.entry - segment.address for segment in segments
              if segment.address <= header.entry < segment.address + segment.length}
    if RAM not in starts:
        raise Wrong(f"its entry point is {header.entry:#x}, and a guest starts at {RAM:#x}: {LINK}, the "
                    "first instruction first")


def image_of(data: bytes, most: int) -> Image:
    """The image of an ELF file, for a guest whose RAM has `most` bytes."""
    header = header_of(data)
    refuse_kind(header)
    found = (from_ram(segment, header) for segment in segments_of(data, header))
    segments = sorted(segment for segment in found if segment.length)
    refuse_places(segments, header, most)
    image = bytearray(max(segment.place + len(segment.data) for segment in segments) - RAM)
    for segment in segments:
        image[segment.place - RAM:segment.place - RAM + len(segment.data)] = segment.data
    return Image(bytes(image), max(segment.end() for segment in segments) - RAM)


def placed(data: bytes) -> bytes:
    """The bytes of an ELF file as they lie in memory, but its own headers, from its first segment on,
    wherever that is. Nothing where it is not one that can be read."""
    try:
        header = header_of(data)
        found = [without(each, headers_in(each, header)) for each in segments_of(data, header)]
    except Wrong:
        return b""
    segments = sorted(segment for segment in found if segment.data)
    if not segments or segments[-1].end() - segments[0].place > 1 << 26:
        return b""
    made = bytearray(max(segment.place + len(segment.data) for segment in segments) - segments[0].place)
    for segment in segments:
        at = segment.place - segments[0].place
        made[at:at + len(segment.data)] = segment.data
    return bytes(made)
