"""Images that a generator of numbers makes: noise, and the guests of `nesthv work` (docs/definitions.md)."""
import functools
import itertools
import struct
from collections.abc import Iterator

# A guest hypervisor that takes commands: it stores an entry, fences, runs its nested guest, and puts what that has
# loaded. GNU as made these words of the lines of crates/work_images (src/program.rt).
HYPERVISOR = """
    00000417 40043283 68029073 40843283 28029073 06040293 10529073 10000293 1002a073 08000293 6002a073 000204b7
    008484b3 0004b303 04030263 0084b383 00733023 0104b383 00038463 62038073 0184b583 02048493 14101073 10200073
    142022f3 00a00313 00628463 02028513 00100893 00000073 fbdff06f 00800893 00000073"""
NESTED = "0005c503 00000073"
# Its hgatp and vsatp, and the table that maps one page of code.
DOUBLEWORDS = {0x400: 0x8000_1000_0008_0004, 0x408: 0, 0x4000: 0x2000_2001, 0x8000: 0x2000_2401, 0x9000: 0x2000_045B}
COMMANDS = 0x20000


def numbers(seed: int) -> Iterator[int]:
    """What the generator draws from, from a seed on."""
    while True:
        seed = (seed * 1103515245 + 12345) % (1 << 31)
        yield seed // 65536


@functools.cache
def noise(seed: int, count: int) -> bytes:
    """That many bytes that are drawn from a seed on."""
    return bytes(drawn % 256 for drawn in itertools.islice(numbers(seed), count))


def words(text: str) -> bytes:
    return b"".join(struct.pack("<I", int(word, 16)) for word in text.split())


def command(slot: int, page: int, fenced: int, read: int) -> bytes:
    """The entry to store and its address, the page to fence, or 0, and what the nested guest loads."""
    entry = 0 if page == 15 else (0x8000A + page) * 0x400 + 0xD7
    return struct.pack("<4Q", 0x8000_9000 + 8 * slot, entry, 0 if fenced else slot * 0x400, read * 0x1000)


def generated(seed: int, size: int, index: int) -> bytes:
    """The image of the guest of this index of `work SEED SIZE`."""
    drawn = itertools.islice(numbers(seed), 4 * size * index, 4 * size * (index + 1))
    commands = b"".join(command(1 + slot % 32, page % 16, fenced % 4, 1 + read % 32)
                        for slot, page, fenced, read in zip(drawn, drawn, drawn, drawn))
    image = bytearray(COMMANDS)
    for place, data in ((0, words(HYPERVISOR)), (0x1000, words(NESTED))):
        image[place:place + len(data)] = data
    for place, value in DOUBLEWORDS.items():
        struct.pack_into("<Q", image, place, value)
    for page in range(15):
        image[0xA000 + 0x1000 * page] = ord("A") + page
    return bytes(image) + commands + bytes(8)
