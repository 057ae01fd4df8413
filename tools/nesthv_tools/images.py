"""Says of an image, before it is run, why its first instructions cannot be what was meant."""
import os
import stat
import struct
from collections.abc import Callable

from nesthv_tools import code_paths

RAM = code_paths.RAM
BUILD = "build it with `-march=rv64ima_zicsr_zifencei -mabi=lp64`"


def elf_notices(header: bytes) -> list[str]:
    """What an ELF file says of itself."""
    notices = ["it is an ELF file, not an image: `riscv64-linux-gnu-objcopy -O binary IN OUT` makes one of "
               "it"]
    if len(header) < 64 or header[4:6] != b"\x02\x01":
        return notices + ["and it is not of 64 bits, little endian"]
    machine, = struct.unpack_from("<H", header, 18)
    entry, = struct.unpack_from("<Q", header, 24)
    flags, = struct.unpack_from("<I", header, 48)
    if machine != 243:
        return notices + ["and it is not for RISC-V"]
    if entry != RAM:
        notices.append(f"it starts at {entry:#x}, and a guest starts at {RAM:#x}: link it with "
                       f"`-Ttext={RAM:#x}`")
    if flags & 1:
        notices.append(f"it has compressed instructions: {BUILD}")
    return notices


def notices_of(read: Callable[[int, int], bytes]) -> list[str]:
    """What there is to say of an image, of which `read` gives the bytes at an offset."""
    header = read(0, 64)
    if header[:4] == b"\x7fELF":
        return elf_notices(header)
    if not any(header[:4]):
        return ["it begins with zeros, which are not an instruction" if header else "it is empty"]
    if header[0] & 3 != 3:
        return [f"its first instruction is compressed, or it is not code: {BUILD}"]
    wrong = code_paths.wrong_place(read)
    if wrong is None:
        return []
    return [f"execution reaches compressed code, or none, at {wrong:#x}: {BUILD}"]


def notices_of_bytes(image: bytes) -> list[str]:
    return notices_of(lambda at, count: image[at:at + count])


def notices_at(path: str) -> list[str]:
    """What there is to say of the file of an image. It is not read where it is not a regular file: what a
    pipe gives can be read once, and others have no end."""
    try:
        mode = os.stat(path).st_mode
        if stat.S_ISDIR(mode):
            return ["it is a folder, not an image"]
        if not stat.S_ISREG(mode):
            return []
        with open(path, "rb") as file:
            return notices_of(lambda at, count: os.pread(file.fileno(), count, at))
    except (OSError, ValueError):
        return []
