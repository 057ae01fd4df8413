"""The images of the families, and the machines that run them."""
import os
import re
import shlex
import struct
import subprocess
import tempfile
from typing import NamedTuple

FOLDER = os.path.dirname(os.path.abspath(__file__))
TOP = os.path.dirname(FOLDER)
# How many cases of each family have a stored report, and how many cases a sum is of.
FAMILIES = {"accesses": 262144, "registers": 262144, "interrupts": 163840, "traps": 131072,
            "returns": 65536, "vectors": 65536, "aliases": 65536, "clock": 16384,
            "pairs": 65536, "fences": 131072, "instructions": 131072}
BLOCK = 4096
# MODEs of translation that a machine may have, as --modes gives them: Sv39 and Sv39x4 alone, or Sv48 and
# Sv48x4 too, as nesthv. A family in which cases differ by these has a report for each.
MODES = {"8": (8,), "8,9": (8, 9)}
OURS = MODES["8,9"]
BY_MODES = {"accesses", "registers"}
BASE, SHIM, RAM_END = 0x80000000, 0x80800000, 0x80400000
PARAMETERS = 16
# At the start of RAM, for machines that start there in M: a jump to the shim.
TO_SHIM = struct.pack("<II", 0x00800297, 0x00028067)


class Failed(Exception):
    """A machine that could not be run, or ended before its image did."""


class Plan(NamedTuple):
    """What an image runs: `count` cases from number `first` on; a sum for each `block` of them, or lines.
    `modes` are the MODEs of translation that the cases may have."""
    family: str
    seed: int
    first: int
    count: int
    block: int
    modes: tuple = OURS


def image_of(plan):
    with open(os.path.join(FOLDER, f"{plan.family}.bin"), "rb") as file:
        image = bytearray(file.read())
    modes = sum(1 << mode for mode in plan.modes)
    struct.pack_into("<5Q", image, PARAMETERS, plan.seed, plan.first, plan.count, plan.block, modes)
    return bytes(image)


def elf_of(image, has_htif):
    """An ELF file of an image with the shim, which starts in M. tohost and fromhost are its symbols."""
    with open(os.path.join(FOLDER, "shim.bin"), "rb") as file:
        shim = bytearray(file.read())
    struct.pack_into("<QQ", shim, 8, RAM_END, has_htif)
    parts = [(BASE, TO_SHIM + image[len(TO_SHIM):]), (SHIM, bytes(shim))]
    names = b"\0tohost\0fromhost\0"
    symbols = bytes(24) + b"".join(struct.pack("<IBBHQQ", name, 0x11, 0, 0xFFF1, SHIM + at, 8)
                                   for name, at in ((1, 64), (8, 128)))
    section_names = b"\0.symtab\0.strtab\0"
    header, places, body = 64 + 56 * len(parts), [], b""
    for data in [part for _, part in parts] + [symbols, names + section_names]:
        places.append(header + len(body))
        body += data + bytes(-len(data) % 16)
    table = header + len(body)
    text = places[-1]
    sections = [(0,) * 10, (len(names) + 1, 2, 0, 0, places[2], len(symbols), 2, 1, 8, 24),
                (len(names) + 9, 3, 0, 0, text, len(names) + len(section_names), 0, 0, 1, 0)]
    elf = struct.pack("<16sHHIQQQIHHHHHH", b"\x7fELF\2\1\1", 2, 243, 1, SHIM, 64, table, 0, 64, 56,
                      len(parts), 64, len(sections), 2)
    for (address, data), place in zip(parts, places):
        elf += struct.pack("<IIQQQQQQ", 1, 7, place, address, address, len(data), len(data), 16)
    return elf + body + b"".join(struct.pack("<IIQQQQIIQQ", *section) for section in sections)


class Nesthv:
    """The proved program. Its report of a plan is the expected one."""
    name = "nesthv"

    def __init__(self, program):
        self.program = os.path.abspath(program)

    def _in_folder(self, folder, plan, words):
        with open(os.path.join(folder, "image.bin"), "wb") as file:
            file.write(image_of(plan))
        with open(os.path.join(folder, "plan.toml"), "w") as file:
            file.write(f'format = 1\nquantum = 4294967296\nrounds = 16\n[[guest]]\nname = "{plan.family}"\n'
                       'image = "image.bin"\nblocks = 2\nspaces = 1\nentries = 16\nconsole = 1048576\n')
        command = [self.program, words[0], "plan.toml", *words[1:]]
        return subprocess.run(command, cwd=folder, capture_output=True)

    def _failure(self, ran):
        said = ran.stderr.decode(errors="replace").strip()
        return Failed(f"{self.program}: status {ran.returncode} {said}")

    def report(self, plan):
        with tempfile.TemporaryDirectory() as folder:
            ran = self._in_folder(folder, plan, ["run"])
        if ran.returncode != 0 or b" stopped " not in ran.stdout.partition(b"\n")[0]:
            raise self._failure(ran)
        return ran.stdout.decode()

    def replay(self, plan, report):
        """What a replay says: `same`, or where the two differ."""
        with tempfile.TemporaryDirectory() as folder:
            ran = self._in_folder(folder, plan, ["replay", os.path.abspath(report)])
        if ran.returncode not in (0, 6):
            raise self._failure(ran)
        return ran.stdout.decode().strip()

    def lines(self, plan):
        return self.report(plan).split("\n")[1:-2]


class Model:
    """A machine that starts an ELF file in M, and has its console on standard output: a command in which
    {elf} is the file's name."""

    def __init__(self, name, command, has_htif, seconds):
        self.name, self.command, self.has_htif, self.seconds = name, command, has_htif, seconds

    def lines(self, plan):
        with tempfile.NamedTemporaryFile(suffix=".elf") as file:
            file.write(elf_of(image_of(plan), self.has_htif))
            file.flush()
            words = [word.replace("{elf}", file.name) for word in shlex.split(self.command)]
            try:
                ran = subprocess.run(words, stdin=subprocess.DEVNULL, capture_output=True,
                                     timeout=self.seconds)
            except subprocess.TimeoutExpired:
                raise Failed(f"{self.name}: not ended after {self.seconds} seconds") from None
            except OSError as error:
                raise Failed(f"{self.name}: {error}") from None
        lines = [line for line in ran.stdout.decode(errors="replace").replace("\r", "").split("\n") if line]
        if not lines:
            raise Failed(f"{self.name}: no line; status {ran.returncode} "
                         f"{ran.stderr.decode(errors='replace').strip()[:300]}")
        return lines


def qemu(program, cpu, seconds):
    """QEMU, with the words of -cpu that its version needs."""
    try:
        said = subprocess.run([program, "--version"], capture_output=True, text=True).stdout
    except OSError:
        raise Failed(f"there is no {program} (apt-get install qemu-system-misc)") from None
    found = re.search(r"version (\d+)\.(\d+)(?:\.(\d+))?", said)
    version = tuple(int(number or 0) for number in found.groups()) if found else (0, 0, 0)
    if cpu is None:
        cpu = "rv64,h=true,c=false,d=false,f=false" + (",zfa=false" if version >= (8, 1, 0) else "")
    command = (f"{shlex.quote(program)} -machine virt -m 64M -bios none -display none -monitor none "
               f"-serial stdio -cpu {cpu} -device loader,file={{elf}},cpu-num=0")
    return Model("QEMU " + ".".join(map(str, version)), command, False, seconds)
