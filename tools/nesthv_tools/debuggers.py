"""The command of gdb by which a guest is debugged, and the ELF files of its worlds."""
import glob
import os
import shlex
from typing import NamedTuple

from nesthv_tools import children, elf_images, places

SCRIPT = os.path.join(places.TOOLS, "debug.gdb")
SHORTEST = 64  # bytes of a nested guest that are looked for in an image
SECONDS = 600  # of one answer of the stub
# Reads what gdb acknowledges when it leaves. The stub has ended by then, and gdb would tell of a broken pipe.
REST = "exec cat >/dev/null"


class World(NamedTuple):
    """An ELF file with symbols, and the addresses that it takes."""
    path: str
    start: int
    end: int


    def overlaps(self, other: "World") -> bool:
        """Whether both take an address."""
        return self.start < other.end and other.start < self.end


class Worlds(NamedTuple):
    """The ELF file of the guest itself, or none, and those of guests of its own, which its image has in
    it."""
    own: World | None
    nested: list[World]

    def shared(self) -> World | None:
        """The first file of a guest of its own that takes addresses of the guest itself, or none."""
        own = self.own
        return next((each for each in self.nested if own and each.overlaps(own)), None)


def world_at(path: str) -> World | None:
    """The ELF file at this path, or none where it is not one."""
    try:
        with open(path, "rb") as file:
            data = file.read()
        segments = list(elf_images.segments_of(data, elf_images.header_of(data)))
    except (OSError, elf_images.Wrong):
        return None
    if not segments:
        return None
    ends = [each.address + each.length for each in segments]
    return World(path, min(each.address for each in segments), max(ends))


def is_within(path: str, image: bytes) -> bool:
    """Whether an image has the ELF file at this path in it, as a hypervisor has a guest of its own."""
    try:
        with open(path, "rb") as file:
            data = elf_images.placed(file.read())
    except OSError:
        return False
    return len(data) >= SHORTEST and data != image[:len(data)] and data in image


def worlds_beside(path: str, made_of: str | None = None) -> Worlds:
    """The ELF files that stand beside the image, or the saved guest, at this path; or beside the file of which the
    image was made, which may be one itself."""
    given = made_of or path
    beside = [each for each in (given, os.path.splitext(given)[0] + ".elf", given + ".elf")
              if os.path.isfile(each) and not os.path.samefile(each, path)]
    own = next(filter(None, map(world_at, beside)), None)
    with open(path, "rb") as file:
        image = file.read()
    found = sorted(glob.glob(os.path.join(glob.escape(os.path.dirname(given)), "*.elf")))
    nested = [each for each in found if not (own and each == own.path) and is_within(each, image)]
    return Worlds(own, [each for each in map(world_at, nested) if each])


def known_as(world: World) -> str:
    """The path by which gdb knows a file that it has, as `remove-symbol-file` wants it."""
    return os.path.realpath(world.path)


def symbol_commands(worlds: Worlds) -> list[str]:
    """What gdb is told of symbols: the guest's own, and those of its guests that have other addresses. Where one
    has the same, the script takes those of the world that is shown; `hs` and `vs` take the one or the other alone."""
    commands, taken = [], [worlds.own] if worlds.own else []
    shared = worlds.shared()
    if worlds.own:
        kind = "exec-file" if shared else "file"
        commands += [f"{kind} {shlex.quote(worlds.own.path)}", f'set $nesthv_hs = "{known_as(worlds.own)}"']
    if worlds.nested:
        commands.append(f'set $nesthv_vs = "{known_as(shared or worlds.nested[0])}"')
    if shared:
        commands += ["set $nesthv_both = 1", "set breakpoint pending on"]
    for world in worlds.nested:
        if not any(world.overlaps(other) for other in taken):
            commands.append(f"add-symbol-file {shlex.quote(world.path)}")
            taken.append(world)
    return commands


def command(gdb: str, program: str, folder: str, place: str, guest: int, worlds: Worlds) -> list[str]:
    """The words by which gdb is started for the guest of this number of a configuration in this folder."""
    words = shlex.join([program, place, str(guest)])
    there = f"cd {shlex.quote(folder)} && " if folder != "." else ""
    stub_line = f"{there}GLIBC_TUNABLES=${{GLIBC_TUNABLES-{children.KEPT}}} {words}; {REST}"
    commands = [f"set remotetimeout {SECONDS}", "set architecture riscv:rv64", *symbol_commands(worlds),
                f"target remote | {stub_line}"]
    return [gdb, "-x", SCRIPT, *(word for each in commands for word in ("-ex", each))]
