"""Makes a configuration for an ELF file or an image that is given in place of one."""
import argparse
import contextlib
import os
import re
import stat
from collections.abc import Iterator
from typing import NamedTuple

from nesthv_tools import command_line, elf_images, endings, faults, places, progress, records, whole_files

LENGTH_OF_STACK = 1 << 20  # bytes of RAM that are free after what an ELF file has
FEWEST_BLOCKS = 4
DEFAULTS = {"steps": 1_000_000_000, "spaces": 4, "entries": 128, "console": 1_048_576}
MOST_STEPS = 1 << 43  # the list of turns is at most half of a configuration then
NO_TEXT = re.compile(rb"[\0-\x08\x0b\x0c\x0e-\x1f\x7f]")


class Wrong(Exception):
    """Why no configuration can be made, in words."""


class Given(NamedTuple):
    """A configuration: its path, how a user names it to another tool, and the ELF file or image of which it was
    made, or none."""
    path: str
    shown: str
    made_of: str | None = None


def add_options(parser: argparse.ArgumentParser, has_all: bool = True) -> None:
    """Adds the options that say how an ELF file or an image is run. Unless all are wanted, --console and
    --write, which mean something else to the tool, are left out."""
    group = parser.add_argument_group("for an ELF file or an image in place of CONFIG")
    group.add_argument("--steps", type=command_line.number(0, MOST_STEPS), metavar="N",
                       help=f"how many steps the guest gets; {DEFAULTS['steps']:,} if left out")
    group.add_argument("--blocks", type=command_line.number(1, faults.MOST_BLOCKS), metavar="N",
                       help="its RAM, in blocks of 2 MiB; if left out, as much as the file needs with 1 MiB "
                       f"for a stack, and at least {FEWEST_BLOCKS}")
    for key, least, most in (("spaces", 1, 8), ("entries", 16, 256), ("console", 0, 1_048_576))[:2 + has_all]:
        group.add_argument(f"--{key}", type=command_line.number(least, most), metavar="N",
                           help=f"as in a configuration; {DEFAULTS[key]:,} if left out")
    group.add_argument("--input", metavar="FILE",
                       help=f"a file of inputs, as {places.sibling('inputs')} makes it")
    group.add_argument("--device", action="store_true", default=None, help="gives it the device page")
    if has_all:
        group.add_argument("--write", metavar="FOLDER",
                           help="keeps the configuration, NAME.toml, and the image, NAME.bin, in this folder; "
                           f"{places.sibling('run')} then runs nothing")


def options_given(options: argparse.Namespace) -> list[str]:
    """The options of an image that are there, as they were written."""
    found = []
    for key in ("steps", "blocks", "spaces", "entries", "console", "input", "device", "write"):
        value = getattr(options, key)
        if value is not None:
            found.append(f"--{key}" if value is True else f"--{key} {value}")
    return found


def is_image(path: str) -> bool:
    """Whether the file at this path is an ELF file or an image, and not a configuration. It is a regular file
    that does not end in .toml, and ends in .bin or has a byte that no text has."""
    try:
        if path.endswith(".toml") or not stat.S_ISREG(os.stat(path).st_mode):
            return False
        with open(path, "rb") as file:
            front = file.read(faults.MOST_BYTES)
    except OSError:
        return False
    if path.endswith(".bin") or front[:4] == elf_images.MAGIC or NO_TEXT.search(front):
        return True
    try:
        front.decode()
    except UnicodeDecodeError as error:
        return error.start < len(front) - 3 or len(front) < faults.MOST_BYTES
    return False


def image_at(path: str, blocks: int | None) -> elf_images.Image:
    """The image of the ELF file or of the image at this path, for a guest with this number of blocks."""
    most = (blocks or faults.MOST_BLOCKS) * faults.BLOCK
    with open(path, "rb") as file:
        data = file.read()
    try:
        if data[:4] == elf_images.MAGIC:
            return elf_images.image_of(data, most)
    except elf_images.Wrong as why:
        raise Wrong(f"{path}: {why}") from None
    if len(data) > most:
        raise Wrong(f"{path} has {len(data):,} bytes, and the guest's RAM has {most:,}")
    return elf_images.Image(data, len(data))


def inputs_at(path: str) -> bytes:
    """The bytes of the file of inputs at this path."""
    with open(path, "rb") as file:
        data = file.read(records.MOST_BYTES)
    wrong = records.first_wrong(data)
    if wrong:
        raise Wrong(faults.input_file_wrong(path, "the guest", wrong[0]))
    return data


def name_of(path: str) -> str:
    """What the guest is called: the letters and digits of the file's name."""
    stem = os.path.splitext(os.path.basename(path))[0]
    return re.sub(r"[^A-Za-z0-9]", "", stem)[:32] or "guest"


def blocks_for(length: int) -> int:
    """The blocks of RAM of a guest whose image takes this number of bytes, where none is asked for."""
    return min(faults.MOST_BLOCKS, max(FEWEST_BLOCKS, -(-(length + LENGTH_OF_STACK) // faults.BLOCK)))


def text_of(name: str, options: argparse.Namespace, length: int) -> str:
    """The configuration of a guest of this name, whose image takes `length` bytes of RAM."""
    blocks = options.blocks or blocks_for(length)
    given = {key: getattr(options, key) for key in DEFAULTS}
    keys = {key: DEFAULTS[key] if value is None else value for key, value in given.items()}
    steps = keys.pop("steps")
    turns = f"quantum = {steps}\nrounds = 1" if steps <= progress.MOST_IN_TURN else \
        f"turns = {progress.turns_of([steps], steps)}"
    lines = ["format = 2", turns, "", "[[guest]]", f'name = "{name}"', f'image = "{name}.bin"',
             f"blocks = {blocks}"]
    lines += [f"{key} = {value}" for key, value in keys.items()]
    lines += ["device = 1"] if options.device else []
    lines += [f'input = "{name}.inputs"'] if options.input else []
    return "\n".join(lines) + "\n"


def files_of(path: str, options: argparse.Namespace) -> dict[str, bytes]:
    """The files of the configuration that is made for the ELF file or image at this path, by their names; the
    configuration is the last one. An ELF file is among them, for its symbols."""
    name, image = name_of(path), image_at(path, options.blocks)
    files = {f"{name}.bin": image.data}
    if options.input:
        files[f"{name}.inputs"] = inputs_at(options.input)
    with open(path, "rb") as file:
        data = file.read()
    if data[:4] == elf_images.MAGIC:
        files[f"{name}.elf"] = data
    return {**files, f"{name}.toml": text_of(name, options, image.length).encode()}


def written(files: dict[str, bytes], folder: str) -> str:
    """Writes these files into a folder, where there are no others of their names, and gives the path of the
    last."""
    os.makedirs(folder, exist_ok=True)
    paths = {os.path.join(folder, name): data for name, data in files.items()}
    for path, data in paths.items():
        if os.path.lexists(path):
            with open(path, "rb") as file:
                if file.read() != data:
                    raise Wrong(f"{path} is there, and is another file: name another folder")
    for path, data in paths.items():
        if not os.path.lexists(path):
            whole_files.write(path, data)
    return path


@contextlib.contextmanager
def opened(path: str, options: argparse.Namespace, is_second: bool = False) -> Iterator[Given]:
    """The configuration at this path, or the one that is made for the ELF file or image there, while it is
    used. For a configuration no option of an image is given, unless there is an image before it."""
    given = options_given(options)
    if not is_image(path):
        if given and not is_second:
            raise Wrong(f"{given[0].split()[0]} is for an ELF file or an image, and {path} is a "
                        "configuration, which says it itself")
        yield Given(path, path)
        return
    shown = " ".join([path, *(each for each in given if not each.startswith("--write"))])
    with contextlib.ExitStack() as stack:
        folder = options.write or stack.enter_context(endings.Folder("nesthv-"))
        yield Given(written(files_of(path, options), folder), shown, path)


def refuse_elf_images(folder: str, names: list[str | None], unless: str = "") -> None:
    """Refuses an image of a configuration in this folder that is an ELF file; `unless` says how it is run all
    the same."""
    for name in filter(None, names):
        path = os.path.normpath(os.path.join(folder, name))
        try:
            if not stat.S_ISREG(os.stat(path).st_mode):
                continue
            with open(path, "rb") as file:
                is_elf = file.read(4) == elf_images.MAGIC
        except (OSError, ValueError):
            continue
        if is_elf:
            flat = os.path.splitext(path)[0] + ".bin"
            raise Wrong(f"the image {name} is an ELF file, whose header would be run: "
                        f"`riscv64-linux-gnu-objcopy -O binary {path} {flat}` makes an image of it{unless}")
