"""Runs a guest under QEMU (Debian 12: `apt-get install qemu-system-misc`; from Debian 13 on
`qemu-system-riscv`), and prints its console. A few lines of our own in M make calls 0, 1, 2 and 8, the timer
and the inputs (tools/qemu.s). It is for looking into a guest, and for comparing: QEMU's clock is not the
count of steps, and docs/guide.md says what else it does otherwise. The status is 0 where the guest stopped, 2
where it cannot be run, 10 where it did not stop in time, and 11 where QEMU failed.
"""
import os
import struct
import subprocess
import tempfile
import threading
import time
from argparse import Namespace
from typing import NamedTuple

from nesthv_tools import (
    children, command_line, elf_images, faults, image_configurations, places, qemu, records, streams, terminal)

Pairs = list[tuple[int, int]]

LATE, QEMU_FAILED = 10, 11
CONSOLE = image_configurations.DEFAULTS["console"]
MACHINE = ["-machine", "virt", "-bios", "none", "-m", "256M", "-display", "none", "-monitor", "none"]
say = streams.say


class Refused(Exception):
    """Why there is no guest to run."""


class Guest(NamedTuple):
    """A guest: its image, its blocks of RAM, how many bytes its console holds, and its inputs."""
    image: bytes
    blocks: int
    console: int
    inputs: Pairs


def guest_at(path: str, number: int) -> tuple[faults.Table, Pairs]:
    """The table of this guest in the configuration at this path, and its inputs."""
    text = faults.text_of(path)
    if text is None:
        raise Refused(f"the configuration {path} cannot be read{faults.unreadable(path)}")
    document, why = faults.parsed(text)
    guests = faults.guests_of(document)
    if document is None:
        raise Refused(f"the configuration {path} is not TOML: {why}")
    if number >= len(guests):
        raise Refused(f"{path} has {len(guests)} guests, and --guest counts from 0: there is no guest "
                      f"{number}")
    guest = guests[number]
    if faults.is_resumed(document, guest):
        raise Refused(f"guest {number} of {path} goes on from a saved one, and QEMU takes images alone")
    if faults.has_device_page(document, guest):
        raise Refused(f"guest {number} of {path} has the device page, and QEMU has another device there")
    is_whole = faults.image_names(document)[number] and all(
        faults.is_integer(guest.get(key), least, most)
        for key, least, most in (("blocks", 1, faults.MOST_BLOCKS), ("console", 0, 1048576)))
    if not is_whole:
        raise Refused(f"guest {number} of {path} has a fault: `nesthv check` and tools/run say which")
    return guest, inputs_of(guest, path, number, faults.format_of(document))


def inputs_of(guest: faults.Table, path: str, number: int, form: int) -> Pairs:
    """The inputs of this guest of the configuration at this path."""
    value = guest.get("input", [])
    if form == 1 or "input" not in guest:
        pairs: Pairs | None = None if faults.are_pairs_wrong(value) else value
    else:
        pairs = pairs_at(os.path.join(os.path.dirname(path), faults.file_name(value) or ""))
    if pairs is None:
        raise Refused(f"the inputs of guest {number} of {path} have a fault: `nesthv check` and tools/run "
                      "say which")
    return pairs


def pairs_at(path: str) -> Pairs | None:
    """The inputs of the file at this path, or none where a record is wrong."""
    try:
        with open(path, "rb") as file:
            data = file.read(records.MOST_BYTES)
    except OSError:
        raise Refused(f"the input file {path} cannot be read{faults.unreadable(path)}") from None
    return None if records.first_wrong(data) else records.pairs_of(data)


def guest_of(name: str, number: int) -> Guest:
    """The guest of this number of an example or a configuration, or that of an ELF file or an image."""
    example = os.path.join(places.EXAMPLES, name, f"{name}.toml")
    path = example if os.path.isfile(example) else name
    if not path.endswith(".toml"):
        image = image_at(path)
        return Guest(image.data, image_configurations.blocks_for(image.length), CONSOLE, [])
    guest, inputs = guest_at(path, number)
    folder = os.path.dirname(path)
    image_configurations.refuse_elf_images(folder, [guest["image"]])
    image = image_at(os.path.join(folder, guest["image"]), guest["blocks"])
    return Guest(image.data, guest["blocks"], guest["console"], inputs)


def image_at(path: str, blocks: int | None = None) -> elf_images.Image:
    """The image at this path, or that of the ELF file there."""
    if not os.path.isfile(path):
        raise Refused(f"the image {path} cannot be read{faults.unreadable(path)}")
    return image_configurations.image_at(path, blocks)


def environment(guest: Guest) -> bytes:
    """The code in M, with what it is told of the guest."""
    with open(os.path.join(places.TOOLS, "qemu.bin"), "rb") as file:
        code = bytearray(file.read())
    end = 0x80000000 + guest.blocks * faults.BLOCK
    struct.pack_into("<QQQ", code, 8, end, guest.console, len(guest.inputs))
    return code + b"".join(struct.pack("<QQ", moment, byte) for moment, byte in guest.inputs)


def escaped(path: str) -> str:
    """A path as QEMU's options have it, where a comma is written twice."""
    return path.replace(",", ",,")


def command_of(image: str, shim: str, options: Namespace) -> list[str]:
    version = qemu.version()
    command = [qemu.QEMU, *MACHINE, "-serial", "stdio", "-cpu", options.cpu or qemu.cpu_words(qemu.properties()),
               "-device", f"loader,file={escaped(image)},addr=0x80000000,force-raw=on",
               "-device", f"loader,file={escaped(shim)},addr=0x88000000,force-raw=on,cpu-num=0"]
    if not options.plain:
        command += ["-icount", "shift=0,sleep=off"]
    if options.single:
        command += qemu.words_of_one_at_a_time(version)
    shown = [name for name, wanted in (("int", options.traps), ("in_asm,cpu", options.trace)) if wanted]
    if shown:
        command += ["-d", ",".join(shown)]
    return command + (["-S", "-s"] if options.gdb else [])


class Copy(threading.Thread):
    """Copies what a program prints to standard output, which may fail: QEMU would not tell of it."""

    def __init__(self, process: subprocess.Popen[bytes], output: terminal.Output) -> None:
        super().__init__(daemon=True)
        self.process, self.output = process, output
        self.count = 0
        self.error: OSError | None = None

    def run(self) -> None:
        assert self.process.stdout
        try:
            while data := os.read(self.process.stdout.fileno(), 65536):
                self.count += len(data)
                streams.write(self.output.of(data))
            streams.write(self.output.of(b"", is_last=True))
        except OSError as error:
            self.error = error
            self.process.kill()


def ran(command: list[str], options: Namespace) -> tuple[int | None, int]:
    """QEMU's status, or none where it did not end in time, and how many bytes it has printed."""
    process = children.begin(command, stdin=subprocess.DEVNULL, stdout=subprocess.PIPE)
    copy = Copy(process, terminal.Output(options.raw))
    copy.start()
    try:
        process.wait(None if options.gdb else options.seconds)
    except subprocess.TimeoutExpired:
        is_late = True
    else:
        is_late = False
    finally:
        process.kill()
        process.wait()
        copy.join()
    if copy.error:
        raise copy.error
    return None if is_late else process.returncode, copy.count


def options_of_words() -> Namespace:
    parser = command_line.Parser(__doc__)
    parser.add_argument("name", metavar="NAME | PATH.toml | IMAGE",
                        help="an example, a configuration, or the file of an image or an ELF file")
    parser.add_argument("--guest", type=command_line.number(0, 15), default=0, metavar="G",
                        help="the number of the guest in the configuration; 0 if left out")
    parser.add_argument("--traps", action="store_true", help="prints each trap to standard error")
    parser.add_argument("--trace", action="store_true",
                        help="prints each block of instructions and the registers")
    parser.add_argument("--gdb", action="store_true", help="waits for gdb at localhost:1234")
    parser.add_argument("--seconds", type=command_line.seconds, default=10, metavar="N",
                        help="ends the guest after this time; 10 if left out")
    parser.add_argument("--plain", action="store_true",
                        help="with the clock that QEMU has by itself, which is that of the host; faster")
    parser.add_argument("--single", action="store_true", help="one instruction at a time")
    parser.add_argument("--time", action="store_true", help="prints to standard error how long QEMU took")
    parser.add_argument("--raw", action="store_true",
                        help="writes control characters to a terminal as they are, and does not "
                        "show them as \\x1b")
    parser.add_argument("--cpu", metavar="WORDS", help="the words of QEMU's -cpu; those without compressed "
                        "instructions and floating point if left out")
    return parser.parse_args()


def main() -> int:
    options = options_of_words()
    if not qemu.is_installed():
        say(f"there is no {qemu.QEMU} ({qemu.PACKAGE})")
        return 2
    try:
        guest = guest_of(options.name, options.guest)
    except (Refused, image_configurations.Wrong) as why:
        say(str(why))
        return 2
    streams.check_output()
    with tempfile.NamedTemporaryFile() as image, tempfile.NamedTemporaryFile() as shim:
        for file, data in ((image, guest.image), (shim, environment(guest))):
            file.write(data)
            file.flush()
        begin = time.perf_counter_ns()
        status, printed = ran(command_of(image.name, shim.name, options), options)
    if status is None:
        is_full = printed >= guest.console
        say(f"not stopped after {options.seconds:g} seconds"
            + (f", and its console of {guest.console} bytes is full" if is_full else ""))
        return LATE
    if options.time:
        os.write(2, f"ns {time.perf_counter_ns() - begin}\n".encode())
    if status != 0:
        say(f"{qemu.QEMU} failed: " + (f"status {status}" if status > 0 else f"ended by signal {-status}"))
        return QEMU_FAILED
    return 0
