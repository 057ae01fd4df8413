"""Debugs a guest by gdb, forwards and backwards. It looks for images beside the configuration, as nesthv-run
does, says in words what is wrong with a configuration, gives gdb the symbols of the ELF files that stand
beside the image, and starts it with nesthv-gdb. An ELF file or an image may stand in place of the
configuration.

The ELF file of the guest itself has the image's name. Others in its folder are those of the guest's own
guests where the image has their bytes in it. Where one lies at the same addresses as the guest, gdb takes the
symbols of the world in which it stops; its commands `hs` and `vs` take those of the one or of the other.
"""
import os
import shlex
import shutil
import signal
import subprocess
import sys
from argparse import Namespace
from typing import Any

from nesthv_tools import (
    command_line, configurations, debuggers, faults, image_configurations, programs, streams, stubs)
from nesthv_tools.commands import run

USAGE = "%(prog)s [OPTION]... CONFIG [GUEST] [-- WORD...]"
EXAMPLES = """examples:
  %(prog)s kernel.toml                      debugs guest 0
  %(prog)s two.toml 1                       debugs guest 1
  %(prog)s kernel.elf --steps 100000
  %(prog)s --print kernel.toml              prints the command of gdb
  %(prog)s kernel.toml -- -ex 'break main'  hands words on to gdb
"""
FAILED = UNUSABLE = 2
PACKAGE = "apt-get install gdb-multiarch"


class Refused(Exception):
    """Why there is nothing to debug, in words."""


def options_of_words() -> Namespace:
    parser = command_line.Parser(__doc__, USAGE, EXAMPLES)
    parser.add_argument("config", metavar="CONFIG",
                        help="the file of a configuration, or an ELF file or an image")
    parser.add_argument("guest", metavar="GUEST", nargs="?", type=command_line.number(0, 99), default=0,
                        help="the guest's number, from 0 on; 0 if left out")
    parser.add_argument("--print", action="store_true", dest="is_printed",
                        help="prints gdb's command, and does not start it")
    parser.add_argument("--gdb", metavar="NAME", default="gdb-multiarch",
                        help="the gdb to take; %(default)s if left out")
    parser.add_argument("--stub", metavar="PATH",
                        help="the nesthv-gdb to take; the installed one if left out")
    image_configurations.add_options(parser)
    words = sys.argv[1:]
    end = words.index("--") if "--" in words else len(words)
    options = parser.parse_args(words[:end])
    options.more = words[end + 1:]  # of gdb
    if options.is_printed and not options.write and image_configurations.is_image(options.config):
        parser.error("--print of an ELF file or an image needs --write FOLDER, where the command finds them")
    return options


def table_of(path: str, number: int) -> tuple[dict[str, Any] | None, dict[str, Any]]:
    """The document of the configuration at this path, and the table of its guest of this number."""
    document, _ = faults.parsed(faults.text_of(path))
    guests = faults.guests_of(document)
    return document, guests[number] if number < len(guests) else {}


def checked(stub: str, path: str, folder: str, place: str, guest: int) -> int:
    """Has the stub read the configuration, and gives its status. What is wrong is said in words."""
    ran = subprocess.run([stub, place, str(guest)], cwd=folder, stdin=subprocess.DEVNULL,
                         stdout=subprocess.DEVNULL, stderr=subprocess.PIPE)
    line = next(iter(ran.stderr.decode(errors="replace").splitlines()), "")
    if ran.returncode < 0:
        raise Refused(f"{stub} was ended by signal {-ran.returncode}")
    if ran.returncode:
        meaning = faults.explained(line, path, faults.text_of(path))
        streams.say(line + (f": {meaning}" if meaning else ""))
    return ran.returncode


def worlds_of(path: str, folder: str, guest: int, made_of: str | None = None) -> debuggers.Worlds:
    """The ELF files with symbols of a guest, whose image may be made of another file."""
    document, table = table_of(path, guest)
    name = faults.file_name(table.get("resume" if faults.is_resumed(document, table) else "image"))
    image = os.path.join(folder, name) if name else ""
    if not os.path.isfile(image):
        return debuggers.Worlds(None, [])
    return debuggers.worlds_beside(os.path.normpath(image), made_of)


def tell_of_worlds(worlds: debuggers.Worlds) -> None:
    """Says which symbols there are."""
    if worlds.own:
        streams.say(f"symbols of the guest: {worlds.own.path}")
    shared, taken = worlds.shared(), [worlds.own] if worlds.own else []
    for world in worlds.nested:
        how = ""
        if world is shared:
            how = ", while gdb stops in VS or VU"
        elif any(world.overlaps(other) for other in taken):
            how = f": `vs {debuggers.known_as(world)}` takes them"
        else:
            taken.append(world)
        streams.say(f"symbols of a guest of its own: {world.path}{how}")
    if not worlds.own and not worlds.nested:
        streams.say("no ELF file stands beside the image: there are no symbols")


def debug(options: Namespace, given: image_configurations.Given, stub: str) -> int:
    """Starts gdb for a configuration, or prints how."""
    path = given.path
    folder = run.folder_of(path)
    place = path if folder == "." else os.path.join(".", os.path.basename(path))
    status = checked(stub, path, folder, place, options.guest)
    if status:
        return status
    document, _ = table_of(path, options.guest)
    image_configurations.refuse_elf_images(folder, faults.image_names(document))
    worlds = worlds_of(path, folder, options.guest, given.made_of)
    words = debuggers.command(options.gdb, stub, folder, place, options.guest, worlds) + options.more
    if options.is_printed:
        print(shlex.join(words))
        return 0
    tell_of_worlds(worlds)
    return started(words)


def started(words: list[str]) -> int:
    """The status of gdb, to which an interrupt at the terminal is left."""
    process = subprocess.Popen(words)
    signal.signal(signal.SIGINT, signal.SIG_IGN)
    status = process.wait()
    return status if status >= 0 else 128 - status


def main() -> int:
    options = options_of_words()
    try:
        stub = programs.companion(stubs.NAME, options.stub)
        if not stub:
            raise Refused(f"{options.stub} is not a program" if options.stub else
                          "there is no nesthv-gdb: tools/install puts it beside nesthv, and --stub PATH "
                          "names one")
        if not options.is_printed and not shutil.which(options.gdb):
            raise Refused(f"there is no {options.gdb} ({PACKAGE}); --gdb NAME takes another one for RISC-V")
        path = configurations.file_of(options.config)
        with image_configurations.opened(path, options) as given:
            return debug(options, given, stub)
    except (Refused, configurations.Unknown, image_configurations.Wrong) as why:
        streams.say(str(why))
        return UNUSABLE
