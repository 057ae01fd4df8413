"""Builds a guest of sources in C and assembly with the GNU tools for RISC-V: the ELF file NAME.elf, with the
lines of the sources, and the image NAME.bin, in the folder where you are. NAME is that of the first source.
If there is a source in C, the start file, the linker script and the trap handler of the examples `c` and
`traps` go with it, and the guest begins there; else it begins in the first source. Other words that begin
with a dash are flags of gcc, each in one word, such as -O3, -DNAME=1 or -Ifolder.
"""
import os
import re
import shutil
import subprocess
import sys
from argparse import Namespace

from nesthv_tools import command_line, endings, layout, places, streams, whole_files

USAGE = "%(prog)s [-o NAME.elf] [FLAG]... SOURCE..."
EXAMPLES = """examples:
  %(prog)s hello.c                  hello.elf and hello.bin
  %(prog)s -o guest.elf a.c b.s     guest.elf and guest.bin
"""
KINDS = (".c", ".s", ".S")
MARCH, ABI = "rv64ima_zicsr_zifencei", "lp64"
FLAGS = [f"-march={MARCH}", f"-mabi={ABI}", "-mcmodel=medany", "-static", "-nostdlib", "-fno-pic", "-no-pie", "-g",
         "-Wl,--build-id=none"]
LETTERS, WORDS = "imah", ("zicsr", "zifencei")  # extensions that a guest has, by letter and by name
LACKING = {"c": "compressed instructions", "f": "floating point", "d": "floating point", "q": "floating point",
           "g": "floating point", "v": "vectors"}
PACKAGE = "apt-get install gcc-riscv64-linux-gnu"
FAILED, UNUSABLE = 1, 2


class Refused(Exception):
    """Why nothing can be built, in words."""


def options_of_words() -> Namespace:
    parser = command_line.Parser(__doc__, USAGE, EXAMPLES)
    parser.add_argument("sources", metavar="SOURCE", nargs="*", help="PATH.c, PATH.s, or PATH.S, which is preprocessed")
    parser.add_argument("-o", dest="output", metavar="NAME.elf", help="another name, and folder, of what is made")
    words = sys.argv[1:]
    end = words.index("--") if "--" in words else len(words)
    options, flags = parser.parse_known_intermixed_args(words[:end])
    options.sources += words[end + 1:]
    options.flags = flags
    if not options.sources:
        parser.error("the following arguments are required: SOURCE")
    return options


def extensions_lacking(march: str) -> list[str]:
    """What this value of -march has and a guest has not, in words."""
    if not march.startswith("rv64"):
        return ["another width than 64 bits"]
    letters, *words = re.sub(r"(?<=[a-z])\d+(p\d+)?", "", march.removeprefix("rv64")).split("_")
    found = [LACKING.get(letter, f"the extension {letter}") for letter in letters if letter not in LETTERS]
    found += [f"the extension {word}" for word in words if word not in WORDS]
    return list(dict.fromkeys(found))


def refuse_flags(flags: list[str]) -> None:
    """Refuses flags by which the compiler would make instructions that a guest does not have."""
    for flag in flags:
        name, _, value = flag.partition("=")
        lacking = extensions_lacking(value) if name == "-march" else []
        if lacking:
            raise Refused(f"{flag} has {' and '.join(lacking)}, which a guest does not have: leave it out, for "
                          f"-march={MARCH}")
        if name == "-mabi" and value != ABI:
            raise Refused(f"{flag} is not the ABI of a guest, which has no floating point: leave it out, for "
                          f"-mabi={ABI}")


def refuse_sources(sources: list[str]) -> None:
    for source in sources:
        if not source.endswith(KINDS):
            raise Refused(f"{source} is not a source: PATH.c, PATH.s or PATH.S")
        if not os.path.isfile(source):
            raise Refused(f"{source}: there is no such file")


def base_of(options: Namespace) -> str:
    """The path of what is made, without `.elf` and `.bin`."""
    if options.output is None:
        return os.path.splitext(os.path.basename(str(options.sources[0])))[0]
    base, end = os.path.splitext(str(options.output))
    if end not in (".elf", ".bin") or not os.path.basename(base):
        raise Refused(f"-o {options.output} does not end in .elf")
    return base


def words_of(options: Namespace) -> list[str]:
    """The words of gcc that say what is linked, and how."""
    if any(source.endswith(".c") for source in options.sources):
        script, start, handler = (os.path.join(places.EXAMPLES, name)
                                  for name in ("c/link.ld", "c/start.s", "traps/handler.s"))
        words = ["-O2", "-ffreestanding", "-T", script, start, handler]
    else:
        words = [f"-Wl,-Ttext={0x80000000:#x},--entry={0x80000000:#x}"]
    for source in options.sources:
        words += [f"-Wa,-I{os.path.dirname(source) or '.'}", os.path.join(".", source) if source[0] == "-" else source]
    return [*words, *options.flags]


def build(options: Namespace, base: str, cross: str) -> int:
    """Builds both files, or none, and gives the status."""
    with endings.Folder("nesthv-build-") as folder:
        elf, image = (os.path.join(folder, f"made.{end}") for end in ("elf", "bin"))
        for words in ([f"{cross}gcc", *FLAGS, "-o", elf, *words_of(options)],
                      [f"{cross}objcopy", "-O", "binary", elf, image]):
            if subprocess.run(words, stdin=subprocess.DEVNULL).returncode:
                return FAILED
        for path in (elf, image):
            whole_files.write(base + os.path.splitext(path)[1], layout.bytes_at(path))
    return 0


def main() -> int:
    options = options_of_words()
    cross = os.environ.get("CROSS", "riscv64-linux-gnu-")
    try:
        refuse_flags(options.flags)
        refuse_sources(options.sources)
        base = base_of(options)
        for program in (f"{cross}gcc", f"{cross}objcopy"):
            if not shutil.which(program):
                raise Refused(f"there is no {program} ({PACKAGE})")
        return build(options, base, cross)
    except Refused as why:
        streams.say(str(why))
        return UNUSABLE
