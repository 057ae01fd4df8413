"""The words of the programs of cases: from GNU as where it is installed, else those that stand beside the cases.

A file of words has the programs of a file of cases, each once, in the order in which they come. A line is a word and
the instruction that it is of, and a blank line stands between two programs. `case_programs.py FILE..` writes the words
of these files of cases anew, and needs GNU as."""
import os
import re
import shutil
import subprocess
import sys
import tempfile
from collections.abc import Iterable

import case_files
from case_files import Line, Refusal, Suite

ASSEMBLERS = ("riscv64-linux-gnu-as", "riscv64-unknown-elf-as")
FLAGS = ("-march=rv64ima_zicsr_zifencei_h", "-mabi=lp64", "-mno-relax", "-al")
LABEL = re.compile(r"([A-Za-z_]\w*): (.*)")
# A line of a listing with a word: the line of the source, the offset at its first word, and the bytes.
LISTED = re.compile(r"\s*(\d+) (?:[0-9a-f]{4,}|\s+) ([0-9A-F]{8})\s")
FAULT = re.compile(r"[^:]*:(\d+): (.*)")

# The words of programs by their texts.
Words = dict[tuple[str, ...], bytes]


def text_of(program: tuple[Line, ...]) -> tuple[str, ...]:
    return tuple(line.text.strip() for line in program)


def assembler() -> str | None:
    """GNU as for RISC-V, or none."""
    return next(filter(None, map(shutil.which, ASSEMBLERS)), None)


def source_lines(program: tuple[Line, ...], index: int) -> list[str]:
    """The lines of a program whose labels no other program has: they get its index."""
    found = [LABEL.fullmatch(text) for text in text_of(program)]
    labels = {each.group(1) for each in found if each}
    made = []
    for text, label in zip(text_of(program), found):
        instruction = label.group(2) if label else text
        front, space, last = instruction.rpartition(" ")
        target = f".L{index}{last}" if space and last in labels else last
        made.append((f".L{index}{label.group(1)}: " if label else "") + front + space + target)
    return made


def assembled(suite: Suite) -> Words:
    """The words of all programs of a file, from one run of GNU as."""
    programs = list({text_of(each): each for each in case_files.programs(suite)}.values())
    lines = [line for program in programs for line in program]
    texts = [text for index, program in enumerate(programs) for text in source_lines(program, index)]
    words = listed(texts, lines) if lines else []
    made, place = {}, 0
    for program in programs:
        made[text_of(program)] = b"".join(words[place:place + len(program)])
        place += len(program)
    return made


def listed(texts: list[str], lines: list[Line]) -> list[bytes]:
    """The word of each of these lines of assembly, which stand for these lines of cases."""
    with tempfile.TemporaryDirectory() as folder:
        command = [assembler() or ASSEMBLERS[0], *FLAGS, "-o", os.path.join(folder, "a.o"), "-"]
        ran = subprocess.run(command, input="\n".join(texts) + "\n", capture_output=True, text=True)
    for fault in map(FAULT.fullmatch, ran.stderr.splitlines()):
        if fault:
            raise lines[int(fault.group(1)) - 1].refusal(f"GNU as says {fault.group(2)}")
    if ran.returncode:
        raise Refusal(f"{lines[0].file}: {command[0]} ends with status {ran.returncode}: {ran.stderr.strip()}")
    words: list[list[bytes]] = [[] for _ in lines]
    for word in map(LISTED.match, ran.stdout.splitlines()):
        if word:
            words[int(word.group(1)) - 1].append(bytes.fromhex(word.group(2)))
    for line, found in zip(lines, words):
        if len(found) != 1:
            raise line.refusal(f"`{line.text.strip()}` has {len(found)} words")
    return [found[0] for found in words]


def stored_path(path: str) -> str:
    """Where the words of a file of cases stand."""
    return os.path.splitext(path)[0] + ".words"


def stored(path: str) -> Words:
    """The words that stand beside a file of cases."""
    words: Words = {}
    program: list[tuple[str, str]] = []
    path = stored_path(path)
    if not os.path.exists(path):
        return words
    for index, text in enumerate((*case_files.lines_of(path), "")):
        if text:
            word, _, instruction = text.partition(" ")
            if not re.fullmatch("[0-9a-f]{8}", word) or not instruction:
                raise Refusal(f"{os.path.basename(path)}:{index + 1}: not a word and an instruction")
            program.append((word, instruction))
        elif program:
            words[tuple(each for _, each in program)] = b"".join(bytes.fromhex(word)[::-1] for word, _ in program)
            program = []
    return words


def listing(words: Words) -> str:
    """The text of a file of these words."""
    return "\n".join("".join(f"{data[4 * index:4 * index + 4][::-1].hex()} {instruction}\n"
                             for index, instruction in enumerate(program)) for program, data in words.items())


def assembler_of(words: Words) -> case_files.Assembler:
    """What gives the words of a program."""
    def assemble(program: tuple[Line, ...]) -> bytes:
        text = text_of(program)
        if text not in words:
            raise program[0].refusal("neither GNU as is installed nor has the file of words this program")
        return words[text]
    return assemble


def words_of(suite: Suite) -> case_files.Assembler:
    """What gives the words of the programs of a file."""
    return assembler_of(assembled(suite) if assembler() else stored(suite.path))


def write(paths: Iterable[str], kinds: tuple[str, ...] = ("case", "table")) -> None:
    for path in paths:
        words = assembled(case_files.read(path, kinds))
        if words:
            with open(stored_path(path), "w", encoding="utf-8") as file:
                file.write(listing(words))


if __name__ == "__main__":
    try:
        write(sys.argv[1:])
    except (Refusal, OSError) as refusal:
        sys.exit(f"case_programs.py: {refusal}")
