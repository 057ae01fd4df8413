"""Lets stock gdb debug the tutorial's two kernels by nesthv-gdb, and compares what it shows with tools/look:
a break in a nested kernel, backwards from the end to the step before it, hgatp, and the last write of a page
table's entry. It needs gdb-multiarch, the proved program, and nesthv-gdb. The status is 0 where all is the
same, else 1.
"""
import json
import os
import re
import shlex
import shutil
import subprocess
from collections.abc import Iterator
from typing import Any

from nesthv_tools import command_line, places, programs, streams

FOLDER = os.path.join(places.EXAMPLES, "nested5")
CONFIG = "nested5.toml"
ENTRY = 0x80009008      # the first kernel's entry of level 0 for its page 1
SHOW = [
    'printf "pc %lx priv %ld hgatp %lx sepc %lx a0 %lx sp %lx\\n", $pc, $priv, $hgatp, $sepc, $a0, $sp',
    "monitor step 0",
]
COMMANDS = [
    "set pagination off",
    "set confirm off",
    "set remotetimeout 600",
    "set architecture riscv:rv64",
    # the first instruction of a nested kernel, which is in VS at its address 0
    "break *0 if $priv == 5", "continue", *SHOW,
    "delete",
    # to the end, and back by a step
    "continue", *SHOW,
    "reverse-stepi", *SHOW,
    # back to the last write of an entry
    f"watch *(unsigned long *) {ENTRY:#x}", "reverse-continue", *SHOW,
    f"printf \"entry %lx\\n\", *(unsigned long *) {ENTRY:#x}",
    "delete",
    "stepi", *SHOW,
    f"printf \"entry %lx\\n\", *(unsigned long *) {ENTRY:#x}",
    "reverse-continue", *SHOW,
]
STATE = re.compile(r"pc (\w+) priv (\w+) hgatp (\w+) sepc (\w+) a0 (\w+) sp (\w+)\nposition (\d+)\n")
MODES = {"0": "U", "1": "HS", "4": "VU", "5": "VS"}


def debugger(path: str | None) -> str | None:
    """The path of nesthv-gdb: the one that is named, else that of dist/, else the one that rt has built."""
    built = os.path.join(places.TOP, "crates", "nesthv_gdb", "out", "nesthv_gdb")
    for candidate in [path] if path else [os.path.join(places.DIST, "nesthv-gdb"), built]:
        if programs.is_program(candidate):
            return os.path.abspath(candidate)
    return None


def said_by_gdb(gdb: str, program: str) -> str:
    """What gdb prints for the commands."""
    target = f"target remote | {shlex.quote(program)} {CONFIG} 0"
    words = [gdb, "-nx", "-batch"]
    for command in [*COMMANDS[:4], target, *COMMANDS[4:]]:
        words += ["-ex", command]
    ran = subprocess.run(words, cwd=FOLDER, stdin=subprocess.DEVNULL, stdout=subprocess.PIPE,
                         stderr=subprocess.STDOUT, text=True, timeout=600)
    return ran.stdout


def shown_by_look(*words: str) -> dict[str, Any]:
    ran = subprocess.run([os.path.join(places.TOOLS, "look"), os.path.join(FOLDER, CONFIG), *words, "--json"],
                         stdout=subprocess.PIPE, check=True)
    shown: dict[str, Any] = json.loads(ran.stdout)
    return shown


def differences(said: str) -> Iterator[str]:
    """What is not as tools/look shows it."""
    states = STATE.findall(said)
    if len(states) != 6:
        yield f"{len(states)} states are shown, and there should be 6"
        return
    at_break, end, before_end, at_write, behind_write, begin = states
    for what, state in (("break", at_break), ("end", end), ("step before the end", before_end),
                        ("write", at_write), ("start", begin)):
        yield from differs(what, state)
    if int(before_end[6]) != int(end[6]) - 1:
        yield "reverse-stepi from the end has not gone back by one step"
    if begin[6] != "0":
        yield "reverse-continue without a stop has not gone to the start"
    if MODES[at_break[1]] != "VS" or at_break[0] != "0":
        yield "the break is not at address 0 in VS"
    entries = re.findall(r"^entry (\w+)$", said, re.MULTILINE)
    first = shown_by_look("first", "memory", f"{ENTRY:#x}", str(int(entries[-1], 16)))
    if int(behind_write[6]) != int(at_write[6]) + 1 or entries[0] == entries[-1] \
            or first["step"] != int(behind_write[6]):
        yield f"the entry's last write is not that of step {first['step']}"


def differs(what: str, state: tuple[str, ...]) -> Iterator[str]:
    pc, mode, hgatp, sepc, a0, sp, position = state
    shown = shown_by_look("at", position)
    for name, value in (("pc", pc), ("hgatp", hgatp), ("sepc", sepc), ("a0", a0), ("sp", sp)):
        if int(value, 16) != value_in(shown, name):
            yield f"{what}: {name} is {value}, and tools/look shows {value_in(shown, name):x}"
    if MODES[mode] != shown["mode"]:
        yield f"{what}: the mode is {MODES[mode]}, and tools/look shows {shown['mode']}"


def value_in(shown: dict[str, Any], name: str) -> int:
    """The value of a register in a state that tools/look shows."""
    if name == "pc":
        return int(shown["pc"])
    return int(shown["registers"][name] if name in shown["registers"] else shown["csrs"][name]["value"])


def main() -> int:
    parser = command_line.Parser(__doc__)
    parser.add_argument("--program", metavar="PATH", help="nesthv-gdb; that of dist/ if left out")
    parser.add_argument("--gdb", metavar="NAME", default="gdb-multiarch",
                        help="gdb; gdb-multiarch if left out")
    options = parser.parse_args()
    program = debugger(options.program)
    if not program or not shutil.which(options.gdb):
        streams.say("there is no nesthv-gdb" if not program else f"there is no {options.gdb}")
        return 1
    said = said_by_gdb(options.gdb, program)
    found = list(differences(said))
    for line in found:
        streams.say(line)
    if found:
        streams.write(said.encode())
        return 1
    print("gdb shows what tools/look shows")
    return 0
