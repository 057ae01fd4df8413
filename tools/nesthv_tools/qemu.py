"""QEMU for the tools: which one, its version, and the words that it takes."""
import json
import os
import re
import shutil
import subprocess
from collections.abc import Collection

QEMU = os.environ.get("QEMU", "qemu-system-riscv64")
PACKAGE = "apt-get install qemu-system-misc, and from Debian 13 on qemu-system-riscv"
# What QEMU's rv64 has by itself, in one version or another, and guests here do not.
LACKING = ("c", "d", "f", "zfa", "zca", "zcd", "zawrs", "zba", "zbb", "zbc", "zbs", "zicbom", "zicbop", "zicboz",
           "zihpm", "sstc", "svadu", "svvptc")
ASKED = ({"execute": "qmp_capabilities"},
         {"execute": "qom-list-properties", "arguments": {"typename": "rv64-riscv-cpu"}}, {"execute": "quit"})
LONGEST = 10  # seconds until QEMU has said what its processor has


def is_installed() -> bool:
    return shutil.which(QEMU) is not None


def version() -> tuple[int, int]:
    """QEMU's version, its first two numbers, or zeros where it does not say."""
    said = subprocess.run([QEMU, "--version"], stdin=subprocess.DEVNULL, capture_output=True,
                          text=True).stdout
    found = re.search(r"version (\d+)\.(\d+)", said)
    return (int(found[1]), int(found[2])) if found else (0, 0)


def properties() -> set[str]:
    """The names by which this QEMU knows what its processor has, or none where it does not say."""
    asked = "".join(json.dumps(each) + "\n" for each in ASKED)
    command = [QEMU, "-machine", "virt", "-bios", "none", "-S", "-display", "none", "-monitor", "none",
               "-serial", "none", "-qmp", "stdio"]
    try:
        said = subprocess.run(command, input=asked, capture_output=True, text=True, timeout=LONGEST).stdout
        answers = [json.loads(line).get("return") for line in said.splitlines()]
    except (subprocess.TimeoutExpired, ValueError, AttributeError):  # late, or not the protocol
        return set()
    return {str(each["name"]) for answer in answers if isinstance(answer, list) for each in answer}


def cpu_words(known: Collection[str]) -> str:
    """The words of -cpu for a QEMU that knows these properties: the hypervisor extension, nothing that guests here
    do not have, and a fault where A or D would have to be set (Svade). Up to 8.1 some names begin with a capital."""
    if not known:
        return "rv64,h=true,c=false,d=false,f=false"
    names = [next((name for name in (each, each.capitalize()) if name in known), "") for each in LACKING]
    words = ["rv64", "h=true", *(f"{name}=false" for name in names if name)]
    return ",".join(words + (["svade=true"] if "svade" in known else []))


def words_of_one_at_a_time(number: tuple[int, int]) -> list[str]:
    """QEMU's words for one instruction at a time."""
    return ["-accel", "tcg,one-insn-per-tb=on"] if number >= (8, 1) else ["-singlestep"]
