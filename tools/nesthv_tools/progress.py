"""Runs a configuration with fewer steps first, to show how far its guests come. Runs compose and a console
only grows, so each report is what the whole run has come to at that moment.
"""
import json
import os
import subprocess
import tempfile
from collections.abc import Callable

from nesthv_tools import children, faults, reports

FIRST = 10_000_000  # steps: about a second
FACTOR = 4
MOST_IN_TURN = 2**32


def sums_of(document: faults.Table) -> list[int]:
    """The steps of each guest's own turns."""
    if "turns" not in document:
        return [guest.get("weight", 1) * document["quantum"] * document["rounds"]
                for guest in document["guest"]]
    return [sum(steps for guest, steps in document["turns"] if guest == number)
            for number in range(len(document["guest"]))]


def turns_of(sums: list[int], most: int) -> list[list[int]]:
    """Turns in which each guest makes its steps, but not more than these."""
    left = [min(steps, most) for steps in sums]
    turns = []
    for guest, steps in enumerate(left):
        full, rest = divmod(steps, MOST_IN_TURN)
        turns += [[guest, MOST_IN_TURN]] * full + [[guest, rest]]
    return turns


def toml_of(value: object) -> str:
    """A value of a guest's key as TOML has it, which escapes one character more than JSON."""
    return json.dumps(value, ensure_ascii=False).replace("\x7f", "\\u007f")


def capped(document: faults.Table, most: int) -> str:
    """The text of this configuration, in which each guest makes at most `most` steps."""
    lines = [f"format = {document['format']}", f"turns = {turns_of(sums_of(document), most)}"]
    for guest in document["guest"]:
        lines.append("[[guest]]")
        lines += [f"{key} = {toml_of(value)}" for key, value in guest.items()]
    return "\n".join(lines) + "\n"


def show(program: str, path: str, folder: str, document: faults.Table, say: Callable[[str], None]) -> None:
    """Runs it with growing counts of steps, up to its own, and says for each how far the guests are. A
    configuration that is refused, or whose guests have all come to an end, is left to the whole run."""
    if subprocess.run([program, "check", os.path.abspath(path)], cwd=folder,
                      capture_output=True).returncode != 0:
        return
    most = max(sums_of(document))
    steps = FIRST
    while steps < most:
        with tempfile.NamedTemporaryFile("w", suffix=".toml", encoding="utf-8") as file:
            file.write(capped(document, steps))
            file.flush()
            ran = children.complete([program, "run", os.path.abspath(file.name)], cwd=folder,
                                    stdout=subprocess.PIPE, stderr=subprocess.PIPE)
        sections = reports.sections_of(ran.stdout) if ran.returncode == 0 else None
        if sections is None:
            return
        far = ", ".join(f"{each['name']} {each['status']}, {each['bytes']} bytes" for each in sections)
        say(f"after {steps:,} steps of each guest: {far}")
        if all(each["status"] != "running" or each["steps"] < steps for each in sections):
            return
        steps *= FACTOR
