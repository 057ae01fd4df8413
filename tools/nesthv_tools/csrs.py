"""The numbers of control and status registers by their names, as tools/csrs.txt has them."""
import os

from nesthv_tools import places

FILE = os.path.join(places.TOOLS, "csrs.txt")


def numbers_in(path: str) -> dict[str, int]:
    """The number of each register that a file names."""
    with open(path, encoding="ascii") as file:
        rows = [line.split() for line in file if not line.startswith("#")]
    return {name: int(number, 16) for number, name in rows}


NUMBERS = numbers_in(FILE)
