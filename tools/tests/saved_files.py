"""Files of saved guests for tests."""
import os
import struct
import sys

sys.path.insert(0, os.path.dirname(os.path.dirname(os.path.abspath(__file__))))
from nesthv_tools import saves

HGATP = 0x8000100000080004


def form(console=b"", inputs=(), held=(), first=(), ram=bytes(2097152), **numbers):
    """The file of a guest that has these numbers, and others as at its start, holds these spaces, and has these
    cached translations of the first stage. With none in their place it is one of the second version."""
    fixed = {name: value for name, (_, value) in saves.REGISTERS.items()}
    start = {"blocks": 1, "spaces": 1, "entries": 16, "console": 100, "timer": 2**64 - 1, "pc": saves.RAM}
    known = {**fixed, **start, **{name.replace("_", " "): value for name, value in numbers.items()}}
    made = b"NESTHV02" if first is None else b"NESTHV03"
    made += struct.pack("<73Q", *(known.get(name, 0) for name in saves.NAMES))
    made += struct.pack("<Q", len(console)) + console + struct.pack("<Q", len(inputs))
    made += b"".join(struct.pack("<QB", *pair) for pair in inputs) + struct.pack("<Q", len(held))
    for key, entries in held:
        made += struct.pack("<QQ", key, len(entries))
        made += b"".join(struct.pack("<3Q", *entry) for entry in entries)
    if first is not None:
        made += struct.pack("<Q", len(first)) + b"".join(struct.pack("<6Q", *entry) for entry in first)
    return made + ram
