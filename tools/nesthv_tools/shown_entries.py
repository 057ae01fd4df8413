"""How entries into V = 1 are shown: as values and as lines, with what each guest's guest finds changed."""
from nesthv_tools import kept_registers, state_changes
from nesthv_tools.presentation import Value
from nesthv_tools.sessions import Session


def shown(session: Session, start: int, end: int) -> int:
    """Prints the entries in these steps."""
    for entry in kept_registers.entries_of(session.runs, start, end, session.tell):
        session.print(*shown_entry(entry, kept_registers.lost(session.runs, entry)))
    return 0


def shown_entry(entry: kept_registers.Entry, lost: list[state_changes.Change]) -> tuple[Value, list[str]]:
    """An entry into V = 1, as a value and as lines. What is lost is marked."""
    after, left, key = entry.after, entry.left, entry.hgatp()
    value = {"step": after.numbers["steps"], "mode": after.mode(), "pc": after.numbers["pc"], "hgatp": key,
             "left_at": None, "trap": None, "changes": []}
    guest = f"VMID {key >> 44 & 0x7F}" if key else "hgatp Bare"
    line = f"{value['step']} {value['mode']} {value['pc']:016x}  {guest}, "
    if not left:
        return value, [line + "first in these steps"]
    value.update(left_at=left.state.numbers["steps"], trap=left.trap, changes=[])
    changes = entry.changes()
    value["changes"] = [{**each.value(), "lost": each in lost} for each in changes]
    line += f"left at {value['left_at']} by {left.trap['words'] if left.trap else 'a trap'}"
    shown = [f"  {'!' * (each in lost)}{each.line('->')}" for each in changes]
    return value, [line + "".join(shown)]
