"""Words that sentences about a run share."""


def counted(count: int, one: str, more: str = "") -> str:
    """A number of things, in words."""
    return f"{count:,} {one if count == 1 else more or one + 's'}"


def article(words: str) -> str:
    """Words after `a` or `an`."""
    return f"an {words}" if words[0] in "aeiouAEIO" else f"a {words}"


def guest_of(hgatp: int) -> str:
    """A guest's guest."""
    return f"VMID {hgatp >> 44 & 0x7F}" if hgatp else "the guest's guest"
