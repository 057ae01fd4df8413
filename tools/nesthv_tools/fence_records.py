"""The fences of a run that is followed, and why each of them did not name a translation."""
import collections

from nesthv_tools import registers
from nesthv_tools.followed_runs import Fence, Place, Watcher

KEPT = 256  # fences
SHOWN = 3  # of them
VMID_BITS = 0x7F


def vmid_of(hgatp: int) -> int:
    return hgatp >> 44 & VMID_BITS


def asid_of(atp: int) -> int:
    return atp >> 44 & 0xFFFF


def table_of(is_second: bool, hgatp: int, atp: int) -> str:
    """Whose a translation is, in words."""
    if is_second:
        return registers.translation_of("hgatp", hgatp).split(", ", 1)[1]
    mode = registers.translation_of("satp", atp).split(", ", 1)[-1]
    return f"{mode} of VMID {vmid_of(hgatp)}" if hgatp else mode


class Wanted:
    """A translation that a fence should name: of which stage, whose it is, its page, and the level of its
    leaf."""

    def __init__(self, is_second: bool, is_nested: bool, hgatp: int, atp: int, page: int, level: int = 0,
                 is_global: bool = False) -> None:
        self.is_second, self.is_nested, self.page, self.level = is_second, is_nested, page, level
        self.vmid, self.asid, self.is_global = vmid_of(hgatp), asid_of(atp), is_global

    def is_at(self, page: int | None) -> bool:
        size = 12 + 9 * self.level
        return page is None or page >> size == self.page >> size


def is_named(fence: Fence, wanted: Wanted) -> bool:
    """Whether a fence names a translation. HFENCE.GVMA is taken to name those of the first stage of its VMID
    too."""
    return not why_not(fence, wanted)


def why_not(fence: Fence, wanted: Wanted) -> str:
    """Why a fence does not name a translation, in words, or nothing where it does."""
    if fence.name == "hfence.gvma":
        return why_not_second(fence, wanted)
    if wanted.is_second:
        return "it is for the first stage"
    is_nested = fence.place.mode[0] == "V" or fence.name == "hfence.vvma"
    if is_nested != wanted.is_nested:
        return "it is for translations of " + ("vsatp" if is_nested else "satp")
    if is_nested and vmid_of(fence.hgatp) != wanted.vmid:
        return f"hgatp then had VMID {vmid_of(fence.hgatp)}"
    if fence.identifier is not None and wanted.is_global:
        return "it names an ASID, and the leaf is a global one"
    if fence.identifier not in (None, wanted.asid):
        return f"it names ASID {fence.identifier}"
    return "" if wanted.is_at(fence.page) else why_no_page(fence.page or 0, wanted.page, False)


def why_not_second(fence: Fence, wanted: Wanted) -> str:
    if not wanted.is_nested:
        return "it is for translations of VS"
    if fence.identifier not in (None, wanted.vmid):
        return f"it names VMID {fence.identifier}"
    if not wanted.is_second or wanted.is_at(fence.page):
        return ""
    return why_no_page(fence.page or 0, wanted.page, True)


def why_no_page(named: int, page: int, is_second: bool) -> str:
    """Why the page that a fence names is another one."""
    words = f"it names page {named:x}"
    if named >> 12 == page << 2 >> 12 and is_second:
        return words + ": rs1 has the address, which is to be shifted right by 2"
    if page and named in (page >> 12, page >> 10):
        return words + ": rs1 has the number of the page, and not its address" + is_second * " shifted right by 2"
    return words


class Fences(Watcher):
    """The last fences of a run."""

    def __init__(self) -> None:
        self.kept: collections.deque[Fence] = collections.deque(maxlen=KEPT)

    def fenced(self, fence: Fence) -> None:
        self.kept.append(fence)

    def since(self, step: int, wanted: Wanted) -> list[tuple[Fence, str]]:
        """Those after a step, each with why it does not name a translation."""
        return [(fence, why_not(fence, wanted)) for fence in self.kept if fence.place.step > step]


def lines_of(found: list[tuple[Fence, str]]) -> list[str]:
    """What was fenced in vain, in words: each reason once, with the first such fence."""
    by_words: dict[str, tuple[Place, int]] = {}
    for fence, why in found:
        words = f"{fence.name.upper()}: {why or 'it came before the translation was cached again'}"
        place, count = by_words.get(words, (fence.place, 0))
        by_words[words] = place, count + 1
    lines = [f"{words} (at step {place.step}" + (f", and {count - 1} more)" if count > 1 else ")")
             for words, (place, count) in by_words.items()]
    if lines[SHOWN:]:
        lines[SHOWN:] = [f"and {len(lines) - SHOWN} other fences that do not name it"]
    return [f"since then {line}" for line in lines] or ["no fence came since then"]
