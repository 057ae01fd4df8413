"""The uses of translations that hardware may have cached, by the standard, though this machine has not: of a VMID or
ASID with two roots, of a leaf that was moved or made weaker, and of one that was made valid. For each VMID or ASID and
page that was used, it keeps what the tables have given since the last fence that names it. So it does not track
what hardware caches of pages that no step has used, nor uses by HLV, HLVX and HSV.
"""
from collections.abc import Callable, Iterator
from typing import NamedTuple

from nesthv_tools import fence_records, walks
from nesthv_tools.fence_records import Fences, Wanted
from nesthv_tools.findings import Finding, Rank
from nesthv_tools.followed_runs import Fence, Place, Run, Shown, Trap, Watcher
from nesthv_tools.wording import counted

MOST_PAGES, MOST_LEAVES, MOST_FOUND, MOST_SHOWN = 4000, 4, 200, 12
KINDS = {12: walks.FETCH, 13: walks.LOAD, 15: walks.STORE, 20: walks.FETCH, 21: walks.LOAD, 23: walks.STORE}


Known = Callable[[bool, int, int], bool]  # whether this machine has shown it


class Space(NamedTuple):
    """Whose translations: of the second stage, or of the first with V = 1 or V = 0; the VMID, and the ASID."""
    is_second: bool
    is_nested: bool
    vmid: int
    asid: int


class Leaf(NamedTuple):
    """What tables gave for a page: the frame, the rights, and the root; by which entry, and where it was used
    first."""
    frame: int
    rights: int
    root: int
    level: int
    is_global: bool
    entry: int | None
    place: Place


class Found(NamedTuple):
    """A use of a page of a space for which hardware may have another leaf."""
    space: Space
    page: int
    old: Leaf
    now: Leaf | None
    place: Place
    store: Place | None
    fences: list[str]
    root: int | None  # the other one, where there are two


class Uses(Watcher):
    """All that are found, each once for a space, a page and a store; those of roots once for a space."""

    def __init__(self, run: Run, fences: Fences) -> None:
        self.run, self.fences = run, fences
        self.spaces: dict[Space, dict[int, list[Leaf]]] = {}
        self.large: dict[Space, set[int]] = {}  # pages of leaves above level 0
        self.faulted: dict[tuple[Space, int], Place] = {}
        self.pages = 0
        self.is_cut = False
        self.found: dict[tuple[object, ...], Found] = {}
        self.spurious: dict[Space, tuple[int, int, Place]] = {}  # how many, and the first page and use

    def used(self, place: Place, address: int, kind: str) -> None:
        numbers, is_nested = self.run.numbers, place.mode[0] == "V"
        hgatp, atp = (numbers["hgatp"], numbers["vsatp"]) if is_nested else (0, numbers["satp"])
        vmid, page = fence_records.vmid_of(hgatp), address
        if atp:
            walk = self.run.first_walk(hgatp, atp, address)
            for met in walk.met if hgatp else ():
                self.second(place, hgatp, met.place)
            leaf = None if walk.wrong else Leaf(
                walk.address >> 12, walks.first_flags(walk) & ~24, atp & (1 << 44) - 1, walk.level,
                bool(walk.leaf & walks.G), self.run.entry_of(walk, hgatp), place)
            self.take(Space(False, is_nested, vmid, fence_records.asid_of(atp)), address >> 12, leaf, place)
            if walk.wrong:
                return
            page = walk.address
        if hgatp:
            self.second(place, hgatp, page)

    def second(self, place: Place, hgatp: int, address: int) -> None:
        """Takes a use of a guest physical address."""
        walk = self.run.second_walk(hgatp, address)
        flags = walks.table_flags(walk)
        leaf = None if flags is None else Leaf(walk.address >> 12, flags & 7, hgatp & (1 << 44) - 1, walk.level,
                                               False, self.run.entry_of(walk, 0), place)
        self.take(Space(True, True, fence_records.vmid_of(hgatp), 0), address >> 12, leaf, place)

    def trapped(self, trap: Trap) -> None:
        """A fault of a page that hardware may have as it was; or which it may keep as refused."""
        kind, is_nested = KINDS.get(trap.cause), trap.place.mode[0] == "V"
        if not kind or trap.htinst or trap.cause >= 20 and trap.page is None:
            return
        numbers = self.run.numbers
        hgatp, atp = (numbers["hgatp"], numbers["vsatp"]) if is_nested else (0, numbers["satp"])
        address = trap.page if trap.cause >= 20 and trap.page is not None else trap.tval
        walk = self.run.second_walk(hgatp, address) if trap.cause >= 20 else self.run.first_walk(hgatp, atp, address)
        asid = 0 if trap.cause >= 20 else fence_records.asid_of(atp)
        space = Space(trap.cause >= 20, is_nested, fence_records.vmid_of(hgatp), asid)
        bit = {walks.FETCH: 4, walks.LOAD: 1, walks.STORE: 2}[kind]
        now = 0 if walk.wrong else walks.first_flags(walk)
        for old in self.spaces.get(space, {}).get(address >> 12, []):
            if old.rights & bit & ~now:
                self.note(space, address >> 12, old, None, trap.place)
        if not now & bit:
            self.faulted[space, address >> 12] = trap.place

    def take(self, space: Space, page: int, now: Leaf | None, place: Place) -> None:
        """Takes a use of a page, for which tables give this leaf now."""
        if now is None:
            return
        if (space, page) in self.faulted:
            del self.faulted[space, page]
            count, first, where = self.spurious.get(space, (0, page, place))
            self.spurious[space] = count + 1, first, where
        held = self.spaces.setdefault(space, {}).setdefault(page, [])
        for old in held:
            if old.frame != now.frame or old.rights & ~now.rights & 7 or (old.rights ^ now.rights) & 32:
                self.note(space, page, old, now, place)
        if not any(old[:3] == now[:3] for old in held):
            self.pages += not held
            if now.level:
                self.large.setdefault(space, set()).add(page)
            held.append(now)
            del held[:-MOST_LEAVES]
        if self.pages > MOST_PAGES:
            self.spaces.clear()
            self.large.clear()
            self.faulted.clear()
            self.pages, self.is_cut = 0, True

    def note(self, space: Space, page: int, old: Leaf, now: Leaf | None, place: Place) -> None:
        """Notes a use for which hardware may have the old leaf."""
        numbers = self.run.numbers
        atp = numbers["hgatp" if space.is_second else "vsatp" if space.is_nested else "satp"]
        is_root = atp & (1 << 44) - 1 != old.root
        entry = now.entry if now else old.entry
        store = self.run.store_at(entry) if entry is not None and not is_root else None
        key: tuple[object, ...] = (space, is_root) if is_root else (space, page, store.pc if store else 0)
        if key not in self.found and len(self.found) < MOST_FOUND:
            vain = self.fences.since(store.step if store else old.place.step,
                                     wanted_of(space, page, old.level, old.is_global))
            self.found[key] = Found(space, page, old, now, place, store,
                                    fence_records.lines_of([each for each in vain if each[1]]),
                                    (atp & (1 << 44) - 1) << 12 if is_root else None)

    def fenced(self, fence: Fence) -> None:
        for space, pages in self.spaces.items():
            named = list(pages) if fence.page is None else [fence.page >> 12, *self.large.get(space, ())]
            for page in named:
                held = [leaf for leaf in pages.get(page, ())
                        if fence_records.why_not(fence, wanted_of(space, page, leaf.level, leaf.is_global))]
                if held:
                    pages[page] = held
                elif pages.pop(page, None):
                    self.pages -= 1
        for space, page in list(self.faulted):
            if not fence_records.why_not(fence, wanted_of(space, page)):
                del self.faulted[space, page]

    def findings(self, shown: Shown, is_known: Known) -> Iterator[Finding]:
        """Each in words, but those which this machine has shown."""
        found = [each for each in self.found.values()
                 if not is_known(each.space.is_second, each.space.vmid << 44, each.page << 12)]
        for each in found[:MOST_SHOWN]:
            yield finding_of(each, shown)
        if found[MOST_SHOWN:]:
            yield Finding(Rank.STALE, found[MOST_SHOWN].place.step, "hardware may use "
                          f"{counted(len(found) - MOST_SHOWN, 'more stale translation')}", [], "fences --strict",
                          is_possible=True)

    def notes(self) -> Iterator[str]:
        """What the standard permits, and need not be a fault."""
        for space, (count, page, place) in self.spurious.items():
            yield f"{counted(count, 'leaf', 'leaves')} of {whose(space)} became valid without a fence, first that of " \
                f"page {page << 12:x}, used at step {place.step}: hardware may fault there once more"
        if self.is_cut:
            yield f"translations of more than {MOST_PAGES:,} pages were used: what came of some is not tracked"


def wanted_of(space: Space, page: int, level: int = 0, is_global: bool = False) -> Wanted:
    """What a fence has to name for a page of a space."""
    return Wanted(space.is_second, space.is_nested, space.vmid << 44, space.asid << 44, page << 12, level, is_global)


def whose(space: Space) -> str:
    if space.is_second:
        return f"VMID {space.vmid}"
    return f"ASID {space.asid}" + (f" under VMID {space.vmid}" if space.is_nested else "")


def words_of(leaf: Leaf) -> str:
    return f"frame {leaf.frame << 12:x} {walks.rights_of(leaf.rights)}"


def finding_of(found: Found, shown: Shown) -> Finding:
    """What is known of such a use, in words."""
    old, now, step = found.old, found.now, found.place.step
    page = f"{'guest physical ' if found.space.is_second else ''}page {found.page << 12:x}"
    lines = [f"{page} was {words_of(old)} where it was used first: {shown(old.place)}",
             f"it is {words_of(now) if now else 'refused'} where it is used again: {shown(found.place)}"]
    if found.store:
        lines.append(f"the entry at {(now or old).entry or 0:x} was changed by {shown(found.store)}")
    lines += found.fences
    if found.root is not None:
        words = f"{whose(found.space)} is used for two roots, {old.root << 12:x} and {found.root:x}, without a " \
            "fence in between that names it: hardware may use translations of the other one"
    else:
        how = "cleared, or made weaker," if not now else "moved" if now.frame != old.frame else "made weaker"
        words = f"the leaf of {page} of {whose(found.space)} was {how} and used again without a fence: hardware " \
            "may use the old one"
    return Finding(Rank.STALE, step, words, lines, "fences --strict", is_possible=True)
