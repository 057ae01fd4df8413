"""The uses of stale translations in a run that is followed: each once for each world, page and store that has
changed the table, with where it came from.
"""
from collections.abc import Iterator

from nesthv_tools import fence_records
from nesthv_tools.fence_records import Fences, Wanted
from nesthv_tools.findings import Finding, Rank
from nesthv_tools.followed_runs import Place, Run, Shown, Translation, Watcher
from nesthv_tools.wording import counted

MOST = 5000  # records
MOST_SHOWN = 24  # findings


class Use:
    """Uses of one stale translation: the first, the last, and how many. It also has what the tables gave then,
    the step that has cached it, the store after which it was stale, the entry's place, and the fences since."""

    def __init__(self, place: Place, found: Translation, now: str, since: int | None) -> None:
        self.first, self.last, self.found, self.now, self.since = place, place, found, now, since
        self.count, self.stores, self.last_store = 1, 1, 0  # and the step of the last of the stores
        self.store: Place | None = None
        self.entry: int | None = None
        self.fences: list[str] = []
        self.effect = ""
        self.entered: int | None = None  # the entry into V = 1 before it

    def take(self, place: Place, store: Place | None) -> None:
        """Takes a further use."""
        self.count, self.last = self.count + 1, place
        if store and store.step > self.last_store:
            self.stores, self.last_store = self.stores + 1, store.step


Key = tuple[Translation, int, int]  # of whom, and the pc of the store and the entry's place


class Uses(Watcher):
    """All that are found. `skipped` is how many there was no room for."""

    def __init__(self, run: Run, fences: Fences) -> None:
        self.run, self.fences, self.skipped = run, fences, 0
        self.found: dict[Key, Use] = {}
        self.at: int | None = None  # the last entry into V = 1

    def entered(self, place: Place, hgatp: int) -> None:
        self.at = place.step + 1

    def used_stale(self, place: Place, found: Translation, now: str, since: int | None) -> None:
        store, entry = self.changed(found, since)
        key = found._replace(frame=0, rights=""), store.pc if store else 0, entry or 0
        if key in self.found:
            self.found[key].take(place, store)
        elif len(self.found) == MOST:
            self.skipped += 1
        else:
            use = self.found[key] = Use(place, found, now, since)
            use.store, use.entry, use.entered = store, entry, self.at
            use.last_store = store.step if store else 0
            wanted = Wanted(found.is_second, place.mode[0] == "V", found.hgatp, found.atp, found.page)
            vain = self.fences.since(store.step if store else since or 0, wanted)
            use.fences = fence_records.lines_of([each for each in vain if each[1]])

    def changed(self, found: Translation, since: int | None) -> tuple[Place | None, int | None]:
        """The store that changed an entry of the walk of a translation last, after it was cached, and the
        entry's place."""
        run, hgatp = self.run, 0 if found.is_second else found.hgatp
        walk = run.second_walk(found.hgatp, found.page) if found.is_second else \
            run.first_walk(found.hgatp, found.atp, found.page)
        best: tuple[Place | None, int | None] = None, None
        for met in walk.met:
            place = run.physical(hgatp, met.place)
            store = run.store_at(place) if place is not None else None
            if store and store.step >= (since or 0) and (not best[0] or store.step > best[0].step):
                best = store, place
        return best

    def has(self, is_second: bool, hgatp: int, page: int) -> bool:
        """Whether a page of a VMID is among them."""
        vmid = fence_records.vmid_of(hgatp)
        return any(found.is_second == is_second and fence_records.vmid_of(found.hgatp) == vmid
                   and found.page >> 12 == page >> 12 for found, _, _ in self.found)

    def findings(self, shown: Shown) -> Iterator[Finding]:
        """Each in words, those at the head first."""
        for use in list(self.found.values())[:MOST_SHOWN]:
            yield finding_of(use, shown)
        more = len(self.found) - MOST_SHOWN + self.skipped
        if more > 0:
            yield Finding(Rank.STALE, use.first.step, f"{counted(more, 'more stale translation')} are used", [],
                          "fences")


def finding_of(use: Use, shown: Shown) -> Finding:
    """What is known of the uses of a stale translation, in words."""
    found = use.found
    what = "guest physical page" if found.is_second else "page"
    table = fence_records.table_of(found.is_second, found.hgatp, found.atp)
    times = "" if use.count == 1 else f", {use.count:,} times from step {use.first.step} to step {use.last.step}"
    since = "before these steps" if use.since is None else f"at step {use.since}"
    now = use.now.replace("frame ", "").replace(" rights", "").split(" level")[0]
    lines = [f"first used by {shown(use.first)}",
             f"cached {since}: frame {found.frame:x} {found.rights}; the tables now give {now}"]
    if use.store:
        again = f", and {use.stores - 1} times more" if use.stores > 1 else ""
        lines.append(f"stale since the store to the entry at {use.entry:x} by {shown(use.store)}{again}")
    lines += use.fences
    if use.effect:
        lines.append(use.effect)
    words = f"{use.first.mode} uses a stale translation of {what} {found.page:x} ({table}){times}: " \
        "a fence is missing, or late"
    return Finding(Rank.STALE, use.first.step, words, lines, f"walk {found.page:x} --step {use.first.step}"
                   if not found.is_second else f"maps --step {use.first.step}")
