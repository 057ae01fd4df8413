"""Whether a guest's report rests on a cached translation that it should have fenced. The standard permits a
machine to drop cached translations at any time. So where a run from which they were dropped ends in another
report, both are runs that the standard permits, and the guest's fences do not decide between them.

Where nesthv-trace tells which steps use a stale translation, those for V = 1, or those of satp, are dropped
before such a use alone: at the entry into V = 1 before it, or if it was cached later, where it is used.

Else they are dropped wherever there are some. Where a guest enters V = 1, those for V = 1 are dropped: of the
second stage, and of the first under vsatp. Those of satp are dropped after each trap that HS takes from
itself or from U, and, since a kernel may have few traps, at some steps evenly: at each where the run is
short.

A long run has too many of these places. There all are dropped at some steps evenly, all in one run, and only
where its report is another one is it found which drop changes it.
"""
import itertools
from collections.abc import Iterable, Iterator
from typing import Any

from nesthv_tools import (
    code_paths, guest_runs, parallel, reports, saves, searches, state_changes, visits, walks)
from nesthv_tools.sessions import Session

Page = tuple[int | walks.Key, int]  # whose it is, and its number
Stale = tuple[str, int | walks.Key, int, str, walks.Walk]

PROBES = 64  # steps, evenly, at which translations of satp are dropped
LONG = 1000000  # steps, of a run from which all are dropped at some steps in one run
SWEPT = 100  # of these steps


def without_translations(saved: saves.Saved) -> saves.Saved:
    """The state without any cached translation."""
    return saved.changed({}, [(key, []) for key, _ in saved.spaces], [])


class Drop:
    """The run that goes on after a step without cached translations: those for V = 1, or those of satp."""

    def __init__(self, runs: guest_runs.Runs, step: int, is_of_satp: bool = False) -> None:
        self.runs, self.step, self.is_of_satp, saved = runs, step, is_of_satp, runs.at(step)
        kept = [entry for entry in saved.first if bool(entry.v) == is_of_satp]
        empty: saves.Spaces = [(key, []) for key, _ in saved.spaces]
        self.saved = saved.changed({}, saved.spaces if is_of_satp else empty, kept)
        self.is_empty = spaces_are_empty(saved, is_of_satp) and len(kept) == len(saved.first)

    @classmethod
    def of_all(cls, runs: guest_runs.Runs, step: int) -> "Drop":
        """The run that goes on without any of them."""
        drop = cls(runs, step)
        drop.saved = without_translations(runs.at(step))
        return drop

    def line(self) -> guest_runs.Line:
        return guest_runs.Line(self.runs, self.step, self.saved)

    def report(self) -> bytes:
        with self.line() as line:
            return line.call("run", self.runs.last).read()

    def first_difference(self, end: int, tell: searches.Tell) -> "Difference | None":
        """The first state that differs from that of the guest's own run, as far as halves find it, with its
        step. The states before it are the run's own, and this one's."""
        with self.line() as line:
            def differs(step: int) -> bool:
                return bool(state_changes.differences(self.runs.at(step), line.at(step)))
            if not differs(end):
                return None
            step = searches.first_step(differs, self.step, end, tell)
            return Difference(step, [self.runs.at(step - 1), line.at(step - 1)],
                              [self.runs.at(step), line.at(step)])


class Sweep:
    """A run from which all cached translations are dropped at some steps evenly, from one step up to another
    one."""

    def __init__(self, runs: guest_runs.Runs, start: int, end: int, tell: searches.Tell) -> None:
        self.runs, self.end, self.tell = runs, end, tell
        self.places = sorted({start + (end - start) * part // SWEPT for part in range(SWEPT)})

    def report(self) -> bytes:
        """What comes of this run."""
        saved = self.runs.at(self.places[0])
        for step, after in itertools.pairwise(self.places):
            self.tell(step, self.end)
            with guest_runs.Line(self.runs, step, without_translations(saved)) as line:
                saved = line.at(after)
        with guest_runs.Line(self.runs, self.places[-1], without_translations(saved)) as line:
            return line.call("run", self.runs.last).read()

    def drops(self) -> Iterator[Drop]:
        """The drops, each alone, after which the state is another one at the next of these steps."""
        for step, after in itertools.pairwise([*self.places, self.end]):
            self.tell(step, self.end)
            drop = Drop.of_all(self.runs, step)
            with drop.line() as line:
                if state_changes.differences(self.runs.at(after), line.at(after)):
                    yield drop


def spaces_are_empty(saved: saves.Saved, is_of_satp: bool) -> bool:
    return is_of_satp or not any(entries for _, entries in saved.spaces)


def used_addresses(saved: saves.Saved) -> list[tuple[int, str]]:
    """The virtual addresses of the next step, each with the kind of access: pc, and the data of a load or
    store."""
    word, _, _ = walks.fetched(saved)
    data = None if word is None else data_address(saved, word)
    is_load = word is not None and (word & 0x7F == 0x03 or word & 0xF800007F == 0x1000002F)
    kind = walks.LOAD if is_load else walks.STORE
    return [(saved.numbers["pc"], walks.FETCH)] + ([] if data is None else [(data, kind)])


def used_pages(saved: saves.Saved) -> set[Page]:
    """What the next step uses of each stage. Of the second it is the guest physical pages of its first-stage
    entries, of pc and of data. Of the first it is the virtual pages that it has cached translations for. Each
    is told with whose it is: hgatp, or the key of the accesses."""
    view, pages = walks.View(saved), set[Page]()
    for address, kind in used_addresses(saved):
        translation = walks.Translation(view, address)
        places: list[int] = []
        between = translation.between
        if translation.is_by_first(kind):
            pages.add((view.key(), address >> 12))
            between = translation.cached_between
        elif translation.first:
            places = [met.place for met in translation.first.met]
        if view.is_nested:
            places += [between] if between is not None else []
            pages.update((view.hgatp, place >> 12) for place in places)
    return pages


def data_address(saved: saves.Saved, word: int) -> int | None:
    """The address that a load, store or atomic operation uses, or none where the word is not one."""
    kind = word & 0x7F
    if kind not in (0x03, 0x23, 0x2F):
        return None
    source, low = word >> 15 & 31, {0x03: word >> 20, 0x23: word >> 25 << 5 | word >> 7 & 31, 0x2F: 0}[kind]
    base = saved.numbers[f"x{source}"] if source else 0
    return base + code_paths.signed(low, 12) & 2**64 - 1


WHO = ("with them", "without them")


class Difference:
    """A step from which on two runs differ, the states before it and those after it."""

    def __init__(self, step: int, before: list[saves.Saved], after: list[saves.Saved]) -> None:
        self.step, self.before, self.after = step, before, after

    def differences(self) -> list[state_changes.Change]:
        return state_changes.differences(self.after[0], self.after[1])

    def stale(self) -> list[Stale]:
        """The stale translations that one of the two runs has, and the other has not: whose they are, the
        key, the page, how they differ in words, and the walk. Where the step uses some of them, only these.
        The key of one of the first stage has V, hgatp, and satp or vsatp.
        """
        found = self.all_stale() + self.all_first_stale()
        used = {each for saved in self.before for each in used_pages(saved)}
        return [each for each in found if each[1:3] in used] or found

    def all_stale(self) -> list[Stale]:
        found: list[Stale] = []
        held = [dict(saved.spaces) for saved in self.before]
        for number, who in enumerate(WHO):
            for key, page, words, walk in walks.stale_entries(self.before[number]):
                other = [entry for entry in held[1 - number].get(key, []) if entry[0] == page]
                own = [entry for entry in held[number][key] if entry[0] == page]
                if own != other:
                    found.append((who, key, page, words, walk))
        return found

    def all_first_stale(self) -> list[Stale]:
        return [(who, entry[:3], entry.page, words, walk) for number, who in enumerate(WHO)
                for entry, words, walk in walks.stale_first_entries(self.before[number])
                if entry not in self.before[1 - number].first]


def last_change(runs: guest_runs.Runs, walk: walks.Walk, step: int) -> tuple[int, int] | None:
    """The last step up to `step` that changed an entry which this walk met, as far as halves find it, and the
    entry's place. None where all are as at the start."""
    now, latest = runs.at(step), None
    for met in walk.met:
        value = now.word_at(met.place)
        changed = value is not None and searches.last_change(
            lambda each: runs.at(each).word_at(met.place) == value, runs.first, step)
        if changed and (latest is None or changed > latest[0]):
            latest = changed, met.place
    return latest


def value_of(session: Session, drop: Drop, plain: bytes, report: bytes,
             found: Difference | None) -> dict[str, Any]:
    """What is known of a drop that changes the report."""
    value: dict[str, Any] = {"dropped_at": [drop.step], "report": reports.differences(plain, report),
                             "step": None, "instruction": None, "line": None, "differences": [], "stale": []}
    if not found:
        return value
    value.update(step=found.step - 1, instruction=session.instruction(found.before[0]),
                 line=session.line(found.before[0]),
                 differences=[each.value() for each in found.differences()])
    for who, key, page, words, walk in found.stale():
        change = last_change(session.runs, walk, found.step - 1)
        before = session.runs.at(change[0] - 1) if change else None
        value["stale"].append({
            "who": who, **table_of(key), "page": page, "words": words, "entry": change[1] if change else None,
            "changed_at": change[0] - 1 if change else None,
            "changed_by": session.line(before) if before else None})
    return value


def table_of(key: int | walks.Key) -> dict[str, Any]:
    """Whose a cached translation is: the register of its table, its value, and hgatp beside vsatp."""
    if isinstance(key, int):
        return {"register": "hgatp", "key": key, "hgatp": None}
    v, hgatp, atp = key
    return {"register": "vsatp" if v else "satp", "key": atp, "hgatp": hgatp if v else None}


def lines_of(value: dict[str, Any]) -> list[str]:
    """What is known of a drop that changes the report."""
    step = value["dropped_at"][0]
    lines = [f"without the translations that are cached at step {step} the report differs:"]
    lines += [f"  {words}" for words in value["report"]]
    if value["line"] is None:
        return [*lines, "  where it comes from is not found: the states at the end are the same"]
    lines.append(f"the states differ from this step on: {value['line']}")
    lines += [f"  {state_changes.line_of(each, '|')}" for each in value["differences"]]
    for each in value["stale"]:
        under = "" if each["hgatp"] is None else f" under hgatp {each['hgatp']:x}"
        table = f"{each['register']} {each['key']:x}{under}"
        lines.append(f"  page {each['page'] << 12:x} of {table}, {each['who']}: {each['words']}")
        if each["changed_by"]:
            lines.append(f"    the entry at {each['entry']:x} was changed by {each['changed_by']}")
    if not value["stale"]:
        lines.append("  before it no cached translation is stale that one of the two runs has alone")
    return lines


def stale_places(runs: guest_runs.Runs, start: int, end: int) -> Iterator[tuple[int, bool]]:
    """Steps at which a drop changes by what the run goes on: those for V = 1, or those of satp."""
    entered = -1
    for line in runs.logged(["worlds", "stale"], runs.first, end):
        if line.kind == "enter":
            entered = line.step + 1
        elif line.kind == "stale" and line.step >= start:
            since = line.word("since")
            is_held = since == "before" or runs.first + int(since) < entered
            yield (entered if line.is_nested() and is_held else line.step), not line.is_nested()


def evenly(places: Iterable[tuple[int, bool]], most: int) -> list[tuple[int, bool]]:
    """At most `most` of these places, evenly."""
    kept, stride = list[tuple[int, bool]](), 1
    for number, place in enumerate(places):
        if number % stride == 0:
            kept.append(place)
        if len(kept) > most:
            kept, stride = kept[::2], 2 * stride
    return kept


class Search:
    """Drops cached translations after a step, up to a second one, one drop at a time and at most `most` of
    them, where that is not 0. `total` is how many there are: where stale translations are used, if the
    program tells that, else wherever there are some to drop. Counts the drops, and those that change the
    report. `cut` is the step of the first one that is left out, or none. Where the run is long, the program
    does not tell, and `most` is 0, `is_swept` says that the drops are made in one run first. `together` has
    what that changes of the report, where none of the drops alone changes it. With `is_spread` the places are
    at most `most` events and as many other steps, evenly, and none is left out."""

    def __init__(self, session: Session, start: int, end: int, most: int, is_spread: bool = False) -> None:
        self.session, self.start, self.end, self.most = session, start, end, most
        self.is_spread = is_spread
        self.count = 0
        self.changing: list[int] = []
        self.found: dict[int | None, dict[str, Any]] = {}
        self.cut: int | None = None
        self.tells_stale = session.runs.tells("stale")
        self.is_swept = not self.tells_stale and most == 0 and end - start > LONG
        self.together: list[str] = []
        self.total: int | None = None
        session.doing = self.progress

    def progress(self, low: int, high: int) -> str:
        made = f"now at step {low:,} of {high:,}" if self.total is None else \
            f"{self.count} of {self.total} made"
        return f"{self.shown()} the report so far, {made}"

    def shown(self) -> str:
        """How many drops change, of how many, with the verb."""
        count, changed = self.count, len(self.changing)
        verb = "changes" if changed == 1 or count == 1 else "change"
        return f"{changed} of {count} drop{'' if count == 1 else 's'} {verb}"

    def drops(self) -> Iterator[Drop]:
        runs, made = self.session.runs, set[tuple[int, bool]]()
        for place in self.places():
            drop = Drop(runs, *place)
            if drop.is_empty or place in made:
                continue
            if len(made) == self.most > 0 and not self.is_spread:
                self.cut = drop.step
                return
            made.add(place)
            yield drop

    def places(self) -> Iterable[tuple[int, bool]]:
        """The steps at which translations are dropped, and whether those of satp are."""
        if self.tells_stale:
            return self.stale_places()
        if not self.is_spread:
            return self.all_places()
        even = self.even_places() if self.session.runs.start.has_first() else iter(())
        return [*evenly(self.events(), self.most), *evenly(even, self.most)]

    def stale_places(self) -> list[tuple[int, bool]]:
        """The steps before uses of stale translations."""
        places = list(dict.fromkeys(stale_places(self.session.runs, self.start, self.end)))
        self.total = min(len(places), self.most or len(places))
        return places

    def all_places(self) -> Iterator[tuple[int, bool]]:
        """All steps at which there may be some to drop."""
        yield from self.events()
        if self.session.runs.start.has_first():
            yield from self.even_places()

    def events(self) -> Iterator[tuple[int, bool]]:
        """Steps at which those for V = 1, or those of satp, are dropped: entries into V = 1, and traps."""
        runs = self.session.runs
        for visit, trap in visits.visits_and_traps(runs, self.start, self.end, lambda low, high: None):
            if visit:
                yield visit.entry, False
            elif trap is not None:
                yield trap, True

    def even_places(self) -> Iterator[tuple[int, bool]]:
        """Steps at which those of satp are dropped, evenly, in HS and U."""
        runs, end = self.session.runs, min(self.end, self.session.end())
        for step in sorted({self.start + (end - self.start) * part // PROBES for part in range(PROBES)}):
            if not visits.is_nested(runs.at(step)):
                yield step, True

    def findings(self) -> Iterator[dict[str, Any]]:
        """Yields what is known of each drop that changes the report, but once where several lead to the same
        first difference."""
        plain = self.session.runs.call("run", self.session.guest.keys, self.session.guest.steps).read()
        if self.is_swept:
            yield from self.swept(plain)
            return
        for drop, report in parallel.in_order(lambda drop: (drop, drop.report()), self.drops()):
            self.count += 1
            self.session.tell(drop.step, self.end)
            if report != plain:
                yield from self.changes(drop, plain, report)

    def swept(self, plain: bytes) -> Iterator[dict[str, Any]]:
        """What is known of the first drop that changes the report, where one run with all of them does."""
        sweep = Sweep(self.session.runs, self.start, min(self.end, self.session.end()), self.session.tell)
        self.count = len(sweep.places)
        swept = sweep.report()
        if swept == plain:
            return
        for drop in sweep.drops():
            report = drop.report()
            if report != plain:
                self.cut = drop.step + 1
                yield from self.changes(drop, plain, report)
                return
        self.together = reports.differences(plain, swept)

    def changes(self, drop: Drop, plain: bytes, report: bytes) -> Iterator[dict[str, Any]]:
        """What is known of a drop with another report, unless its first difference is known."""
        self.changing.append(drop.step)
        difference = drop.first_difference(self.session.end(), self.session.tell)
        place = difference.step if difference else None
        if place in self.found:
            self.found[place]["dropped_at"].append(drop.step)
        else:
            self.found[place] = value_of(self.session, drop, plain, report, difference)
            yield self.found[place]


def shown(session: Session, start: int, end: int) -> int:
    """Prints whether dropped translations change the report, and where. The status is 1 where they do."""
    search = Search(session, start, end, session.options.most)
    for value in search.findings():
        if not session.options.json:
            print("\n".join(lines_of(value)), flush=True)
        if session.options.first:
            search.cut = search.changing[-1] + 1
            break
    changed, until = len(search.changing), search.cut
    if until is None and end < session.end():
        until = end
    where = "the end" if until is None else f"step {until}"
    is_cut = search.cut is not None and not session.options.first
    where += ": --most N looks at more" if is_cut or search.is_swept else ""
    line = f"{search.shown()} the report, {'all in one run, ' if search.is_swept else ''}up to {where}"
    steps = ", ".join(map(str, sorted(search.changing)))
    lines = [line + (f"; those at step {steps}" if changed > 1 else "")]
    if search.together:
        lines.append("but the run with all of them has another report:")
        lines += [f"  {words}" for words in search.together]
    if changed or search.together:
        lines.append("the standard permits each of these runs, and the guest's fences do not decide between "
                     "them")
    elif not search.count:
        at = "no step uses a cached translation that the tables do not give" if search.tells_stale else \
            "no translation is cached at an entry into V = 1"
        if session.runs.start.has_first() and not search.tells_stale:
            at += ", and none of satp at any other of these steps"
        lines.append(at + ", so there is nothing to drop")
    session.print({"drops": search.count, "changing": changed, "in_one_run": search.is_swept,
                   "together": search.together, "looked_up_to": until,
                   "found": list(search.found.values())}, lines)
    return int(bool(changed or search.together))
