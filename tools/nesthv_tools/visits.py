"""The visits of a run to V = 1, and what a hypervisor has changed between two of them for its guest."""
from collections.abc import Iterator

from nesthv_tools import guest_runs, logged_traps, registers_at, saves, searches, state_changes
from nesthv_tools.logged_traps import Visit

# What VS and VU see: the mode and pc, integer registers, those of VS, and what the hypervisor sets for them.
SEEN = ["mode", "pc", *(f"x{number}" for number in range(1, 32)),
        *(name for name in saves.REGISTERS if name.startswith("vs")),
        "hedeleg", "hideleg", "hie", "hvip", "hcounteren", "henvcfg", "htimedelta"]


def is_nested(saved: saves.Saved) -> bool:
    return saved.mode() in ("VS", "VU")


def visits_and_traps(runs: guest_runs.Runs, start: int, end: int,
                     tell: searches.Tell) -> Iterator[tuple[Visit | None, int | None]]:
    """The visits to V = 1 that begin after a step, up to a second one, and the steps after traps into HS
    with V = 0. They are in order, each visit with no step, and each step with no visit. Between two traps
    into HS there is at most one visit."""
    if runs.tracer:
        yield from logged_traps.visits_and_traps(runs, start, end)
    else:
        yield from by_states(runs, start, end, tell)


def by_states(runs: guest_runs.Runs, start: int, end: int,
              tell: searches.Tell) -> Iterator[tuple[Visit | None, int | None]]:
    """The same, found by states."""
    finder, step = searches.Traps(runs, ("stvec",), tell), start
    while step < end:
        trap = finder.next(step, end)
        high = trap.step - 1 if trap else end
        if not is_nested(runs.at(step)) and is_nested(runs.at(high)):
            entry = searches.first_step(lambda each: is_nested(runs.at(each)), step, high)
            yield Visit(entry, high if trap else None), None
        elif trap and not is_nested(runs.at(high)):
            yield None, trap.step
        step = trap.step if trap else end


def visits_of(runs: guest_runs.Runs, start: int, end: int, tell: searches.Tell) -> Iterator[Visit]:
    """These visits alone."""
    return (visit for visit, _ in visits_and_traps(runs, start, end, tell) if visit)


def changes(before: registers_at.State, after: registers_at.State) -> list[state_changes.Change]:
    """What the guest's guest sees changed from one state to another."""
    return [state_changes.change_of(name, before.numbers[name], after.numbers[name]) for name in SEEN
            if before.numbers[name] != after.numbers[name]]
