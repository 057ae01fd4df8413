"""Where a run comes to the handlers of traps, as the stub nesthv-gdb sees it: by pc alone, so that such an
arrival need not be a trap.
"""
from nesthv_tools import guest_runs, saves, stubs

WINDOWS = (1 << 16, 1 << 21)  # steps in which the last arrival is looked for
STOPPED = b"T05"


def handlers_of(saved: saves.Saved) -> list[int]:
    """The addresses to which traps go in a state: those of stvec and vstvec, and of their vectors."""
    found = []
    for name in ("stvec", "vstvec"):
        base, is_vectored = saved.numbers[name] & ~3, saved.numbers[name] & 1
        found += [base + 4 * code for code in (range(16) if is_vectored else (0,))]
    return list(dict.fromkeys(address % 2**64 for address in found))


def last_arrival(runs: guest_runs.Runs, end: int) -> int | None:
    """The last step up to `end` after which pc is at a handler that is set at the end. None where the last
    steps have none, or there is no stub."""
    saved = runs.at(end)
    handlers = handlers_of(saved)
    if saved.numbers["pc"] in handlers:
        return end
    for window in WINDOWS if runs.stub else ():
        start = max(runs.first, end - window)
        try:
            found = last_between(runs, start, end, handlers)
        except stubs.Ended:
            return None
        if found is not None or start == runs.first:
            return found
    return None


def last_between(runs: guest_runs.Runs, start: int, end: int, handlers: list[int]) -> int | None:
    """The last step from one on, before a second one, after which pc is one of these addresses; or none."""
    with guest_runs.Line(runs, start, runs.at(start)) as line, line.stub(end) as stub:
        stub.answers(f"Z0,{address:x},4" for address in handlers)
        if stub.monitored(f"goto {end - start}") != end - start:
            raise stubs.Ended
        is_found = stub.answers(["bc"]) == [STOPPED]
        return start + stub.monitored("step 0") if is_found else None
