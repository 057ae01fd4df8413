"""The bytes of a guest's console by the log of nesthv-trace."""
from nesthv_tools import guest_runs

WINDOW = 1 << 15  # steps whose log takes as long as some runs, for each block of RAM


def step_with(runs: guest_runs.Runs, count: int, low: int, high: int) -> int | None:
    """The first step up to `high` at which the console has this many bytes, where at `low` it has fewer; or
    none where the log has fewer."""
    has = len(runs.told_at(low).console)
    for line in runs.logged(["calls"], low, high):
        has += line.kind == "put"
        if has == count:
            return line.step + 1
    return None
