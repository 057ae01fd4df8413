"""Prints what hardware may use of stale translations, by the standard, in the steps that are asked for."""
from nesthv_tools import followed_runs, possible_uses, shown_places
from nesthv_tools.fence_records import Fences
from nesthv_tools.findings import worst_first
from nesthv_tools.sessions import Bad, Session
from nesthv_tools.wording import counted

LIMITS = "it does not track translations of pages that no step has used, nor those that HLV, HLVX and HSV use"


def shown(session: Session, start: int, end: int) -> int:
    """Prints each such use, once for each page and store, and what the standard permits. The status is 1 where there is
    one."""
    if not session.runs.tracer:
        raise Bad("fences --strict goes by the log of nesthv-trace, which does not stand beside "
                  f"{session.program.path}")
    run, fenced = followed_runs.Run(session.runs.at(start)), Fences()
    possible = possible_uses.Uses(run, fenced)
    run.watchers += [fenced, possible]
    followed_runs.follow(session.runs, run, start, end, lambda step: session.tell(step, end))
    found = worst_first(possible.findings(lambda place: shown_places.line_of(session, place), lambda *_: False))
    notes = list(possible.notes())
    lines = [line for number, each in enumerate(found, 1) for line in each.lines(number)]
    lines += [f"permitted: {note}" for note in notes]
    lines.append(f"{counted(len(possible.found), 'use')} of a translation that hardware may have as it was, in "
                 f"{counted(end - start, 'step')}; {LIMITS}")
    session.print({"found": [each.value() for each in found], "permitted": notes, "limits": LIMITS}, lines)
    return int(bool(found))
