"""Asks nesthv-trace for the logs of the cases, whole and on streams that close behind each byte."""
import case_runs
from case_files import End, Script
from case_runs import Difference, Folder, Left, Outcome, Programs
from trace_cases import Case

SAVE = ("nesthv", "save", "k", "0")
WRITE_FAULT = End(4, "nesthv: write fault")


def check_left(log: bytes, end: End, left: Left) -> None:
    if left.out != log:
        raise Difference(case_runs.differing(log, left.out))
    if (left.status, left.err) != (end.status, end.err):
        raise Difference(f"status {end.status} and `{end.line}` is wanted, status {left.status} and "
                         f"`{case_runs.shown(left.err)}` came")


def check_log(programs: Programs, case: Case, folder: Folder, outcome: Outcome) -> None:
    for index, files in enumerate(case.saves):
        folder.write(files)
        folder.saves[index] = case_runs.run(programs.nesthv, SAVE, folder).out
    folder.write(case.files)
    check_left(case.log, case.end, case_runs.run(programs.trace, case.words, folder, case.script))
    for room in range(len(case.log) if case.is_cut and case.end.status == 0 else 0):
        left = case_runs.run(programs.trace, case.words, folder, Script(), room)
        outcome.count("cuts")
        try:
            check_left(case.log[:room], WRITE_FAULT, left)
        except Difference as difference:
            raise Difference(f"closed behind {room} bytes: {difference}") from None


def check(programs: Programs, case: Case) -> Outcome:
    """Where a case differs."""
    outcome = Outcome()
    outcome.count("cases")
    outcome.count("lines", len(case.lines))
    with outcome.told(case.at, case.name), case_runs.folder() as folder:
        case_runs.check_possible(case.words, case.script)
        check_log(programs, case, folder, outcome)
    return outcome
