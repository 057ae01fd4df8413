"""Asks nesthv what the cases of the command say, and compares the words, the status and the streams."""
import re
import tomllib
from collections.abc import Iterator

import case_files
import case_runs
from case_files import Content
from case_runs import Difference, Folder, Left, LeftOut, Outcome, Programs
from command_cases import Ask, Case, Row, Table

ZEROS = re.compile(rb"\0{16,}|(?:(?!\0{16}).)+", re.DOTALL)
SAVE = re.compile(r"out (\d+) bytes, sum 0x([0-9a-f]+)")
ESCAPE = re.compile(rb"\\x([0-9a-f]{2})")
PRIME = 0x100_0000_01B3
# The commands that refuse a configuration.
COMMANDS = (("nesthv", "check", "k"), ("nesthv", "run", "k"), ("nesthv", "replay", "k", "r"))


def fnv(data: bytes) -> int:
    """The FNV-1a sum of 64 bits."""
    value = 0xCBF2_9CE4_8422_2325
    for run in ZEROS.finditer(data):
        piece = run.group()
        if piece[0] == 0 and piece[-1] == 0 and len(piece) >= 16:
            value = value * pow(PRIME, len(piece), 1 << 64) % (1 << 64)
            continue
        for byte in piece:
            value = (value ^ byte) * PRIME % (1 << 64)
    return value


def stream_of(lines: tuple[str, ...], name: str) -> bytes:
    """The bytes of a stream that stand in the lines of an answer behind its name."""
    data = b""
    for line in lines:
        word, _, text = line.partition(" ")
        if word.removesuffix("..") == name:
            data += text.encode() + b"\n" * (not word.endswith(".."))
    return ESCAPE.sub(lambda found: bytes((int(found.group(1), 16),)), data)


def saved_in(ask: Ask) -> tuple[int, int] | None:
    """How many bytes of a saved guest an ask wants, and their sum; none where it wants no such bytes."""
    found = (SAVE.fullmatch(line) for line in ask.wanted.streams)
    return next(((int(each.group(1)), int(each.group(2), 16)) for each in found if each), None)


def room_for(ask: Ask) -> tuple[int | None, int | None]:
    """How many bytes the streams of an ask take, where they fail: those that are wanted."""
    saved = saved_in(ask)
    out = saved[0] if saved else len(stream_of(ask.wanted.streams, "out"))
    err = len(stream_of(ask.wanted.streams, "err"))
    return out if ask.script.out.put else None, err if ask.script.err.put else None


def check_left(ask: Ask, left: Left, first: bytes | None) -> None:
    """Compares what a run of an ask has left with what is wanted, and a save with that of the first run."""
    if ask.script.out.put and left == Left(0, stream_of(ask.wanted.streams, "out"), b""):
        raise LeftOut("a put that fails once it has taken the last byte of all")
    err, saved = stream_of(ask.wanted.streams, "err"), saved_in(ask)
    if left.err != err:
        raise Difference(f"err: {case_runs.differing(err, left.err)}")
    if left.status != ask.wanted.status:
        raise Difference(f"status {ask.wanted.status} is wanted, {left.status} came")
    if saved is None:
        out = stream_of(ask.wanted.streams, "out")
        if left.out != out:
            raise Difference(f"out: {case_runs.differing(out, left.out)}")
    elif left.out != first and (len(left.out), fnv(left.out)) != saved:
        raise Difference(f"{saved[0]} bytes with the sum 0x{saved[1]:x} are wanted, "
                         f"{len(left.out)} with the sum 0x{fnv(left.out):x} came")


def check_ask(program: str, ask: Ask, index: int, folder: Folder) -> None:
    """Makes all runs of an ask."""
    case_runs.check_possible(ask.words, ask.script)
    room, err_room = room_for(ask)
    for run in ask.runs:
        folder.write({**ask.files, "k": run.configuration})
        left = case_runs.run(program, ask.words, folder, ask.script, room, err_room)
        try:
            check_left(ask, left, folder.saves.get(index))
        except Difference as difference:
            raise Difference(f"{ask.text}: {run.name}: {difference}") from None
        if saved_in(ask):
            folder.saves.setdefault(index, left.out)


def check_case(programs: Programs, case: Case) -> Outcome:
    """Where a case differs. An ask that can't be run is counted, and the ones behind it are run."""
    outcome = Outcome()
    outcome.count("cases")
    with case_runs.folder() as folder:
        for index, ask in enumerate(case.asks):
            outcome.count("asks")
            outcome.count("lines of the inside", len(ask.wanted.inside))
            with outcome.told(ask.at, case.name):
                check_ask(programs.nesthv, ask, index, folder)
                outcome.count("runs", len(ask.runs))
    return outcome


def named_files(configuration: bytes) -> Iterator[str]:
    """The files that a configuration names."""
    for guest in tomllib.loads(configuration.decode()).get("guest", []):
        for key in ("image", "resume", "input"):
            if isinstance(guest.get(key), str):
                yield guest[key]


def checked(program: str, folder: Folder, configuration: bytes, is_accepted: bool,
            words: tuple[str, ...] = COMMANDS[0]) -> Left:
    """What a command makes of a configuration. Where it is accepted its files are there, and are empty. Otherwise they
    are not: a command that read one would tell it."""
    files: dict[str, Content] = {name: () for name in named_files(configuration)} if is_accepted else {}
    folder.write({**files, "k": case_files.pieces_of(configuration)})
    return case_runs.run(program, words, folder)


def check_row(program: str, row: Row, folder: Folder) -> None:
    is_accepted = row.wanted == "accepted"
    left = checked(program, folder, row.configuration, is_accepted)
    came = "accepted" if left.status == 0 else case_runs.shown(left.err.removeprefix(b"nesthv: ").removesuffix(b"\n"))
    if came != row.wanted:
        raise Difference(f"{row.text}: `{row.wanted}` is wanted, `{came}` came")
    for words in () if is_accepted else COMMANDS:
        refused = checked(program, folder, row.configuration, False, words)
        if refused != Left(2, b"", left.err):
            raise Difference(f"{row.text}: {words[1]} says `{case_runs.shown(refused.err)}`, with status "
                             f"{refused.status}, and check `{case_runs.shown(left.err)}`")
    if row.changed is not None:
        other = checked(program, folder, row.changed, is_accepted)
        if other != left:
            raise Difference(f"{row.text}: in format 2 comes `{case_runs.shown(other.err)}`, status {other.status}")


def check_table(programs: Programs, table: Table) -> Outcome:
    outcome = Outcome()
    outcome.count("tables")
    with case_runs.folder() as folder:
        for row in table.rows:
            outcome.count("rows")
            with outcome.told(row.at, table.name):
                check_row(programs.nesthv, row, folder)
    return outcome


def check(programs: Programs, case: Case | Table) -> Outcome:
    """Where a case or a table differs."""
    return check_table(programs, case) if isinstance(case, Table) else check_case(programs, case)
