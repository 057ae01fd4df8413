"""Talks with nesthv-gdb as the cases of the debugger say, whole and cut, and compares what it answers."""
import contextlib
import os
import re
import select
import socket
import subprocess
import tempfile
import time
from collections.abc import Iterator
from dataclasses import dataclass, replace
from typing import IO

import case_runs
from case_files import End
from case_runs import Difference, Folder, Left, Outcome, Programs
from gdb_cases import Case, Row, packet

DONE = End()
READ_FAULT = End(3, "nesthv: read fault 0")
WRITE_FAULT = End(4, "nesthv: write fault")
# What no case can say: the program has its own description.
DESCRIPTION = re.compile(rb"\$qXfer:features:read:target\.xml:[0-9a-f]+,[0-9a-f]+#[0-9a-f]{2}")
PART = re.compile(rb"\+(\$[ml].*#[0-9a-f]{2})", re.DOTALL)
ROOM = 1 << 16


@dataclass(frozen=True)
class Rows:
    """What gdb says in a talk, and what is answered."""
    rows: tuple[Row, ...]
    leaves: int | None

    @property
    def coming(self) -> bytes:
        return b"".join(row.coming for row in self.rows)

    @property
    def answers(self) -> bytes:
        return b"".join(row.answer for row in self.rows)

    def left(self) -> int | None:
        """How many bytes come before gdb leaves, if it does."""
        return None if self.leaves is None else sum(len(row.coming) for row in self.rows[:self.leaves])

    def have_left(self, coming: int) -> bool:
        left = self.left()
        return left is not None and left <= coming

    def allow(self, coming: int, said: bytes) -> bool:
        """Whether this is what is answered when no more than a number of bytes comes: all to the rows that have come
        whole, and of a row that has not, nothing of a packet and a front of any other."""
        came = least = 0
        for row in self.rows:
            came += len(row.coming)
            if came > coming:
                most = least if row.is_packet else least + len(row.answer)
                return self.answers.startswith(said) and least <= len(said) <= most
            least += len(row.answer)
        return said == self.answers


@dataclass
class Talk:
    """A talk over pipes with a program that has been started."""
    process: subprocess.Popen[bytes]
    # What the kernel tells of the process, both ends of the pipe to it, and what it answers.
    state: IO[bytes]
    reading: IO[bytes]
    writing: IO[bytes]
    answers: IO[bytes]
    said: bytes = b""

    def say(self, data: bytes) -> None:
        """Sends these bytes, and waits until the program has read them and waits for more, or has ended."""
        self.writing.write(data)
        spins = 0
        while not self.is_waiting():
            spins += 1
            if spins > 100:
                time.sleep(min(spins / 1e6, 0.01))
                self.hear()
            if spins > 100 * case_runs.LIMIT:
                raise Difference("answers nothing and does not wait")
        self.hear()

    def is_waiting(self) -> bool:
        """Whether the program has read all, and waits for more, or has ended. It writes to a pipe with room, so it waits
        for nothing but bytes."""
        try:
            state = os.pread(self.state.fileno(), 512, 0).rpartition(b") ")[2][:1]
        except ProcessLookupError:
            return True
        return state in b"ZX" or (state == b"S" and case_runs.unread(self.reading) == 0)

    def hear(self) -> None:
        """Takes what has been answered."""
        while select.select([self.answers], [], [], 0)[0]:
            data = self.answers.read(ROOM)
            if not data:
                return
            self.said += data


@contextlib.contextmanager
def talk(program: str, case: Case, folder: Folder, err: IO[bytes]) -> Iterator[Talk]:
    """Starts a program for a talk. The pipe that it reads from is held open, so that what it has not read is known."""
    (reading, writing), (answers, answering) = case_runs.pipe(), case_runs.pipe()
    with reading, writing, answers:
        with answering:
            process = case_runs.start(program, case.words, folder.path, reading, answering, err)
        with process, open(f"/proc/{process.pid}/stat", "rb", buffering=0) as state:
            try:
                yield Talk(process, state, reading, writing, answers)
            finally:
                process.kill()


def ended(talking: Talk, err: IO[bytes]) -> Left:
    """What a talk leaves once nothing more comes."""
    talking.writing.close()
    status = case_runs.ended(talking.process)
    talking.hear()
    return Left(status, talking.said, case_runs.taken(err))


def is_ended(end: End, left: Left) -> bool:
    return (left.status, left.err) == (end.status, end.err)


def told_end(left: Left) -> str:
    return f"status {left.status} and `{case_runs.shown(left.err)}`"


def check_end(end: End, left: Left) -> None:
    if not is_ended(end, left):
        wanted = f"status {end.status} and `{end.line}`"
        raise Difference(f"{wanted} is wanted, {told_end(left)} came")


def check_whole(program: str, case: Case, rows: Rows, folder: Folder) -> Rows:
    """Checks the answer to each row, which comes alone, and how the talk ends. Gives the rows with what has been
    answered where the target description was read."""
    answered: list[Row] = []
    with case_runs.stream() as err, talk(program, case, folder, err) as talking:
        talking.say(b"")
        for row in rows.rows:
            before = len(talking.said)
            talking.say(row.coming)
            answered.append(row_answered(row, talking.said[before:]))
        unread = case_runs.unread(talking.reading)
        left = ended(talking, err)
    if left.out != b"".join(row.answer for row in answered):
        raise Difference(f"more is said at the end: `{case_runs.shown(left.out)}`")
    check_end(case.end, left)
    if rows.leaves is not None and unread != sum(len(row.coming) for row in rows.rows[rows.leaves:]):
        raise Difference(f"{unread} bytes are not read, behind the row by which gdb leaves")
    return replace(rows, rows=tuple(answered))


def row_answered(row: Row, said: bytes) -> Row:
    """The row, where this is its answer."""
    part = PART.fullmatch(said)
    if reads_description(row) and part and packet(part.group(1)[1:-3]) == part.group(1):
        return replace(row, answer=said)
    if said != row.answer:
        raise Difference(f"line {row.at.number}: {row.text}: `{case_runs.shown(said)}` came, with the sum, and "
                         f"`{case_runs.shown(row.answer)}` is wanted")
    return row


def reads_description(row: Row) -> bool:
    return DESCRIPTION.fullmatch(row.coming) is not None


def check_bytes(program: str, case: Case, rows: Rows, folder: Folder) -> None:
    """Each byte comes alone. What had come before it is answered by then, and no more."""
    coming = rows.coming
    with case_runs.stream() as err, talk(program, case, folder, err) as talking:
        for place in range(len(coming)):
            talking.say(coming[place:place + 1])
            if not rows.allow(place + 1, talking.said):
                raise Difference(f"each byte alone: behind {place + 1} bytes: `{case_runs.shown(talking.said)}`")
        left = ended(talking, err)
    if left.out != rows.answers:
        raise Difference(f"each byte alone: `{case_runs.shown(left.out)}` is said")
    check_end(DONE, left)


def given(data: bytes) -> IO[bytes]:
    """A file to read these bytes from."""
    file = tempfile.TemporaryFile(buffering=0)
    file.write(data)
    file.seek(0)
    return file


def reset(data: bytes) -> IO[bytes]:
    """A socket from which these bytes can be read, and then a read fails: the other end has been closed with a byte
    that it had not read (ECONNRESET)."""
    other, own = socket.socketpair()
    with other, own:
        own.send(b"x")
        other.sendall(data)
        return open(os.dup(own.fileno()), "rb", buffering=0)


def left_by(program: str, case: Case, folder: Folder, coming: IO[bytes], room: int = case_runs.MOST) -> Left:
    """What a talk leaves of which all comes at once, from a file or a socket."""
    with coming, case_runs.stream(room) as out, case_runs.stream() as err:
        status = case_runs.ended(case_runs.start(program, case.words, folder.path, coming, out, err))
        return Left(status, case_runs.taken(out, room), case_runs.taken(err))


def check_cut(what: str, left: Left, end: End, is_allowed: bool) -> None:
    if not is_allowed or not is_ended(end, left):
        raise Difference(f"{what}: {told_end(left)} came, behind `{case_runs.shown(left.out)}`")


def check_cuts(program: str, case: Case, rows: Rows, folder: Folder, outcome: Outcome) -> None:
    """A read that fails in the middle of each row, a write that does in the middle of each answer, and the end behind
    each byte."""
    came = answered = 0
    for row in rows.rows:
        place, room = came + len(row.coming) // 2, answered + len(row.answer) // 2
        left = left_by(program, case, folder, reset(rows.coming[:place]))
        end = DONE if rows.have_left(place) else READ_FAULT
        check_cut(f"a read fault behind {place} bytes", left, end, rows.allow(place, left.out))
        left = left_by(program, case, folder, given(rows.coming), room)
        end = WRITE_FAULT if room < len(rows.answers) else DONE
        check_cut(f"a write fault behind {room} bytes", left, end, left.out == rows.answers[:room])
        came, answered = came + len(row.coming), answered + len(row.answer)
        outcome.count("cuts", 2)
    for place in range(len(rows.coming)):
        left = left_by(program, case, folder, given(rows.coming[:place]))
        check_cut(f"the end behind {place} bytes", left, DONE, rows.allow(place, left.out))
        outcome.count("cuts")


def check(programs: Programs, case: Case) -> Outcome:
    """Where a case differs."""
    outcome = Outcome()
    outcome.count("cases")
    outcome.count("rows", len(case.rows))
    outcome.count("rows of the description", sum(map(reads_description, case.rows)))
    with outcome.told(case.at, case.name), case_runs.folder() as folder:
        case_runs.check_possible(case.words, case.script)
        folder.write(case.files)
        if case.end.status != 0:
            check_end(case.end, case_runs.run(programs.gdb, case.words, folder, case.script))
            return outcome
        rows = check_whole(programs.gdb, case, Rows(case.rows, case.leaves), folder)
        check_bytes(programs.gdb, case, rows, folder)
        outcome.count("cuts")
        if case.is_cut:
            check_cuts(programs.gdb, case, rows, folder, outcome)
    return outcome
