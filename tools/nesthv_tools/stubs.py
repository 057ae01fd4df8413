"""The stub nesthv-gdb, asked without gdb by the packets of the remote serial protocol."""
import functools
import itertools
import os
import re
import resource
import struct
from collections.abc import Iterable, Sequence

from nesthv_tools import children, csrs, saves

NAME = "nesthv-gdb"
MOST_MEMORY = 512 << 20  # bytes of addresses; the stub keeps fewer states where it cannot have more
FIRST_CSR, PRIVILEGE = 65, 4161  # gdb's numbers of registers
MODES = {1: 0, 0: 1, 5: 2, 4: 3}  # of a saved guest, by the privilege
CSRS = {name: csrs.NUMBERS[name.partition(".")[0]] for name in saves.REGISTERS}
ANSWER = re.compile(rb"\$([^#]*)#..")
PLACE = re.compile(rb"at 0x([0-9a-f]{1,16})\b")
WORD = re.compile(rb"[0-9a-f]{8}")
READ = 1 << 16
GENERAL = [*(f"x{number}" for number in range(1, 32)), "pc"]  # in the order of gdb's numbers


class Ended(Exception):
    """The stub has ended, or does not answer as it should."""


def framed(payload: str) -> bytes:
    """The packet of a payload that needs no escape."""
    data = payload.encode()
    return b"$%s#%02x" % (data, sum(data) % 256)


class Stub:
    """A stub that shows the guest 0 of a configuration of a folder, whose names are relative to it."""

    def __init__(self, path: str, folder: str, config: str) -> None:
        self.came = b""
        try:
            self.process = children.start([path, config, "0"], folder)
        except OSError:
            raise Ended from None
        resource.prlimit(self.process.pid, resource.RLIMIT_AS, (MOST_MEMORY, MOST_MEMORY))

    def close(self) -> None:
        children.stop(self.process)

    def answers(self, payloads: Iterable[str]) -> list[bytes]:
        """The answers to these payloads, all of which are sent at once: they and their answers have some
        kilobytes, so that neither side waits for the other to read."""
        packets = [framed(payload) for payload in payloads]
        assert self.process.stdin
        try:
            self.process.stdin.write(b"".join(packets))
            self.process.stdin.flush()
        except OSError:
            raise Ended from None
        return self.next(len(packets))

    def next(self, count: int) -> list[bytes]:
        """The payloads of the next answers, as many as are asked for."""
        assert self.process.stdout
        while self.came.count(b"#") < count or len(self.came) - self.came.rfind(b"#") < 3:
            data = os.read(self.process.stdout.fileno(), READ)
            if not data:
                raise Ended
            self.came += data
        found = list(itertools.islice(ANSWER.finditer(self.came), count))
        if len(found) < count:
            raise Ended
        self.came = self.came[found[-1].end():] if found else self.came
        return [each[1] for each in found]

    def monitored(self, words: str) -> int:
        """The position that the stub tells in answer to words after `monitor`."""
        answer, = self.answers([monitor(words)])
        return position_in(answer)

    def numbers(self, names: Sequence[str] = tuple(CSRS)) -> dict[str, int]:
        """The integer registers, pc, the mode, and these control and status registers, as a saved guest has
        them."""
        return numbers_in(self.answers(questions(names)), names)

    def numbers_at(self, places: Sequence[int], names: Sequence[str]) -> list[dict[str, int]]:
        """These of the states at some positions, which are few."""
        asked = [question for place in places for question in (monitor(f"goto {place}"), *questions(names))]
        answers, found = self.answers(asked), []
        size = len(names) + 3
        for at, place in enumerate(places):
            told, *rest = answers[at * size:(at + 1) * size]
            if position_in(told) != place:
                raise Ended
            found.append(numbers_in(rest, names))
        return found


    def places_at(self, asked: Sequence[tuple[int, int]]) -> list[int | None]:
        """The physical addresses that the tables have for virtual ones, each in the mode of the state at a
        position, or none. They are few."""
        answers = self.answers_at([(place, monitor(f"walk {address:#x}")) for place, address in asked])
        found = [PLACE.search(text_in(answer)) for answer in answers]
        return [int(there[1], 16) if there else None for there in found]

    def words_at(self, asked: Sequence[tuple[int, int]]) -> list[int | None]:
        """The words at virtual addresses, each in the mode of the state at a position, or none where it
        cannot be read. They are few."""
        answers = self.answers_at([(place, f"m{address:x},4") for place, address in asked])
        return [int.from_bytes(bytes.fromhex(answer.decode()), "little") if WORD.fullmatch(answer) else None
                for answer in answers]

    def answers_at(self, asked: Sequence[tuple[int, str]]) -> list[bytes]:
        """The answers to payloads, each in the state at a position."""
        answers = self.answers(payload for place, question in asked
                               for payload in (monitor(f"goto {place}"), question))
        if any(position_in(told) != place for (place, _), told in zip(asked, answers[::2])):
            raise Ended
        return answers[1::2]


def text_in(answer: bytes) -> bytes:
    """The text of an answer to `monitor`; nothing where it is none."""
    try:
        return bytes.fromhex(answer.decode())
    except ValueError:
        return b""


def monitor(words: str) -> str:
    """The payload of words after `monitor`."""
    return f"qRcmd,{words.encode().hex()}"


def position_in(answer: bytes) -> int:
    """The position that an answer tells."""
    try:
        return int(bytes.fromhex(answer.decode()).split()[1])
    except (ValueError, IndexError):
        raise Ended from None


@functools.lru_cache
def questions(names: Sequence[str]) -> list[str]:
    """What asks for the integer registers and pc, the mode, and registers by name."""
    return ["g", f"p{PRIVILEGE:x}", *(f"p{FIRST_CSR + CSRS[name]:x}" for name in names)]


def numbers_in(answers: list[bytes], names: Sequence[str]) -> dict[str, int]:
    """The numbers in the answers to these questions, by name. Those of registers are little endian."""
    try:
        _, *found = struct.unpack("<33Q", bytes.fromhex(answers[0].decode()))
        rest = bytes.fromhex(b"".join(answers[1:]).decode())
        privilege, *others = struct.unpack(f"<{1 + len(names)}Q", rest)
        values = dict(zip(names, others))
        mode = MODES[privilege]
    except (ValueError, KeyError, struct.error):
        raise Ended from None
    if "sip.SSIP" in values:
        values["sip.SSIP"] = values["sip.SSIP"] >> 1 & 1
    return {**dict(zip(GENERAL, found)), "mode": mode, **values}
