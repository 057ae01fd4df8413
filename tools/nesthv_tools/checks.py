"""What `rt check` says of the functions of a crate, and so of the bodies that were put into them."""
import re
from collections.abc import Iterator
from typing import NamedTuple

FUNCTION = re.compile(r"fn (\S+): (.*)")
REASON = re.compile(r"(?:note: )?(?:\./)?(?:src|specs|proofs)/\S+: |error")  # what begins a line that tells why
STOPPED = re.compile(r"antt ran out of |outgrew the memory limit|stopped at the step limit")
BY_VALUES = "allow values at which this goal is false"
BY_CALL = "it calls "  # a function is not proved only because one that it calls is not
NOT_COVERED = "does not cover this function"  # a function in a form that gets no goals
TOLD = ("error", "open", "gave up")  # a line with one of these tells why a crate is not proved


class Verdict(NamedTuple):
    """What the prover says of a body, and the line that tells why."""
    word: str
    why: str = ""


PROVED, VALUES, OPEN, LIMIT, BAD = "proved", "values", "open goal", "limit", "bad"


class Saying(NamedTuple):
    """What a check says of a function; nothing where it rests on another one."""
    function: str
    verdict: Verdict | None


def saying_of(function: str, text: str, before: list[str]) -> Saying:
    """What the line on a function says, after the lines before it."""
    if text == "proved":
        return Saying(function, Verdict(PROVED))
    if BY_CALL in text:
        return Saying(function, None)
    if NOT_COVERED in text:
        return Saying(function, Verdict(BAD, text))
    why = next((line for line in before if REASON.match(line)), text)
    return Saying(function, Verdict(VALUES if any(BY_VALUES in line for line in before) else OPEN, why))


def sayings(lines: list[str]) -> Iterator[Saying]:
    """What each line on a function says. The lines on why it is not proved stand before it."""
    before: list[str] = []
    for line in lines:
        found = FUNCTION.fullmatch(line)
        if found:
            yield saying_of(found[1], found[2], before)
            before = []
        else:
            before.append(line)


class Checked:
    """What a check of a crate says."""

    def __init__(self, crate: str, status: int, output: str) -> None:
        self.crate, self.status = crate, status
        self.lines = [line.strip() for line in output.splitlines() if line.strip()]
        self.sayings = list(sayings(self.lines))

    def why(self) -> str:
        """The line that tells why the crate is not proved."""
        told = [line for line in self.lines if any(word in line.lower() for word in TOLD)]
        return (told or self.lines or [f"rt check ended with status {self.status}"])[0]

    def of_path(self, path: str) -> list[Verdict | None]:
        """What it says of the functions that `--only` finds by this path, and of their closures."""
        found = re.compile(rf"{self.crate}(?:::\w+)*::{re.escape(path)}(?:::.*)?")
        return [verdict for function, verdict in self.sayings if found.fullmatch(function.replace("::fn::", "::"))]

    def of(self, paths: set[str]) -> Verdict | None:
        """What it says of the functions of these paths; nothing where it does not tell them from others."""
        if self.status == 0:
            return Verdict(PROVED)
        found = [self.of_path(path) for path in paths]
        verdicts = [verdict for part in found for verdict in part]
        refused = [verdict for verdict in verdicts if verdict and verdict.word != PROVED]
        if refused:
            return refused[0]
        return Verdict(PROVED) if all(found) and None not in verdicts else None

    def of_all(self) -> Verdict:
        """What it says of all that it was asked of, and does not prove. Where it refuses no function, and met no
        limit, it has judged nothing."""
        refused = [verdict for _, verdict in self.sayings if verdict and verdict.word != PROVED]
        if refused:
            return refused[0]
        limit = next((line for line in self.lines if STOPPED.search(line)), None)
        return Verdict(LIMIT, limit) if limit else Verdict(BAD, self.why())
