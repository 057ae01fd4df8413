"""What `explore` finds: failing trials by their places, in words, and in a folder that keeps them."""
import glob
import json
import os
from typing import Any, NamedTuple

from nesthv_tools import guest_runs, saves, walks, whole_files, wording, world_symbols
from nesthv_tools.sessions import Session
from nesthv_tools.trial_failures import Failure, Rank
from nesthv_tools.trials import Trial, world_of

NEXT_TO_IT = ("timer", "input", "late")  # events between two instructions


class Bad(Exception):
    """Why a folder of kept findings cannot be taken, in words."""


class At(NamedTuple):
    """A place at which a trial failed: the world, pc, its name, the name of the instruction before it
    where that is the one in front, and the file and line it comes from with the text of the line."""
    world: tuple[str, int]
    pc: int
    name: str
    before: str
    source: str


class Names:
    """Names places of a run by its symbols."""

    def __init__(self, session: Session) -> None:
        self.session, self.texts = session, dict[str, list[str]]()
        self.known: dict[tuple[str, int], str] = {}

    def name(self, saved: saves.Saved) -> str:
        """The place of the next instruction of a state, by its function, or by pc."""
        found = self.session.instruction(saved)["symbol"].partition(" ")[0]
        mode, hgatp = world_of(saved)
        word = found or f"{saved.numbers['pc']:x}"
        self.known[mode, saved.numbers["pc"]] = word
        return word if mode in ("HS", "U") else f"{word} in {wording.guest_of(hgatp)}"

    def of(self, mode: str, pc: int) -> str:
        """The place of a mode and pc, whose state isn't at hand."""
        known = self.known.get((mode, pc))
        symbols = self.session.symbols
        code = next((each for each in symbols.own if mode in ("HS", "U") and each.has(pc)), None)
        return known or (code.elf.symbol_at(pc) if code else f"{pc:x}")

    def at(self, saved: saves.Saved, before: saves.Saved | None) -> At:
        """The place of a state, with the one before it."""
        number = saved.numbers
        is_behind = before and world_of(before) == world_of(saved) \
            and before.numbers["pc"] + 4 == number["pc"]
        name = self.name(before) if is_behind and before else ""
        return At(world_of(saved), number["pc"], self.name(saved), name, self.source(saved))

    def source(self, saved: saves.Saved) -> str:
        """The line of the source of the next instruction, with its text where the source can be read."""
        word, physical, _ = walks.fetched(saved)
        symbols = self.session.symbols
        for code in [*symbols.own, *symbols.nested] if word is not None and physical is not None else []:
            for address in world_symbols.places_in(code, saved.numbers["pc"], word or 0):
                frames = symbols.lines[code].of(address)
                if frames:
                    return f"{os.path.basename(frames[0].file)}:{frames[0].line}{self.text(*frames[0][1:])}"
        return ""

    def text(self, path: str, line: int) -> str:
        """The text of a line of a source, after a comma."""
        if path not in self.texts:
            try:
                with open(path, encoding="utf-8", errors="replace") as file:
                    self.texts[path] = file.read().splitlines()
            except OSError:
                self.texts[path] = []
        lines = self.texts[path]
        return f', "{lines[line - 1].strip()}"' if 0 < line <= len(lines) else ""


class Finding:
    """Trials that fail in the same way: a kind, the places, the failures, the number of trials, the first
    one, and the lines that explain it."""

    def __init__(self, kind: str, at: At, failures: list[Failure], first: Trial, lines: list[str]) -> None:
        self.kind, self.places, self.failures, self.first, self.lines = kind, [at], failures, first, lines
        self.count = 1
        self.second: Trial | None = None  # with --twice

    def key(self) -> tuple[Any, ...]:
        words = tuple(each.rank if each.rank == Rank.CONSOLE else each for each in self.failures)
        return self.kind, self.places[0].world, words, self.second is not None

    def take(self, other: "Finding") -> None:
        """Takes the trials of another one, whose places follow."""
        self.places += other.places
        self.count += other.count
        if other.first.step < self.first.step:
            self.first, self.lines, self.second = other.first, other.lines, other.second

    def place(self) -> str:
        """The places in words."""
        first, last = self.places[0], self.places[-1]
        source = last.source
        where = f"between {first.before} and {last.name}" if self.kind in NEXT_TO_IT and first.before else \
            f"from {first.name} to {last.name}" if len(self.places) > 1 else \
            f"before {last.name}" if self.kind in NEXT_TO_IT else f"at {last.name}"
        mode, hgatp = first.world
        inside = f"in {'the guest of ' if hgatp else ''}{wording.guest_of(hgatp)}, " if mode[0] == "V" else ""
        where = where.replace(f" in {wording.guest_of(hgatp)}", "") if inside else where
        return f"{inside}{where}" + (f" ({source})" if source else "")

    def words(self) -> str:
        runs = "1 run; at" if self.count == 1 else f"{self.count:,} runs; the first at"
        also = f", then {self.second.kind} at step {self.second.step}" if self.second else ""
        failed = "; ".join(each.words for each in self.failures)
        return f"{self.kind} {self.place()}: {failed} ({runs} step {self.first.step}{also})"

    def stem(self) -> str:
        """The name of what is kept of it."""
        also = f"-{self.second.kind}-{self.second.step}" if self.second else ""
        return f"{self.kind}-{self.first.step}{also}"

    def value(self) -> dict[str, Any]:
        """As JSON has it."""
        return {"kind": self.kind, "step": self.first.step, "runs": self.count, "place": self.place(),
                "functions": sorted({each.name.partition("+")[0] for each in self.places}),
                "pcs": [each.pc for each in self.places], "mode": self.places[0].world[0],
                "hgatp": self.places[0].world[1], "rank": self.failures[0].rank.name.lower(),
                "failures": [each.words for each in self.failures], "explained_by": self.lines,
                "second": {"kind": self.second.kind, "step": self.second.step} if self.second else None}


def merged(found: list[Finding]) -> list[Finding]:
    """These, those together whose places follow each other, the worst first."""
    made: list[Finding] = []
    for each in sorted(found, key=lambda each: (repr(each.key()), each.places[0].pc)):
        last = made[-1] if made else None
        if last and last.key() == each.key() and each.places[0].pc - last.places[-1].pc <= 4:
            last.take(each)
        else:
            made.append(each)
    return sorted(made, key=lambda each: (each.failures[0].rank, -each.count, each.first.step))


def commands_of(folder: str, finding: Finding, elf: str | None) -> list[str]:
    """The commands that show a finding that is kept in a folder."""
    path = os.path.join(folder, f"{finding.stem()}.toml")
    symbols = f" --elf {elf}" if elf else ""
    return [f"nesthv-run {path}", f"nesthv-look {path} last-trap{symbols}", f"nesthv-debug {path}"]


def keep(folder: str, runs: guest_runs.Runs, finding: Finding, last: int) -> None:
    """Keeps the configuration and the saved guest of a finding, and what is known of it. The last is written
    last, so that what is there is whole."""
    os.makedirs(folder, exist_ok=True)
    stem = os.path.join(folder, finding.stem())
    trial = finding.second or finding.first
    steps = last - trial.start()
    text = f"format = 2\nturns = [{', '.join(f'[0, {part}]' for part in parts_of(steps))}]\n\n[[guest]]\n" \
        f'name = "{runs.guest.name}"\nresume = "{finding.stem()}.saved"\n'
    whole_files.write(f"{stem}.saved", trial.saved.form())
    whole_files.write(f"{stem}.toml", text.encode())
    whole_files.write(f"{stem}.json", json.dumps(finding.value(), indent=2).encode() + b"\n")


def parts_of(steps: int, most: int = 1 << 32) -> list[int]:
    """Turns that come to so many steps."""
    return [most] * (steps // most) + [steps % most]


def kept_in(folder: str) -> list[dict[str, Any]]:
    """The findings that a folder keeps."""
    found = []
    for path in sorted(glob.glob(os.path.join(glob.escape(folder), "*.json"))):
        try:
            with open(path, encoding="utf-8") as file:
                value = json.load(file)
            found.append({"kind": str(value["kind"]), "functions": [str(each) for each in value["functions"]],
                          "pcs": [int(each) for each in value["pcs"]], "place": str(value["place"]),
                          "mode": str(value["mode"])})
        except (OSError, ValueError, KeyError, TypeError):
            raise Bad(f"{path} is not a finding that `--write` has kept") from None
    if not found:
        raise Bad(f"{folder} has no finding that `--write` has kept")
    return found
