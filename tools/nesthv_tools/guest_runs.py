"""The state of a guest at any step, by the program's `save`: runs are exact and go on where they were saved,
so kept states shorten the way.
"""
import collections
import contextlib
import hashlib
import itertools
import os
import re
import subprocess
from collections.abc import Iterable, Iterator
from typing import BinaryIO

from nesthv_tools import (
    children, endings, event_logs, faults, foretold_steps, logged_steps, parallel, programs, progress,
    records, reports, saves, state_cache, state_files, stubs, tracers)

KEPT_IN_MEMORY, KEPT_IN_FILES = 8, 4  # states
AT_ONCE = 256  # single steps from one state
FAR = 200000  # steps from a state to one that is worth keeping, for each block of RAM


class Unusable(Exception):
    """Why there is no guest to look at, in words."""


def read(path: str, most: int, what: str) -> bytes:
    try:
        with open(path, "rb") as file:
            return file.read(most)
    except (OSError, ValueError) as error:
        raise Unusable(f"{what} {path} cannot be read: {getattr(error, 'strerror', error)}") from None


def checked(program: str, path: str, folder: str) -> None:
    """Has the program test a configuration, and says in words what it finds."""
    place = os.path.join(".", os.path.basename(path))
    try:
        ran = children.complete([program, "check", place], cwd=folder, env=children.environment(),
                                stdin=subprocess.DEVNULL, stdout=subprocess.PIPE, stderr=subprocess.PIPE)
    except OSError as error:
        raise Unusable(f"{program} cannot be run: {error.strerror}") from None
    if ran.returncode:
        line = next(iter(ran.stderr.decode(errors="replace").splitlines()), f"status {ran.returncode}")
        meaning = faults.explained(line, path, faults.text_of(path))
        raise Unusable(line + (f": {meaning}" if meaning else ""))


def saved_in(data: bytes, path: str) -> saves.Saved:
    """The saved guest in the bytes of a file."""
    try:
        return saves.Saved(data)
    except saves.Wrong as why:
        raise Unusable(f"{path} is not a saved guest: {why}") from None


class Guest:
    """One guest of a configuration: the files that it begins with, by the names that they get here, and its
    keys in TOML. It also has how many steps its turns have, how many it has made, and how many blocks of RAM
    it has."""

    def __init__(self, program: str, path: str, number: int) -> None:
        folder = os.path.dirname(path) or "."
        if not os.path.isfile(path):
            raise Unusable(f"the configuration {path} is not a regular file{faults.unreadable(path)}")
        document = faults.parsed(faults.text_of(path))[0] or {}
        for name in faults.file_names(document):
            file = os.path.join(folder, name)
            if os.path.exists(file) and not os.path.isfile(file):
                raise Unusable(f"{file} is not a regular file, and can perhaps be read only once")
        checked(program, path, folder)
        guests = faults.guests_of(document)
        if not 0 <= number < len(guests):
            raise Unusable(f"{path}: {faults.guest_missing(len(guests), number)}")
        table = guests[number]
        self.name, self.steps = table["name"], progress.sums_of(document)[number]
        self.image = None if faults.is_resumed(document, table) else os.path.join(folder, table["image"])
        self.files: dict[str, bytes] = {}
        self.keys: faults.Table = {"name": self.name}
        if self.image:
            self.begin(folder, table, faults.format_of(document))
        else:
            path = os.path.join(folder, table["resume"])
            self.files["resumed"] = read(path, saves.MOST_BYTES, "the file")
            self.keys["resume"] = "resumed"
            numbers = saved_in(self.files["resumed"], path).numbers
            self.first, self.blocks = numbers["steps"], numbers["blocks"]

    def begin(self, folder: str, table: faults.Table, form: int) -> None:
        """Takes what a guest at its start has."""
        self.first, self.blocks = 0, table["blocks"]
        most = faults.BLOCK * table["blocks"] + 1
        self.files["image"] = read(os.path.join(folder, table["image"]), most, "the image")
        keys = [key for key in ("blocks", "spaces", "entries", "console", "device") if key in table]
        self.keys.update({"image": "image"}, **{key: table[key] for key in keys})
        if "input" in table:
            self.keys["input"] = "inputs"
            self.files["inputs"] = records.bytes_of(table["input"]) if form == 1 else \
                read(os.path.join(folder, table["input"]), records.MOST_BYTES, "the input file")

    def hash(self) -> str:
        made = hashlib.sha256()
        for name, data in [*self.files.items(), ("keys", repr(self.keys).encode())]:
            made.update(f"{name} {len(data)} ".encode() + data)
        return made.hexdigest()[:32]


class Runs:
    """The runs of a guest by a program, in a temporary folder."""

    def __init__(self, program: str, guest: Guest, cache: state_cache.Cache) -> None:
        self.program, self.guest, self.cache = program, guest, cache
        self.stub, self.tracer = programs.beside(stubs.NAME, program), programs.beside(tracers.NAME, program)
        self.folder = endings.Folder("nesthv-look-")
        self.numbers, self.calls = itertools.count(), 0
        self.known: collections.OrderedDict[int, saves.Saved] = collections.OrderedDict()
        for name, data in guest.files.items():
            self.put(name, data)
        self.first, self.far = guest.first, FAR * guest.blocks
        self.last = self.first + guest.steps
        self.told_kinds: dict[str, bool] = {}  # which kinds of lines its log may have
        self.goes_back = True  # whether states before the one that is asked for may be asked for, too

    @property
    def start(self) -> saves.Saved:
        """The first state."""
        return self.at(self.first)

    def close(self) -> None:
        self.folder.cleanup()
        self.cache.close()

    def path(self, name: str) -> str:
        return os.path.join(self.folder.name, name)

    def put(self, name: str, data: bytes) -> str:
        with open(self.path(name), "wb") as file:
            file.write(data)
        return name

    def new_path(self) -> str:
        return self.path(f"{next(self.numbers)}.saved")

    def put_config(self, keys: faults.Table, steps: int) -> str:
        """The name of a configuration of a guest of these keys that makes this many steps."""
        lines = ["format = 2", f"turns = {progress.turns_of([steps], steps)}", "[[guest]]"]
        lines += [f"{key} = {progress.toml_of(value)}" for key, value in keys.items()]
        return self.put(f"{next(self.numbers)}.toml", "\n".join(lines).encode() + b"\n")

    def call(self, command: str, keys: faults.Table, steps: int) -> state_files.OwnFile:
        """What the program writes for a guest of these keys that makes this many steps."""
        name = self.put_config(keys, steps)
        words = [self.program, command, name] + (["0"] if command == "save" else [])
        self.calls += 1
        written = state_files.OwnFile(self.new_path())
        try:
            with open(written.path, "wb") as output:  # large, and slow by a pipe
                status, said = children.run(words, self.folder.name, output)
        finally:
            with contextlib.suppress(FileNotFoundError):
                os.remove(self.path(name))
        if status:
            raise Unusable(self.refusal(status, said))
        return written

    def refusal(self, status: int, said: bytes) -> str:
        line = next(iter(said.decode(errors="replace").splitlines()), f"status {status}")
        if "usage" in line:
            return f"{self.program} has no command `save`, by which states are looked at"
        return f"{self.program}: {line}"

    def saved_of(self, file: state_files.OwnFile) -> state_files.State:
        try:
            return state_files.State(file)
        except saves.Wrong as why:
            raise Unusable(f"what {self.program} saved is not a saved guest: {why}") from None

    def at(self, step: int) -> saves.Saved:
        """The state at this step, or where the run ends before, at its end."""
        step = min(max(step, self.first), self.last)
        if step not in self.known:
            self.know(step, self.kept_at(step) or self.saved_of(self.made_at(step)))
        self.known.move_to_end(step)
        return self.known[step]

    def told_at(self, step: int) -> saves.Saved | reports.Told:
        """What the report tells of the state at this step; or the state, where none near it is known."""
        step = min(max(step, self.first), self.last)
        before, saved = self.last_before(step)
        if step in self.known or step - before > self.far:
            return self.at(step)
        with Line(self, before, saved) as line:
            file = line.call("run", step)
        told = reports.told_in(file.read())
        if not told:
            raise Unusable(f"what {self.program} reports is not a report")
        return told

    def know(self, step: int, saved: saves.Saved) -> None:
        self.known[step] = saved
        while len(self.known) > KEPT_IN_MEMORY:
            self.known.pop(next(iter(self.known)), None)

    def kept_at(self, step: int) -> saves.Saved | None:
        file = state_files.OwnFile(self.new_path())
        try:
            return state_files.State(file) if self.cache.put_at(step, file.path) else None
        except saves.Wrong:
            return None

    def made_at(self, step: int) -> state_files.OwnFile:
        """The file of the state at this step, made from the last one before that is known. On a long way
        states are kept, the closer to each other the closer they are to its end."""
        before, saved = self.last_before(step)
        with Line(self, before, saved) as line:
            while self.goes_back and step - before >= 2 * self.far:
                before += (step - before) // 2
                file = line.call("save", before)
                self.cache.keep(before, file.mapped())
                if saves.status_of(file.mapped()):  # it makes no more steps
                    return file
            file = line.call("save", step)
        if step - before >= self.far:
            self.cache.keep(step, file.mapped())
        return file

    def last_before(self, step: int) -> tuple[int, saves.Saved | None]:
        """The last state before a step that is known, with its step, or the first step where none is."""
        near = max((each for each in self.known if each < step), default=self.first)
        for before in sorted((each for each in self.cache.steps() if near < each < step), reverse=True):
            saved = self.kept_at(before)
            if saved:
                return before, saved
        if near in self.known:
            self.known.move_to_end(near)
        return near, self.known.get(near)

    def singles(self, start: int, end: int) -> Iterator[saves.Saved]:
        """The states at the steps from `start` to `end`, in order. The run makes them all."""
        yield self.at(start)
        step = start
        try:
            for state in self.stepped(start, end):
                step = state.numbers["steps"]
                yield state
        except stubs.Ended:
            pass
        while step < end:
            until = min(step + AT_ONCE, end)
            with Line(self, step, self.at(step)) as line:
                yield from parallel.in_order(line.at, range(step + 1, until + 1))
            step = until

    def tells(self, kind: str) -> bool:
        """Whether there is a log that has lines of this kind."""
        if self.tracer and kind not in self.told_kinds:
            with Line(self, self.first, None) as line:
                self.told_kinds[kind] = line.tells(kind)
        return self.told_kinds.get(kind, False)

    def logged(self, kinds: Iterable[str], start: int, end: int,
               has_all: bool = False) -> Iterator[event_logs.Line]:
        """The lines of these kinds in the log of the run, from a step on, up to a second one, as
        `event_logs.Log` has them. Their steps are those of the guest."""
        before, saved = self.last_before(start + 1)
        with Line(self, before, saved) as line:
            for each in line.logged(kinds, start - before, end - before, has_all):
                yield each._replace(step=each.step + before)

    def steps_of_form(self, form: re.Pattern[bytes], start: int, end: int) -> Iterator[int]:
        """The steps from one on, up to a second one, whose lines in the log have a form. Its first group is
        their number."""
        before, saved = self.last_before(start + 1)
        with Line(self, before, saved) as line:
            for step in line.steps_of_form(form, start - before, end - before):
                yield step + before

    def stepped(self, start: int, end: int) -> Iterator[saves.Saved]:
        """The states after a step, up to a second one, by the stub."""
        state = self.at(start)
        with Line(self, start, state) as line, line.stub(end) as stub:
            def saved_at(step: int) -> saves.Saved:
                return self.known.get(step) or line.at(step)
            if self.tracer:
                yield from logged_steps.Steps(self, stub, saved_at, state).until(end)
            else:
                yield from foretold_steps.Steps(stub, saved_at, state).until(end)


class Line:
    """A run that goes on from a state, which is that at a step, or from its beginning. What it comes to is
    made from the last state before that is kept in a file. That is the first, or one of the few that were far
    from the one before."""

    def __init__(self, runs: Runs, step: int, saved: saves.Saved | None) -> None:
        self.runs, self.start = runs, step
        self.files: collections.OrderedDict[int, state_files.OwnFile] = collections.OrderedDict()
        if saved:
            self.keep(step, state_files.file_of(saved, runs.new_path()))

    def __enter__(self) -> "Line":
        return self

    def __exit__(self, *_: object) -> None:
        self.files.clear()

    def keep(self, step: int, file: state_files.OwnFile) -> None:
        self.files[step] = file
        if len(self.files) > KEPT_IN_FILES:
            self.files.pop(next(each for each in self.files if each != self.start))

    def keys(self, file: state_files.OwnFile) -> faults.Table:
        """The guest that goes on from a file."""
        return {"name": self.runs.guest.name, "resume": os.path.basename(file.path)}

    def call(self, command: str, step: int) -> state_files.OwnFile:
        """What the program writes where the run goes on up to this step."""
        before = max((each for each in self.files if each <= step), default=self.start)
        own = self.files.get(before)  # stays while the program reads it
        if own:
            self.files.move_to_end(before)
        keys = self.keys(own) if own else self.runs.guest.keys
        file = self.runs.call(command, keys, step - before)
        if command == "save" and step - before >= self.runs.far:
            self.keep(step, file)
        return file

    def at(self, step: int) -> saves.Saved:
        """The state at this step."""
        return self.runs.saved_of(self.call("save", step))

    def logged(self, kinds: Iterable[str], start: int, end: int,
               has_all: bool = False) -> Iterator[event_logs.Line]:
        """The lines of these kinds in the log of the run, whose first step is 0."""
        try:
            with self.log_of(kinds, start, end) as file:
                yield from event_logs.Log(file, "the log", has_all)
        except (tracers.Refused, event_logs.Wrong) as why:
            raise Unusable(str(why)) from None

    def steps_of_form(self, form: re.Pattern[bytes], start: int, end: int) -> Iterator[int]:
        """The steps whose lines in the log of the run have a form, of which the first group is their number."""
        try:
            with self.log_of(["steps"], start, end) as file:
                yield from (int(each[1]) for each in event_logs.Log(file, "the log").found(form))
        except (tracers.Refused, event_logs.Wrong) as why:
            raise Unusable(str(why)) from None

    def tells(self, kind: str) -> bool:
        """Whether the log may have lines of this kind, which an older program refuses."""
        try:
            with self.log_of([kind], 1, 1) as file:
                file.read()
        except tracers.Refused as why:
            if "usage" in str(why):
                return False
            raise Unusable(str(why)) from None
        return True

    @contextlib.contextmanager
    def log_of(self, kinds: Iterable[str], start: int, end: int) -> Iterator[BinaryIO]:
        """The bytes of the log."""
        assert self.runs.tracer
        own = self.files.get(self.start)
        name = self.runs.put_config(self.keys(own) if own else self.runs.guest.keys, end)
        guest = tracers.Guest(self.runs.path(name), self.runs.folder.name, name, 0)
        self.runs.calls += 1
        try:
            with tracers.log_of(self.runs.tracer, guest, tracers.words_of(set(kinds), start, end)) as file:
                yield file
        finally:
            with contextlib.suppress(FileNotFoundError):
                os.remove(self.runs.path(name))

    @contextlib.contextmanager
    def stub(self, end: int) -> Iterator[stubs.Stub]:
        """A stub that shows the run from its start on, up to a step."""
        if not self.runs.stub:
            raise stubs.Ended
        config = self.runs.put_config(self.keys(self.files[self.start]), end - self.start)
        stub = stubs.Stub(self.runs.stub, self.runs.folder.name, config)
        try:
            yield stub
        finally:
            stub.close()
