"""Runs the programs over the files of a case, on real streams of which some fail."""
import contextlib
import fcntl
import os
import resource
import signal
import struct
import subprocess
import tempfile
import termios
import time
import tomllib
from collections.abc import Iterator
from dataclasses import dataclass, field
from typing import IO

import case_files
from case_files import Content, Line, Repeated, Script

# The size that no file grows beyond (RLIMIT_FSIZE). A stream that takes K bytes is a file at K bytes before it.
MOST = 1 << 30
LIMIT = 600  # seconds


class Difference(Exception):
    """Where a program does something else than a case wants."""


class LeftOut(Exception):
    """Why no real process, file or stream does what a case asks for."""


@dataclass(frozen=True)
class Programs:
    """The paths of the programs."""
    nesthv: str
    gdb: str
    trace: str


@dataclass(frozen=True)
class Left:
    """What a run has left."""
    status: int
    out: bytes
    err: bytes


@dataclass
class Outcome:
    """What the cases of a file have come to: how many there are of each unit, and the lines that tell where they
    differ."""
    counts: dict[str, int] = field(default_factory=dict)
    differences: list[str] = field(default_factory=list)

    def count(self, unit: str, more: int = 1) -> None:
        self.counts[unit] = self.counts.get(unit, 0) + more

    def add(self, other: "Outcome") -> None:
        for unit, more in other.counts.items():
            self.count(unit, more)
        self.differences += other.differences

    @contextlib.contextmanager
    def told(self, at: Line, name: str) -> Iterator[None]:
        """Tells a difference of the case of this name, with the line that it is of, and counts it where it can't be
        run."""
        try:
            yield
        except LeftOut:
            self.count("left out")
        except (Difference, OSError) as difference:
            self.differences.append(f"{at.file}:{at.number}: {name}: {difference}")


def take_limits() -> None:
    """In a process that runs programs: no file of theirs grows beyond MOST, and a write there fails, since they inherit
    that SIGXFSZ and SIGPIPE are ignored, as Python does."""
    hard = resource.getrlimit(resource.RLIMIT_FSIZE)[1]
    resource.setrlimit(resource.RLIMIT_FSIZE, (MOST, hard))
    for number in (signal.SIGXFSZ, signal.SIGPIPE):
        signal.signal(number, signal.SIG_IGN)


def stream(room: int = MOST) -> IO[bytes]:
    """A stream that takes that many bytes and no more."""
    file = tempfile.TemporaryFile(buffering=0)
    file.seek(MOST - room)
    return file


def taken(file: IO[bytes], room: int = MOST) -> bytes:
    """The bytes that a stream has taken."""
    file.seek(MOST - room)
    return file.read()


def pipe() -> tuple[IO[bytes], IO[bytes]]:
    """The end of a pipe that is read, and the one that is written."""
    reading, writing = os.pipe()
    return open(reading, "rb", buffering=0), open(writing, "wb", buffering=0)


def closed() -> IO[bytes]:
    """A pipe that nobody reads."""
    reading, writing = pipe()
    reading.close()
    return writing


def start(program: str, words: tuple[str, ...], folder: str, stdin: IO[bytes] | int, stdout: IO[bytes],
          stderr: IO[bytes]) -> subprocess.Popen[bytes]:
    """Starts a program with these words, of which the first is its name."""
    return subprocess.Popen(words, executable=program, cwd=folder, restore_signals=False, stdin=stdin, stdout=stdout,
                            stderr=stderr)


def ended(process: subprocess.Popen[bytes]) -> int:
    try:
        return process.wait(LIMIT)
    except subprocess.TimeoutExpired:
        process.kill()
        process.wait()
        raise Difference(f"runs for more than {LIMIT} seconds") from None


@dataclass
class Folder:
    """A folder with the files of a case."""
    path: str
    contents: dict[str, Content] = field(default_factory=dict)
    saves: dict[int, bytes] = field(default_factory=dict)

    def place(self, name: str) -> str:
        return os.path.join(self.path, name)

    def write(self, contents: dict[str, Content]) -> None:
        """Has these files and no others."""
        for name in self.contents.keys() - contents.keys():
            self.remove(name)
        for name, content in contents.items():
            if self.contents.get(name) != content:
                self.put(name, content)
        self.contents = dict(contents)

    def put(self, name: str, content: Content) -> None:
        with open(self.place(name), "wb", buffering=0) as file:
            for piece in content:
                if isinstance(piece, Repeated) and piece.byte == 0:
                    file.seek(piece.times, os.SEEK_CUR)
                else:
                    file.write(case_files.bytes_of((piece,), self.saves))
            file.truncate()

    def remove(self, name: str) -> None:
        """Leaves nothing at a name."""
        path = self.place(name)
        if os.path.isdir(path):
            os.rmdir(path)
        elif os.path.lexists(path):
            os.unlink(path)
        self.contents.pop(name, None)


@contextlib.contextmanager
def folder() -> Iterator[Folder]:
    with tempfile.TemporaryDirectory(prefix="nesthv-case-") as path:
        yield Folder(path)


def reads_of(words: tuple[str, ...], configuration: bytes) -> list[str]:
    """The names that a program reads, in order: the configuration, the files of each guest, and a stored report. Where
    the configuration is refused it reads that alone."""
    try:
        guests = tomllib.loads(configuration.decode()).get("guest", [])
    except (UnicodeDecodeError, tomllib.TOMLDecodeError):
        guests = []
    names = [word for word in ("k",) if word in words]
    for guest in guests if isinstance(guests, list) else []:
        files = (guest.get(key) for key in ("image", "resume", "input"))
        names += [name for name in files if isinstance(name, str)]
    return names + list(words[3:4] if words[1:2] == ("replay",) else ())


@dataclass
class Fed:
    """A name at which one read gives some bytes, and the next ones another file, or nothing."""
    path: str
    first: bytes
    then: str | None

    def feed(self, process: subprocess.Popen[bytes]) -> None:
        """Waits until the program opens the name, leaves there what its next read gives, and then gives the bytes."""
        writing = None
        while writing is None and process.poll() is None:
            try:
                writing = os.open(self.path, os.O_WRONLY | os.O_NONBLOCK)
            except OSError:
                time.sleep(0.0005)
        if writing is None:
            return
        if self.then is None:
            os.unlink(self.path)
        else:
            os.rename(self.then, self.path)
        os.set_blocking(writing, True)
        with open(writing, "wb") as file, contextlib.suppress(BrokenPipeError):
            file.write(self.first)


def stage(folder: Folder, script: Script, reads: list[str]) -> list[Fed]:
    """Has a read fail or give another file, as the script says, and gives the names that have to be fed."""
    faults, fed = script.store, []
    for read, given in ((faults.failing, None), (faults.giving, faults.given)):
        if not 1 <= read <= len(reads):
            continue
        name = reads[read - 1]
        content = None if given is None else folder.contents.get(given, ())
        if name in reads[:read - 1]:
            fed.append(staged_again(folder, name, content))
            continue
        folder.remove(name)
        if content is None:
            os.mkdir(folder.place(name))
        else:
            folder.put(name, content)
    return fed


def staged_again(folder: Folder, name: str, content: Content | None) -> Fed:
    """A name of which the second read fails, or gives this content."""
    first, then = case_files.bytes_of(folder.contents[name], folder.saves), None
    if content is not None:
        then = folder.place("nesthv-case-then")
        folder.put("nesthv-case-then", content)
    folder.remove(name)
    os.mkfifo(folder.place(name))
    return Fed(folder.place(name), first, then)


def unstage(folder: Folder, reads: list[str]) -> None:
    """Leaves nothing at the names that were staged."""
    for name in {*reads, "nesthv-case-then"}:
        folder.remove(name)


def run(program: str, words: tuple[str, ...], folder: Folder, script: Script = Script(), room: int | None = None,
        err_room: int | None = None) -> Left:
    """Runs a program in a folder. Its streams take no more than these numbers of bytes, or nothing where the script
    says so; without a number they take all."""
    is_staged = script.store != Script().store
    reads = reads_of(words, case_files.bytes_of(folder.contents.get("k", ()), folder.saves)) if is_staged else []
    fed = stage(folder, script, reads)
    out_room, err_room = (MOST if each is None else each for each in (room, err_room))
    with (closed() if script.out.is_full else stream(out_room)) as out, \
            (closed() if script.err.is_full else stream(err_room)) as err:
        process = start(program, words, folder.path, subprocess.DEVNULL, out, err)
        for each in fed:
            each.feed(process)
        status = ended(process)
        left = Left(status, b"" if script.out.is_full else taken(out, out_room),
                    b"" if script.err.is_full else taken(err, err_room))
    if is_staged:
        unstage(folder, reads)
    return left


def unread(reading: IO[bytes]) -> int:
    """How many bytes of a pipe nobody has read yet."""
    return int(struct.unpack("i", fcntl.ioctl(reading, termios.FIONREAD, bytes(4)))[0])


def check_possible(words: tuple[str, ...], script: Script) -> None:
    """Leaves out what no process and no file does."""
    if not words:
        raise LeftOut("no words, not even the program's name, which Linux gives each process")
    if script.wants_words or script.store.wanting:
        raise LeftOut("no memory for words or for a file")


def shown(data: bytes) -> str:
    """Bytes as text, those that are not visible letters as `\\xHH`."""
    return "".join(chr(byte) if 0x20 <= byte <= 0x7E and byte != 0x5C else f"\\x{byte:02x}" for byte in data)


def differing(wanted: bytes, came: bytes) -> str:
    """The first line in which bytes differ from those that are wanted."""
    same = len(os.path.commonprefix([wanted, came]))
    start_ = wanted.rfind(b"\n", 0, same) + 1
    lines = [(each[start_:].split(b"\n", 1)[0]) for each in (wanted, came)]
    ends = ["" if b"\n" in each[start_:] else " without a newline" for each in (wanted, came)]
    return f"`{shown(lines[0])}`{ends[0]} is wanted, `{shown(lines[1])}`{ends[1]} came"
