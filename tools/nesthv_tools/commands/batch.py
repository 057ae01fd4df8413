"""Replays all configurations of a folder, or runs ELF files and images, as many at a time as there are
processors, and compares each report with the stored one, `NAME.report` beside `NAME.toml` or `NAME.elf`.
Without one, each guest must have stopped, and its console must not end with a line `exit N` where N is not 0.
A report that differs is kept beside the stored one as `NAME.report.now`. The last line sums up. The status is
0 where all pass, 1 where one fails, and 2 where they cannot be run.
"""
import concurrent.futures
import contextlib
import fnmatch
import json
import os
import shlex
import shutil
import subprocess
import time
from xml.sax import saxutils
from argparse import Namespace
from collections.abc import Generator, Iterable

from nesthv_tools import (
    children, command_line, endings, faults, image_configurations, places, programs, reports, streams, terminal,
    verdicts, whole_files)

USAGE = "%(prog)s [OPTION]... FOLDER\n       %(prog)s [OPTION]... FILE..."
say = streams.say


class Outcome:
    """What came of a configuration: PASS, FAIL, LATE or LEFT, the reason, lines that explain it, the time,
    and the guests' own verdict where that was asked for."""

    def __init__(self, name: str, kind: str, reason: str = "", lines: Iterable[str] = (),
                 taken: float = 0.0, verdict: int | None = None) -> None:
        self.name, self.kind, self.reason, self.lines, self.taken = name, kind, reason, list(lines), taken
        self.verdict = verdict

    def __str__(self) -> str:
        return " ".join(part for part in (self.kind, self.name, self.reason) if part)


class Running:
    """The programs that run at this moment, which an interrupt or a first failure ends."""

    def __init__(self) -> None:
        self.started: set[subprocess.Popen[bytes]] = set()
        self.is_ended = False

    def end(self) -> None:
        self.is_ended = True
        for process in list(self.started):
            process.kill()

    def run(self, command: list[str], folder: str, seconds: float) -> tuple[bytes, list[str], int | None]:
        """What this command writes, its lines, and its status; no status where it was not ended in time."""
        process = children.begin(command, cwd=folder, stdin=subprocess.DEVNULL, stdout=subprocess.PIPE,
                                 stderr=subprocess.PIPE)
        self.started.add(process)
        if self.is_ended:
            process.kill()
        try:
            output, lines = process.communicate(timeout=seconds)
            return output, lines.decode(errors="replace").splitlines(), process.returncode
        except subprocess.TimeoutExpired:
            process.kill()
            process.communicate()
            return b"", [], None
        finally:
            self.started.discard(process)
            children.RUNNING.discard(process)


class Batch:
    """A folder of configurations, and how they are run. Those that were made of other files have these beside their
    reports, by the names of the configurations."""

    def __init__(self, options: Namespace, program: programs.Program, made_of: dict[str, str]) -> None:
        self.options, self.program, self.running, self.made_of = options, program, Running(), made_of
        self.folder = os.path.abspath(options.folder)

    def path_of(self, name: str, end: str) -> str:
        if name in self.made_of:
            return os.path.splitext(os.path.abspath(self.made_of[name]))[0] + end
        return os.path.join(self.folder, name.removesuffix(".toml") + end)

    def call(self, name: str, *words: str) -> tuple[bytes, list[str], int | None]:
        command = [self.program.path, words[0], os.path.join(".", name), *words[1:]]
        return self.running.run(command, self.folder, self.options.seconds)

    def failed(self, name: str, lines: list[str], status: int | None) -> Outcome:
        """The outcome of a program that ended with another status than 0 and 6, or not in time."""
        if status is None:
            return Outcome(name, "LATE", f"after {self.options.seconds:g} seconds")
        path, stored = os.path.join(self.folder, name), self.path_of(name, ".report")
        meaning = faults.explained(lines[0] if lines else "", path, faults.text_of(path), stored)
        reason = f"status {status}" if status >= 0 else f"ended by signal {-status}"
        return Outcome(name, "FAIL", reason, [*lines, *([meaning] if meaning else [])])

    def stored(self, name: str, report: bytes) -> Outcome:
        whole_files.write(self.path_of(name, ".report"), report)
        self.drop(name)
        return Outcome(name, "PASS", "stored")

    def drop(self, name: str) -> None:
        """Removes the report that an earlier difference has left."""
        if os.path.lexists(self.path_of(name, ".report.now")):
            os.remove(self.path_of(name, ".report.now"))

    def run(self, name: str) -> Outcome:
        """Runs a configuration that has no stored report, or whose report `--store` stores."""
        report, lines, status = self.call(name, "run")
        if status != 0:
            return self.failed(name, lines, status)
        if self.options.store:
            return self.stored(name, report)
        return self.judged(name, reports.sections_of(report))

    def judged(self, name: str, sections: list[reports.Section] | None) -> Outcome:
        """The outcome by the guests' own verdict."""
        if sections is None:
            return Outcome(name, "FAIL", "what the program wrote is not a report")
        verdict, wrong = verdicts.verdict(sections), verdicts.failures(sections)
        are_stopped = all(each["status"] == "stopped" for each in sections)
        reason = "" if not wrong else f"exit {verdict}" if are_stopped else "not every guest has stopped"
        lines = map(verdicts.words_of, wrong)
        return Outcome(name, "FAIL" if wrong else "PASS", reason, lines, verdict=verdict)

    def replay(self, name: str) -> Outcome:
        """Compares the report of a configuration with the stored one; where it differs, keeps it and says
        how."""
        output, lines, status = self.call(name, "replay", self.path_of(name, ".report"))
        if status == 0:
            self.drop(name)
            return Outcome(name, "PASS")
        if status != 6:
            return self.failed(name, lines, status)
        report, lines, status = self.call(name, "run")
        if status != 0:
            return self.failed(name, lines, status)
        whole_files.write(self.path_of(name, ".report.now"), report)
        place = output.decode(errors="replace").strip().removeprefix("differs at ")
        stored = reports.bytes_of(self.path_of(name, ".report")) or b""
        return Outcome(name, "FAIL", f"the report differs from the stored one at {place}",
                       reports.differences(stored, report))

    def outcome_of(self, name: str) -> Outcome:
        if self.running.is_ended:
            return Outcome(self.made_of.get(name, name), "LEFT")
        begin = time.monotonic()
        is_run = self.options.store or self.options.verdict
        is_replay = not is_run and os.path.exists(self.path_of(name, ".report"))
        try:
            outcome = self.replay(name) if is_replay else self.run(name)
        except OSError as error:
            outcome = Outcome(name, "FAIL", f"{error.filename or self.program.path}: {error.strerror}")
        outcome.taken, outcome.name = time.monotonic() - begin, self.made_of.get(name, name)
        if self.running.is_ended and outcome.kind != "PASS":
            return Outcome(outcome.name, "LEFT")
        if self.options.first and outcome.kind != "PASS":
            self.running.end()
        return outcome


def tap_of(number: int, outcome: Outcome) -> str:
    if outcome.kind == "LEFT":
        return f"not ok {number} - {terminal.line_of(outcome.name).replace('#', ' ')} # SKIP not run"
    kind = "ok" if outcome.kind == "PASS" else "not ok"
    words = " ".join(part for part in (outcome.kind, outcome.reason) if part)
    return terminal.line_of(f"{kind} {number} - {outcome.name}: {words}").replace("#", " ")


def show(options: Namespace, number: int, outcome: Outcome) -> None:
    """Prints the line of an outcome, and what explains it."""
    if options.json:
        return
    if options.tap:
        print(tap_of(number, outcome), flush=True)
    elif outcome.kind != "LEFT":
        taken = f" ({outcome.taken:.2f} s)" if options.times else ""
        print(terminal.line_of(str(outcome)) + taken, flush=True)
    for line in outcome.lines:
        print(f"# {terminal.line_of(line)}", flush=True)


def json_of(outcomes: list[Outcome]) -> str:
    return json.dumps([{"name": each.name, "outcome": each.kind, "reason": each.reason, "lines": each.lines,
                        "seconds": round(each.taken, 3), "verdict": each.verdict} for each in outcomes],
                      indent=2)


def xml_text(text: str) -> str:
    """A text as XML has it, where it has no other control characters than spaces."""
    return saxutils.quoteattr("".join(char if char.isprintable() else repr(char)[1:-1] for char in text))


def junit_of(folder: str, outcomes: list[Outcome]) -> str:
    """JUnit XML, which services that build and test read."""
    counts = {kind: sum(each.kind == kind for each in outcomes) for kind in ("FAIL", "LATE", "LEFT")}
    taken = sum(each.taken for each in outcomes)
    lines = ['<?xml version="1.0" encoding="UTF-8"?>',
             f'<testsuite name={xml_text(os.path.basename(folder))} tests="{len(outcomes)}" '
             f'failures="{counts["FAIL"] + counts["LATE"]}" errors="0" skipped="{counts["LEFT"]}" '
             f'time="{taken:.3f}">']
    for each in outcomes:
        words = "; ".join([each.reason, *each.lines])
        inner = "" if each.verdict is None else \
            f'<properties><property name="verdict" value="{each.verdict}"/></properties>'
        inner += "" if each.kind == "PASS" else "<skipped/>" if each.kind == "LEFT" else \
            f"<failure type=\"{each.kind}\" message={xml_text(words)}/>"
        lines.append(f"<testcase classname={xml_text(os.path.basename(folder))} name={xml_text(each.name)} "
                     f'time="{each.taken:.3f}">{inner}</testcase>')
    return "\n".join([*lines, "</testsuite>"]) + "\n"


def names_of(options: Namespace) -> list[str]:
    """The configurations that are meant, by their names in the folder."""
    names = sorted(name for name in os.listdir(options.folder) if name.endswith(".toml"))
    wanted = options.only or ["*"]
    return [name for name in names
            if any(fnmatch.fnmatchcase(name.removesuffix(".toml"), each) for each in wanted)]


def outcomes_of(batch: Batch, names: list[str], jobs: int) -> Generator[Outcome, None, None]:
    """The outcome of each configuration, in order, while others still run."""
    with concurrent.futures.ThreadPoolExecutor(jobs) as pool:
        try:
            yield from pool.map(batch.outcome_of, names)
        except BaseException:
            batch.running.end()
            raise


def run_all(options: Namespace, program: programs.Program, names: list[str], made_of: dict[str, str]) -> int:
    batch, outcomes = Batch(options, program, made_of), []
    if options.tap:
        print(f"1..{len(names)}", flush=True)
    # Closed, so that an interrupt while an outcome is shown ends the others too.
    with contextlib.closing(outcomes_of(batch, names, options.jobs or os.cpu_count() or 1)) as found:
        for number, outcome in enumerate(found, 1):
            outcomes.append(outcome)
            show(options, number, outcome)
    if options.junit:
        whole_files.write(options.junit, junit_of(batch.folder, outcomes).encode())
    if options.json:
        print(json_of(outcomes), flush=True)
    passed, left = (sum(each.kind == kind for each in outcomes) for kind in ("PASS", "LEFT"))
    if not options.json:
        print(f"# {passed} of {len(names)} passed" + (f", {left} not run" if left else ""), flush=True)
    return int(passed < len(names))


def run_elsewhere(options: Namespace, names: list[str]) -> int:
    """Runs each configuration by this tool on the machines of GNU parallel's --sshlogin."""
    if not shutil.which("parallel"):
        say("GNU parallel, which --sshlogin takes, is not installed (apt-get install parallel)")
        return 2
    words = [os.path.join(places.TOOLS, "batch"), "--seconds", f"{options.seconds:g}", "--jobs", "1",
             *["--store"] * options.store, *["--verdict"] * options.verdict]
    words += ["--program", os.path.abspath(options.program)] if options.program else []
    machines = [word for login in options.sshlogin for word in ("--sshlogin", login)]
    command = ["parallel", "--will-cite", "--null", "--jobs", str(options.jobs or "100%"), *machines,
               *(["--halt", "now,fail=1"] if options.first else ["--keep-order"]),
               f"{shlex.join(words)} --only {{}} {shlex.quote(os.path.abspath(options.folder))}"]
    exact = [glob_of(name.removesuffix(".toml")) for name in names]
    ran = subprocess.run(command, input="".join(f"{name}\0" for name in exact), stdout=subprocess.PIPE,
                         text=True)
    lines = [line for line in ran.stdout.splitlines()
             if not line.endswith(" passed") or not line.startswith("# ")]
    passed = sum(line.startswith("PASS ") for line in lines)
    failed = sum(line.startswith(("FAIL ", "LATE ")) for line in lines)
    left = len(names) - passed - failed
    print("".join(f"{line}\n" for line in lines), end="")
    print(f"# {passed} of {len(names)} passed" + (f", {left} not run" if left else ""), flush=True)
    return 1 if failed else 2 if left else 0


def glob_of(name: str) -> str:
    """The pattern that this name alone fits."""
    return "".join(f"[{char}]" if char in "*?[" else char for char in name)


def options_of_words() -> Namespace:
    parser = command_line.Parser(__doc__, USAGE)
    parser.add_argument("words", metavar="FOLDER | FILE", nargs="+",
                        help="a folder of configurations, or ELF files and images")
    parser.add_argument("--only", action="append", metavar="PATTERN",
                        help="runs those whose NAME fits this pattern, such as `squares*`; may be given "
                        "again")
    parser.add_argument("--jobs", type=command_line.number(1, 1024), metavar="N",
                        help="how many at a time (on each machine); as many as there are processors if left "
                        "out")
    parser.add_argument("--seconds", type=command_line.seconds, default=600, metavar="N",
                        help="ends one after this time; 600 if left out")
    parser.add_argument("--first", action="store_true", help="stops at the first one that fails")
    parser.add_argument("--store", action="store_true", help="stores the reports in place of comparing them")
    parser.add_argument("--verdict", action="store_true",
                        help="takes the guests' own verdict in place of the stored report: FAIL where a "
                        "guest has not stopped, or its console ends with a line `exit N` and N is not 0")
    parser.add_argument("--times", action="store_true", help="prints how many seconds each took")
    form = parser.add_mutually_exclusive_group()
    form.add_argument("--tap", action="store_true", help="prints TAP, the Test Anything Protocol")
    form.add_argument("--json", action="store_true", help="prints all outcomes as JSON")
    parser.add_argument("--junit", metavar="FILE", help="writes JUnit XML into this file")
    parser.add_argument("--program", metavar="PATH",
                        help="the program to take; if left out, the one that NESTHV names, else the proved "
                        "one")
    parser.add_argument("--sshlogin", action="append", default=[], metavar="LIST",
                        help="machines, as `parallel --sshlogin` takes them (`:` is this one). Each has this "
                        "repository and the folder at the same paths")
    image_configurations.add_options(parser)
    options = parser.parse_intermixed_args()
    options.is_folder = len(options.words) == 1 and os.path.isdir(options.words[0])
    if not options.is_folder and options.sshlogin:
        parser.error("--sshlogin is for a folder of configurations")
    if options.store and options.verdict:
        parser.error("--store and --verdict: give one")
    if options.sshlogin and (options.tap or options.json or options.junit or options.times):
        parser.error("--sshlogin prints lines alone: no --tap, --json, --junit or --times")
    return options


def main() -> int:
    options = options_of_words()
    try:
        program = programs.found(options.program)
    except programs.Unusable as error:
        say(str(error))
        return 2
    if not program:
        say("there is no proved program (see dist/check); docs/guide.md says how to run many without one")
        return 2
    if program.notice:
        say(f"{program.path} {program.notice}")
    stack = contextlib.ExitStack()
    try:
        return run_words(options, program, stack)
    except image_configurations.Wrong as why:
        say(str(why))
        return 2
    finally:
        stack.close()


def run_words(options: Namespace, program: programs.Program, stack: contextlib.ExitStack) -> int:
    """Runs the configurations of a folder, or those that are made of files."""
    made_of: dict[str, str] = {}
    if options.is_folder:
        given = image_configurations.options_given(options)
        if given:
            raise image_configurations.Wrong(f"{given[0].split()[0]} is for ELF files and images, and "
                                             f"{options.words[0]} is a folder of configurations")
        options.folder = options.words[0]
    else:
        options.folder = options.write or stack.enter_context(endings.Folder("nesthv-"))
        made_of = made_configurations(options)
    names = names_of(options)
    if not options.is_folder:
        names = [name for name in made_of if name in names]  # as they are given, and no others of the folder
    if not names:
        say(f"no `.toml` in {options.folder}"
            + (f" whose name fits {' or '.join(options.only)}" if options.only else ""))
        return 2
    return run_elsewhere(options, names) if options.sshlogin else run_all(options, program, names, made_of)


def made_configurations(options: Namespace) -> dict[str, str]:
    """Makes a configuration of each file in the folder, and tells of which."""
    made_of: dict[str, str] = {}
    for path in options.words:
        if not os.path.exists(path):
            raise image_configurations.Wrong(f"{path}: there is no such file")
        if not image_configurations.is_image(path):
            raise image_configurations.Wrong(f"{path} is not an ELF file or an image: name a folder of configurations")
        name = image_configurations.name_of(path) + ".toml"
        if name in made_of:
            raise image_configurations.Wrong(f"{made_of[name]} and {path} would both be {name}: rename one")
        image_configurations.written(image_configurations.files_of(path, options), options.folder)
        made_of[name] = path
    return made_of
