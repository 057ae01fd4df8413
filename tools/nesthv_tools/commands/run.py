"""Runs a configuration, replays a stored report, checks what guests need, or saves a guest, by the proved
program, and explains what it says. Images, input files and saved guests are looked for beside the
configuration. In place of a configuration it takes an ELF file or an image, for which it makes one. What
there is to say of an image or a fault goes to standard error, and the status is the program's own.
"""
import json
import os
import re
import stat
import subprocess
from argparse import Namespace
from collections.abc import Iterable

from nesthv_tools import (
    children, command_line, configurations, faults, image_configurations, images, places, programs, progress,
    reports, streams, terminal, verdicts, versions)

Sections = list[reports.Section] | None

COMMANDS = {"run": 1, "replay": 2, "check": 1, "save": 2}  # how many words each takes
CRATE = os.path.join(places.TOP, "crates", "nesthv")
FAILED = UNWRITTEN = 4
UNEXPECTED, UNUSABLE = 10, 2
USAGE = "%(prog)s [OPTION]... [run | check] CONFIG\n       %(prog)s [OPTION]... replay CONFIG REPORT\n" \
    "       %(prog)s [OPTION]... save CONFIG GUEST >FILE"
TAKES = {"replay": "CONFIG and REPORT", "save": "CONFIG and GUEST, a number from 0 on"}
say = streams.say


def parser_of_words() -> command_line.Parser:
    names = configurations.example_names()
    which = f", or the name of an example ({', '.join(names)})" if names else ""
    parser = command_line.Parser(__doc__, USAGE, tells_version=False)
    parser.add_argument("words", metavar="WORD", nargs="*",
                        help=f"what to do, `run` if left out; CONFIG, the file of a configuration{which}, or "
                        "an ELF file or an image in place of one; "
                        "for `replay` REPORT, the file of a stored report; and for `save` GUEST, the guest's "
                        "number, from 0 on: the bytes of the file go to standard output")
    parser.add_argument("--program", metavar="PATH",
                        help="the program to take; if left out, the one that NESTHV names, else the proved "
                        "one")
    parser.add_argument("--json", action="store_true",
                        help="prints the report as JSON; each character of `console` is one byte of a "
                        "guest's console")
    parser.add_argument("--expect", metavar="STATUS", choices=["running", "waiting", "stopped", *"0123456"],
                        help="ends with 0 where STATUS is the program's status (0 to 6) or every guest's "
                        "(running, waiting, stopped), else with 10; without it, with the program's own "
                        "status")
    parser.add_argument("--verdict", action="store_true",
                        help="ends with the guests' own verdict where a report was written: the number N of "
                        "a last line `exit N` on the console of a guest that has stopped, 0 without such a "
                        f"line, or {verdicts.UNENDED} where a guest has not stopped; of several guests the "
                        "first that is not 0")
    parser.add_argument("--progress", action="store_true",
                        help="before a run, runs it with fewer steps, and says how far the guests are then; "
                        "this takes a third of the time more, or more where guests stop before, and a "
                        "program")
    parser.add_argument("--quiet", action="store_true", help="does not say by which program it runs")
    parser.add_argument("--raw", action="store_true",
                        help="writes control characters to a terminal as they are; without it they are "
                        "shown, as \\x1b. Files and pipes get each byte as it is")
    parser.add_argument("--seconds", type=command_line.number(1, 1000000), default=60, metavar="N",
                        help="how long `rt try` lets the guests run, where there is no program; 60 if left "
                        "out. A program has no limit")
    parser.add_argument("--elf", action="store_true",
                        help="runs an image of a configuration as it is where it is an ELF file, its header "
                        "too")
    parser.add_argument("--version", action="store_true", help=command_line.VERSION)
    image_configurations.add_options(parser)
    return parser


def options_of_words() -> Namespace:
    """The options, with the command, the configuration, and the report of a replay or the guest of a save."""
    parser = parser_of_words()
    options = parser.parse_words("version")
    words = options.words
    if options.version:
        return options
    if len(words) > 1 and words[0] not in COMMANDS and not os.path.exists(words[0]):
        parser.error(f"{words[0]} is not a command: {', '.join(COMMANDS)} are")
    options.command = words.pop(0) if words[0] in COMMANDS else "run"
    if len(words) != COMMANDS[options.command]:
        parser.error(f"`{options.command}` takes {TAKES.get(options.command, 'CONFIG alone')}")
    options.config = words[0]
    options.report = os.path.abspath(words[1]) if options.command == "replay" else None
    options.guest = words[1] if options.command == "save" else None
    if options.command == "save":
        check_save(parser, options)
    refuse_of_run(parser, options)
    return options


def refuse_of_run(parser: command_line.Parser, options: Namespace) -> None:
    """Refuses options of a report where there is none, and two that both say which status is the tool's."""
    is_of_run = options.progress or options.verdict or (options.expect or "0").isalpha()
    if options.command != "run" and is_of_run:
        parser.error(f"`{options.command}` gives no report: --progress, --verdict and the status of guests "
                     "are for `run`")
    if options.expect and options.verdict:
        parser.error("--expect and --verdict both say which status is the tool's: give one")


def check_save(parser: command_line.Parser, options: Namespace) -> None:
    """Refuses a save whose guest is not a number, or whose bytes have no place to go."""
    if not re.fullmatch("[0-9]{1,2}", options.guest):
        parser.error(f"{options.guest} is not the number of a guest: give a decimal number, from 0 on")
    if options.json:
        parser.error("`save` writes the bytes of a file to standard output: it takes no --json")
    if os.isatty(1):
        parser.error("`save` writes the bytes of a file to standard output, which is a terminal: give it a "
                     "file, by `>FILE`")


def folder_of(path: str) -> str:
    """The folder in which the program runs: the one of the configuration, or this one where the configuration
    is not a regular file."""
    try:
        is_file = stat.S_ISREG(os.stat(path).st_mode)
    except OSError:
        is_file = False
    return (os.path.dirname(path) or ".") if is_file else "."


def tell_of_program(program: programs.Program | None) -> None:
    if not program:
        say("by `rt try`, which proves nothing; about a minute")
        return
    is_here = program.path.startswith(places.TOP + os.sep)
    shown = os.path.relpath(program.path, places.TOP) if is_here else program.path
    kind = "the proved program " if program.is_proved else ""
    say(f"by {kind}{shown}" + (f", which {program.notice}" if program.notice else ""))


def tell_of_images(folder: str, names: Iterable[str | None]) -> None:
    for name in dict.fromkeys(filter(None, names)):
        for notice in images.notices_at(os.path.join(folder, name)):
            say(f"{name}: {notice}")


def command_for(options: Namespace, path: str, folder: str, names: list[str],
                program: programs.Program | None) -> tuple[list[str], str]:
    """The command that does what is asked, and the folder for it."""
    place = path if folder == "." else os.path.basename(path)
    place = os.path.join(".", place)  # it may begin with a dash
    last = [word for word in (options.report, options.guest) if word is not None]
    if program:
        return [program.path, options.command, place, *last], folder
    data = {os.path.basename(path): os.path.abspath(path)}
    data.update((name, os.path.abspath(os.path.join(folder, name))) for name in names)
    data.update((os.path.basename(report), report) for report in last if options.report)
    shown = [word for name, file in data.items() if os.path.isfile(file)
             for word in ("--data", f"{name}={file}")]
    words = [options.command, os.path.basename(path), *map(os.path.basename, last)]
    return ["rt", "try", "--seconds", str(options.seconds), *shown, "--", *words], CRATE


def started(command: list[str], folder: str) -> tuple[bytes, str, int]:
    """What a command writes, and its status, which is 128 and the number of a signal that ended it."""
    ran = children.complete(command, cwd=folder, stdout=subprocess.PIPE, stderr=subprocess.PIPE,
                            close_fds=False)
    lines = ran.stderr.decode(errors="replace")
    if lines:
        try:
            os.write(2, ran.stderr)
        except OSError:
            pass
    if ran.returncode < 0:
        say(f"{command[0]} was ended by signal {-ran.returncode}")
    return ran.stdout, lines, ran.returncode if ran.returncode >= 0 else 128 - ran.returncode


def unexpected(expected: str, status: int, sections: Sections) -> list[str]:
    """What is not as expected, in words, each in a line."""
    if expected.isdigit():
        return [] if status == int(expected) else [f"the status is {status}, and {expected} was expected"]
    if status != 0 or sections is None:
        return [f"the status is {status}, and there is no report"]
    return [f"guest {each['name']} is {each['status']}, and {expected} was expected"
            for each in sections if each["status"] != expected]


def tell_of_silence(path: str, sections: list[reports.Section], document: faults.Table | None) -> None:
    """Says what to do next of each guest that printed nothing and has not stopped."""
    guests = faults.guests_of(document)
    for number, each in enumerate(sections):
        if each["status"] == "stopped" or each["bytes"]:
            continue
        if number < len(guests) and guests[number].get("console") == 0:
            continue
        look = f"{places.sibling('look')} {path}" + (f" {number}" if number else "")
        if each["status"] == "waiting":
            say(f"guest {each['name']} printed nothing and waits for good: `{look} at end` shows what is pending")
        elif each["steps"] == 0:
            say(f"guest {each['name']} made no step: raise `quantum` and `rounds`, or give it a turn in "
                "`turns`")
        else:
            say(f"guest {each['name']} printed nothing and is still running: give it more steps, or find out why "
                f"it hangs, by `{look} doctor`")


def tell_of_difference(options: Namespace, program: programs.Program, place: str, folder: str) -> None:
    """Says in words where a replay differs, by a run whose report is compared here."""
    stored = reports.bytes_of(options.report)
    ran = children.complete([program.path, "run", place], cwd=folder, stdin=subprocess.DEVNULL,
                            stdout=subprocess.PIPE, stderr=subprocess.PIPE)
    if stored is not None and ran.returncode == 0:
        for words in reports.differences(stored, ran.stdout):
            say(words)


def answer_of(options: Namespace, program: programs.Program | None, output: bytes, status: int, line: str,
              meaning: str, sections: Sections) -> bytes:
    """What goes to standard output."""
    if not options.json:
        return terminal.Output(options.raw).of(output, is_last=True)
    answer = {"status": status, "proved": bool(program and program.is_proved), "line": line,
              "meaning": meaning, "guests": sections or []}
    if options.command == "run":
        answer["verdict"] = verdicts.verdict(sections or []) if status == 0 else None
    if options.command != "run":
        answer["output"] = output.decode("latin-1")
    return (json.dumps(answer, indent=2) + "\n").encode()


def is_written(answer: bytes) -> bool:
    try:
        streams.write(answer)
    except OSError as error:
        say(f"the output could not be written: {error.strerror}")
        return False
    return True


def reads_once(folder: str, names: list[str], *more: str | None) -> bool:
    """Whether a file that is named is not a regular file, so that it can perhaps be read only once."""
    paths = [os.path.join(folder, name) for name in names] + [path for path in more if path]
    return any(os.path.exists(path) and not os.path.isfile(path) for path in paths)


def shown_progress(program: programs.Program, path: str, folder: str, document: faults.Table) -> None:
    if reads_once(folder, faults.file_names(document)):
        say("no --progress: a guest's file is not a regular file, and can perhaps be read only once")
    else:
        progress.show(program.path, path, folder, document, say)


def main() -> int:
    options = options_of_words()
    try:
        program = programs.found(options.program)
        if options.version:
            streams.write(versions.text_of(program).encode())
            return 0
        path = configurations.path_of(options.config)
        if options.write and options.command == "run" and image_configurations.is_image(path):
            return write_configuration(options, path)
        with image_configurations.opened(path, options) as given:
            return run_given(options, given, program)
    except (programs.Unusable, configurations.Unknown, image_configurations.Wrong) as error:
        say(str(error))
        return UNUSABLE


def write_configuration(options: Namespace, path: str) -> int:
    """Makes a configuration of the ELF file or image at this path, and runs nothing."""
    made = image_configurations.written(image_configurations.files_of(path, options), options.write)
    say(f"{made} is written: {places.sibling('run')} {made} runs it")
    return 0


def verdict_of(status: int, sections: Sections) -> int:
    """The status that the guests name; the program's own where it is not 0. What is not 0 is said."""
    if status != 0 or sections is None:
        return status or verdicts.UNENDED
    for section in verdicts.failures(sections):
        say(verdicts.words_of(section))
    return verdicts.verdict(sections)


def run_given(options: Namespace, given: image_configurations.Given, program: programs.Program | None) -> int:
    """Does what is asked with the configuration that is given, or made."""
    path, text = given.path, faults.text_of(given.path)
    document, _ = faults.parsed(text)
    folder, names = folder_of(path), faults.file_names(document)
    if not options.elf:
        named = faults.image_names(document)
        image_configurations.refuse_elf_images(folder, named, "; --elf runs it as it is")
    command, place = command_for(options, path, folder, names, program)
    if not options.quiet:
        tell_of_program(program)
    tell_of_images(folder, faults.image_names(document))
    if options.progress and program and document:
        shown_progress(program, path, folder, document)
    try:
        output, lines, status = started(command, place)
    except OSError as error:
        say(f"{error.filename or command[0]} cannot be run: {error.strerror}" if program else
            "`rt`, which the Rattle kit has, is not on the path")
        return UNUSABLE
    if not program and "run=ended" not in lines:
        say("`rt try` gave no answer; docs/guide.md says what its lines mean")
        return status
    if status == 6 and program and document and not reads_once(folder, names, options.report):
        tell_of_difference(options, program, command[2], place)
    return finish(options, given, text, program, output, lines, status)


def finish(options: Namespace, given: image_configurations.Given, text: bytes | None,
           program: programs.Program | None, output: bytes, lines: str, status: int) -> int:
    """Explains what the program has said, writes what it has written, and gives the status of the tool."""
    path = given.path
    line = next((line for line in lines.splitlines() if line.startswith("nesthv: ")), "")
    meaning = faults.explained(line, path, text, options.report)
    if meaning:
        say(meaning)
    sections = reports.sections_of(output) if options.command == "run" and status == 0 else []
    if sections is None:
        say("what the program wrote is not a report")
    tell_of_silence(given.shown, sections or [], faults.parsed(text)[0])
    if not is_written(answer_of(options, program, output, status, line, meaning, sections)):
        return UNWRITTEN
    if options.verdict:
        return verdict_of(status, sections)
    if not options.expect:
        return status
    wrong = unexpected(options.expect, status, sections)
    for words in wrong:
        say(words)
    return UNEXPECTED if wrong else 0
