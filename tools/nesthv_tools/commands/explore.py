"""Tries what hardware may do at any step of a guest's run, and says where the guest fails then. A run of
nesthv is one of those that the architecture allows. Others have the timer fire earlier, an input come
earlier, an instruction take long, a WFI end at once, a reservation be lost, or cached translations be
dropped.

Each trial changes the guest's state at one step, and goes on from there. CONFIG is a configuration, or an
ELF file or an image in place of one. The status is 0 where no trial fails, 1 where one does, and 2 where
none can be made.
"""
import contextlib
import itertools
import json
import os
import re
import shlex
import shutil
import subprocess
import sys
from argparse import ArgumentTypeError, Namespace

from nesthv_tools import (
    code_places, command_line, configurations, elf_images, explored_events, explored_runs, guest_runs,
    image_configurations, places, programs, sessions, state_cache, streams, terminal, trial_findings,
    whole_files)
from nesthv_tools.commands import batch, look
from nesthv_tools.trial_findings import Finding

USAGE = "%(prog)s [OPTION]... CONFIG [GUEST]"
EXAMPLES = """examples:
  %(prog)s kernel.elf
  %(prog)s kernel.toml --try timer,input --write findings
  %(prog)s kernel.toml --again findings
  %(prog)s hypervisor.toml --try late --by 5000 --runs 1000 --stops 4
"""
MOST_STEPS = 1 << 52


def kinds_of(text: str) -> list[str]:
    """Reads the kinds of --try."""
    kinds = text.split(",")
    for kind in kinds:
        if kind not in explored_events.KINDS:
            raise ArgumentTypeError(f"{kind} is not a kind: {', '.join(explored_events.KINDS)} are")
    return kinds


def shard_of(text: str) -> tuple[int, int]:
    """Reads I/N, which is the Ith of N parts, from 1 on."""
    found = re.fullmatch(r"([0-9]{1,4})/([0-9]{1,4})", text)
    if not found or not 1 <= int(found[1]) <= int(found[2]):
        raise ArgumentTypeError(f"{text} is not I/N with I from 1 to N")
    return int(found[1]), int(found[2])


def pattern_of(text: str) -> re.Pattern[str]:
    try:
        return re.compile(text, re.M)
    except re.error as error:
        raise ArgumentTypeError(f"{text} is not a regular expression: {error}") from None


def add_places(parser: command_line.Parser) -> None:
    """Adds the options that say what is tried, and where."""
    number = command_line.number
    parser.add_argument("--try", dest="kinds", type=kinds_of, metavar="KIND[,KIND]...",
                        default=list(explored_events.DEFAULT),
                        help=f"the kinds of events: {', '.join(explored_events.KINDS)}; all but late if "
                        "left out")
    parser.add_argument("--by", type=number(1, 1 << 40), default=explored_events.BY, metavar="N",
                        help="by how many steps `late` moves the clock; %(default)s if left out")
    parser.add_argument("--twice", action="store_true",
                        help="adds a second event at a random later step, where the first one fails nothing")
    parser.add_argument("--seed", type=number(0, 1 << 62), default=0, metavar="N",
                        help="chooses the random steps; 0 if left out")
    parser.add_argument("--from", dest="start", type=number(0, MOST_STEPS), metavar="STEP",
                        help="the first step; that of the run if left out")
    parser.add_argument("--to", dest="end", type=number(0, MOST_STEPS), metavar="STEP",
                        help="the step after the last one; the end of the run if left out")
    parser.add_argument("--each", type=number(1, 1000), metavar="N",
                        help="tries at most N steps of each place, which is a pc, its world and its caller")
    parser.add_argument("--runs", type=number(1, 1 << 40), metavar="N", help="makes at most N trials")
    parser.add_argument("--time", type=command_line.seconds, metavar="SECONDS",
                        help="begins no trial after so long")
    parser.add_argument("--shard", type=shard_of, default=(1, 1), metavar="I/N",
                        help="makes the Ith of N parts of the trials")
    parser.add_argument("--again", metavar="FOLDER",
                        help="tries the findings alone that --write has kept there: their kinds, at each "
                        "step in their functions")


def add_criteria(parser: command_line.Parser) -> None:
    """Adds the options that say what a failure is, and what is made of it."""
    group = parser.add_argument_group("what a failure is; --verdict, --stops 4 and, where the guest names no "
                                      "exit number, --console if all are left out")
    group.add_argument("--verdict", action="store_true",
                       help="another exit number than the undisturbed run's")
    group.add_argument("--console", action="store_true", help="another console than the undisturbed run's")
    group.add_argument("--stops", type=command_line.number(1, 1 << 20), metavar="N",
                       help="it has not stopped after N times the steps of the undisturbed run")
    group.add_argument("--expect", action="append", default=[], metavar="TEXT",
                       help="its console does not hold this text; may be given again")
    group.add_argument("--expect-regex", action="append", default=[], type=pattern_of, metavar="REGEX",
                       help="its console holds nothing that fits; may be given again")
    form = parser.add_mutually_exclusive_group()
    form.add_argument("--json", action="store_true", help="prints all findings as JSON")
    form.add_argument("--tap", action="store_true", help="prints TAP, a test for each kind")
    parser.add_argument("--junit", metavar="FILE", help="writes JUnit XML, a test case for each kind")
    parser.add_argument("--write", metavar="FOLDER",
                        help="keeps for each finding a configuration and a saved guest, from which "
                        "nesthv-run, nesthv-look and nesthv-debug go on")
    parser.add_argument("--elf", metavar="FILE", action="append", default=[],
                        help="one more ELF file with symbols, as of a nested kernel")
    parser.add_argument("--program", metavar="PATH", help="the program to take; nesthv-trace is beside it")
    parser.add_argument("--sshlogin", action="append", default=[], metavar="LIST",
                        help="machines, as `parallel --sshlogin` takes them, each of which makes a part; "
                        "--write is then a folder that they share")


def options_of_words() -> Namespace:
    parser = command_line.Parser(__doc__, USAGE, EXAMPLES)
    parser.add_argument("config", metavar="CONFIG", help="a configuration, an ELF file or an image")
    parser.add_argument("guest", metavar="GUEST", nargs="?", type=command_line.number(0, 99), default=0,
                        help="the guest's number, from 0 on; 0 if left out")
    add_places(parser)
    add_criteria(parser)
    image_configurations.add_options(parser, has_all=False)
    options = parser.parse_intermixed_args(sys.argv[1:])
    if options.start is not None and options.end is not None and options.end < options.start:
        parser.error(f"--to is {options.end}, which is before --from, {options.start}")
    if options.sshlogin and (options.tap or options.json or options.junit):
        parser.error("--sshlogin prints lines alone: no --tap, --json or --junit")
    options.expected = [*(pattern_of(re.escape(each)) for each in options.expect), *options.expect_regex]
    options.cache, options.cache_size = look.cache_folder(), state_cache.DEFAULT_SIZE // state_cache.MIB
    return options


def image_options(options: Namespace) -> Namespace:
    """The options of an ELF file or an image, without those that mean something else here."""
    return Namespace(**{**vars(options), "console": None, "write": None})


def kept(explorer: explored_runs.Explorer, options: Namespace, found: list[Finding]) -> None:
    """Keeps the findings where that is asked for."""
    for each in found if options.write else ():
        trial_findings.keep(options.write, explorer.runs, each, explorer.last)


def symbols_of(explorer: explored_runs.Explorer, options: Namespace) -> str | None:
    """The ELF file with the guest's symbols, which is CONFIG itself, or stands beside the image; or none."""
    with open(options.path, "rb") as file:
        is_elf = file.read(4) == elf_images.MAGIC
    own = explorer.session.symbols.own
    return options.path if is_elf else own[0].path if own else None


def lines_of(explorer: explored_runs.Explorer, options: Namespace, finding: Finding) -> list[str]:
    elf = symbols_of(explorer, options) if options.write else None
    shown = trial_findings.commands_of(options.write, finding, elf) if options.write else []
    return [*finding.lines, *shown]


def outcomes_of(explorer: explored_runs.Explorer, options: Namespace, found: list[Finding],
                is_ended: bool) -> list[batch.Outcome]:
    """What came of each kind, as tests."""
    made = []
    for kind in explorer.kinds:
        own = [each for each in found if each.kind == kind]
        reason = f"{explorer.tried[kind]:,} trials"
        lines = [line for each in own for line in (each.words(), *lines_of(explorer, options, each))]
        made.append(batch.Outcome(kind, "FAIL" if own else "LEFT" if is_ended else "PASS", reason, lines))
    return made


def show(explorer: explored_runs.Explorer, options: Namespace, is_ended: bool = False) -> int:
    """Prints what is found, and gives the status."""
    found = explorer.findings()
    kept(explorer, options, found)
    outcomes = outcomes_of(explorer, options, found, is_ended)
    if options.junit:
        whole_files.write(options.junit, batch.junit_of(explorer.session.guest.name, outcomes).encode())
    if options.json:
        value = {"found": [each.value() for each in found], "trials": dict(explorer.tried),
                 "places": len(explorer.survey.places), "tried_places": len(explorer.places - {None})}
        print(json.dumps(value, indent=2), flush=True)
    elif options.tap:
        print(f"1..{len(outcomes)}")
        for number, each in enumerate(outcomes, 1):
            batch.show(options, number, each)
    else:
        for finding in found:
            lines = [finding.words(), *lines_of(explorer, options, finding)]
            print("\n    ".join(map(terminal.line_of, lines)))
    if not options.json:
        print(f"# {summary(explorer, options, found, is_ended)}", flush=True)
    return int(bool(found))


def summary(explorer: explored_runs.Explorer, options: Namespace, found: list[Finding],
            is_ended: bool) -> str:
    tried = ", ".join(f"{kind} {explorer.tried[kind]:,}" for kind in explorer.kinds)
    is_all = explorer.is_whole and not is_ended and not options.again and options.shard[1] == 1
    rest = ", and at the others none of these changes anything" if is_all else \
        ", and was ended" if is_ended else ""
    return f"{len(found)} found; trials: {tried}; {explorer.share()}{rest}"


def explore(options: Namespace, given: image_configurations.Given) -> int:
    program = programs.found(options.program)
    if not program:
        raise sessions.Bad("there is no proved program (see dist/check)")
    again = trial_findings.kept_in(options.again) if options.again else []
    session = sessions.Session(options, program, given.path, options.guest, given.made_of)
    with contextlib.closing(session):
        if not session.runs.tracer:
            raise sessions.Bad("trials go by the log of nesthv-trace, which does not stand beside "
                               f"{program.path}")
        explorer = explored_runs.Explorer(session, options, again)
        try:
            explorer.explore()
        except (SystemExit, KeyboardInterrupt):  # of a signal: what is found stands
            show(explorer, options, is_ended=True)
            raise
        return show(explorer, options)


def explore_elsewhere(options: Namespace) -> int:
    """Has each machine of GNU parallel's --sshlogin make a part of the trials."""
    if not shutil.which("parallel"):
        streams.say("GNU parallel, which --sshlogin takes, is not installed (apt-get install parallel)")
        return 2
    words = list(itertools.chain.from_iterable(
        [] if before == "--sshlogin" or word == "--sshlogin" or word.startswith("--sshlogin=") else [word]
        for before, word in zip(["", *sys.argv[1:]], sys.argv[1:])))
    count = sum(len(each.split(",")) for each in options.sshlogin)
    tool = os.path.join(places.TOOLS, "explore")
    command = ["parallel", "--will-cite", "--keep-order", "--jobs", "1",
               *(word for login in options.sshlogin for word in ("--sshlogin", login)),
               f"cd {shlex.quote(os.getcwd())} && {shlex.join([tool, *words])} --shard {{}}/{count}"]
    ran = subprocess.run(command, input="".join(f"{number}\n" for number in range(1, count + 1)),
                         stdout=subprocess.PIPE, text=True)
    print(ran.stdout, end="", flush=True)
    parts = sum(re.match(r"# [0-9]+ found", line) is not None for line in ran.stdout.splitlines())
    found = any(re.match(r"# [1-9][0-9]* found", line) for line in ran.stdout.splitlines())
    return 1 if found else 0 if parts == count else 2


def main() -> int:
    options = options_of_words()
    try:
        options.path = path = configurations.file_of(options.config)
        if options.sshlogin:
            return explore_elsewhere(options)
        with image_configurations.opened(path, image_options(options)) as given:
            return explore(options, given)
    except (sessions.Bad, guest_runs.Unusable, programs.Unusable, trial_findings.Bad, code_places.Failed,
            configurations.Unknown, image_configurations.Wrong) as why:
        streams.say(str(why))
        return 2
