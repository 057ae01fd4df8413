"""Has AFL++ make the console inputs of a guest. Each run goes on from the state before the guest reads
its first input, with the bytes of a test case as inputs that have all come. AFL's map is filled from the
counts of nesthv-trace, by world.

CORPUS is a folder of inputs, whose runs are as they ought to be. A run crashes, for AFL, where the guest
names an exit number other than 0, takes an exception where no run of the corpus has one, waits for good
though none of these does, or does not stop.

Words after `--` go to afl-fuzz. The status is 0 where nothing crashed, 1 where something did, and 2 where
nothing could be run.
"""
import contextlib
import os
import shutil
import subprocess
import sys
from argparse import Namespace

from nesthv_tools import (
    children, command_line, configurations, fuzzed_inputs, guest_runs, image_configurations, places, programs,
    sessions, state_cache, streams, whole_files)
from nesthv_tools.commands import look
from nesthv_tools.fuzzed_inputs import Bad, Fuzzed

USAGE = "%(prog)s [OPTION]... CONFIG GUEST CORPUS [-- WORD...]"
EXAMPLES = """examples:
  %(prog)s parser.elf 0 corpus --time 120
  %(prog)s parser.elf 0 corpus --show corpus.fuzz/afl/default/crashes/id:000000*
  %(prog)s parser.elf 0 corpus --prepare
"""
STEPS = 1_000_000
# AFL's own tests of the machine, which say nothing of these runs: no process of a guest dumps core.
SETTINGS = {"AFL_I_DONT_CARE_ABOUT_MISSING_CRASHES": "1", "AFL_SKIP_CPUFREQ": "1", "AFL_NO_AFFINITY": "1",
            "AFL_NO_UI": "1"}
TIMEOUT = 10000  # milliseconds of a run: the steps bound it


def options_of_words() -> Namespace:
    given = sys.argv[1:]
    at = given.index("--") if "--" in given else len(given)
    parser = command_line.Parser(__doc__, USAGE, EXAMPLES)
    parser.add_argument("config", metavar="CONFIG", help="a configuration, an ELF file or an image")
    parser.add_argument("guest", metavar="GUEST", type=command_line.number(0, 99),
                        help="the guest's number, from 0 on")
    parser.add_argument("corpus", metavar="CORPUS", help="a folder of inputs to begin with")
    add_options(parser)
    options = parser.parse_args(given[:at])
    options.more = given[at + 1:]
    options.folder = options.write or f"{options.corpus.rstrip('/')}.fuzz"
    options.elf, options.cache = [], look.cache_folder()
    options.cache_size = state_cache.DEFAULT_SIZE // state_cache.MIB
    return options


def add_options(parser: command_line.Parser) -> None:
    number = command_line.number
    parser.add_argument("--write", metavar="FOLDER",
                        help="where the target and what AFL finds are put; CORPUS.fuzz if left out")
    parser.add_argument("--at", type=number(0, 1 << 52), metavar="STEP",
                        help="the step from which on the guest has the inputs; where it first asks for one "
                        "if left out")
    parser.add_argument("--most", type=number(1, 1 << 32), default=STEPS, metavar="N",
                        help="how many steps a run has at most after that; %(default)s if left out")
    parser.add_argument("--time", type=number(1, 1 << 30), metavar="SECONDS",
                        help="ends after so long; a signal ends it if left out")
    form = parser.add_mutually_exclusive_group()
    form.add_argument("--prepare", action="store_true",
                      help="makes the target alone, and prints the command to give to afl-fuzz, afl-tmin, "
                      "afl-cmin or afl-showmap")
    form.add_argument("--show", metavar="FILE",
                      help="says what comes of the inputs of this file, and keeps a configuration and a "
                      "saved guest from which nesthv-run, nesthv-look and nesthv-debug go on")
    parser.add_argument("--program", metavar="PATH", help="the program to take; nesthv-trace is beside it")
    image_configurations.add_options(parser, has_all=False)


def needed(name: str, package: str) -> str:
    """The path of a program that has to be installed."""
    found = shutil.which(name)
    if not found:
        raise Bad(f"there is no {name} (apt-get install {package})")
    return found


def target_in(folder: str) -> str:
    """Builds the target."""
    path, source = os.path.join(folder, "fuzz_target"), os.path.join(places.TOOLS, "fuzz_target.c")
    ran = children.complete([needed("cc", "gcc"), "-O2", "-o", path, source], stdin=subprocess.DEVNULL,
                            stdout=subprocess.PIPE, stderr=subprocess.STDOUT)
    if ran.returncode:
        raise Bad(f"{source} cannot be built: {next(iter(ran.stdout.decode().splitlines()), 'cc failed')}")
    return path


def seeds_in(folder: str, fuzzed: Fuzzed, corpus: dict[str, bytes]) -> None:
    """Refuses a corpus with an input whose run is a failure."""
    for name, outcome in zip(corpus, fuzzed.outcomes):
        if outcome.status == "stopped" and outcome.verdict():
            raise Bad(f"the run of {os.path.join(folder, name)} ends with exit {outcome.verdict()}: the "
                      "corpus is to have inputs whose runs are right")


def fuzz(options: Namespace, words: list[str]) -> int:
    """Has AFL run the target, and counts the crashes that it finds."""
    afl, found = needed("afl-fuzz", "afl++"), os.path.join(options.folder, "afl")
    bounds = ["-V", str(options.time)] if options.time else []
    corpus = "-" if os.path.isdir(found) else options.corpus
    command = [afl, "-i", corpus, "-o", found, "-t", str(TIMEOUT), *bounds, *options.more, "--", *words]
    environment = {**SETTINGS, **children.environment()}
    ran = children.complete(command, env=environment, stdin=subprocess.DEVNULL, stdout=sys.stderr)
    crashes = os.path.join(found, "default", "crashes")
    found_files = os.listdir(crashes) if os.path.isdir(crashes) else []
    names = sorted(name for name in found_files if name.startswith("id"))
    for name in names:
        print(os.path.join(crashes, name))
    print(f"# {len(names)} found")
    return 1 if names else 2 if ran.returncode else 0


def show(options: Namespace, fuzzed: Fuzzed) -> int:
    """Says what comes of the inputs of a file, and keeps the guest that has them."""
    with open(options.show, "rb") as file:
        trial = fuzzed.trial(file.read())
    why = fuzzed.why_failed(trial.outcome(fuzzed.runs, fuzzed.end()))
    stem = os.path.join(options.folder, "shown")
    text = f'format = 2\nturns = [[0, {fuzzed.steps}]]\n\n[[guest]]\nname = "{fuzzed.runs.guest.name}"\n' \
        'resume = "shown.saved"\n'
    whole_files.write(f"{stem}.saved", trial.saved.form())
    whole_files.write(f"{stem}.toml", text.encode())
    print(f"{options.show}: {why or 'no failure'}")
    for tool, more in (("run", ""), ("look", " last-trap"), ("debug", "")):
        print(f"    nesthv-{tool} {stem}.toml{more}")
    return int(bool(why))


def prepared(options: Namespace, session: sessions.Session) -> int:
    """Makes what AFL needs, and does what is asked for."""
    corpus = fuzzed_inputs.corpus_in(options.corpus)
    runs = session.runs
    if not runs.tracer:
        raise Bad("the runs go by the log of nesthv-trace, which does not stand beside "
                  f"{session.program.path}")
    step = fuzzed_inputs.step_before(runs) if options.at is None else options.at
    fuzzed = Fuzzed(runs, fuzzed_inputs.base_at(runs, step), list(corpus.values()), options.most)
    seeds_in(options.corpus, fuzzed, corpus)
    os.makedirs(options.folder, exist_ok=True)
    if options.show:
        return show(options, fuzzed)
    fuzzed.prepare(options.folder, os.path.abspath(runs.tracer))
    words = [target_in(options.folder), options.folder]
    streams.say(f"the runs go on from step {step:,}")
    if options.prepare:
        print(" ".join(words), "@@")
        return 0
    return fuzz(options, words)


def main() -> int:
    options = options_of_words()
    try:
        if not (options.prepare or options.show):
            needed("afl-fuzz", "afl++")
        path = configurations.file_of(options.config)
        program = programs.found(options.program)
        if not program:
            raise Bad("there is no proved program (see dist/check)")
        given_options = Namespace(**{**vars(options), "console": None, "write": None})
        with image_configurations.opened(path, given_options) as given:
            session = sessions.Session(options, program, given.path, options.guest, given.made_of)
            with contextlib.closing(session):
                return prepared(options, session)
    except (Bad, sessions.Bad, guest_runs.Unusable, programs.Unusable, configurations.Unknown,
            image_configurations.Wrong) as why:
        streams.say(str(why))
        return 2
