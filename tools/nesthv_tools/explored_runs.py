"""Tries events at the steps of a run, and finds what fails."""
import itertools
import random
import re
import time
from argparse import Namespace
from collections import Counter
from collections.abc import Iterator
from typing import Any

from nesthv_tools import event_logs, guest_runs, parallel, reports, saves, streams, trial_effects, trials
from nesthv_tools.explored_events import AT_STATES, KINDS, Setting
from nesthv_tools.sessions import Session
from nesthv_tools.trial_failures import Criteria, Failure, Rank, failures_of
from nesthv_tools.trial_findings import Finding, Names, merged
from nesthv_tools.trial_places import Survey
from nesthv_tools.trials import Outcome, Trial

SHORT = 100000  # steps of a run in which events are tried at each step
TELL_EVERY = 10.0  # seconds
STOPS = 4  # times the steps, if no criterion is given

# The step of an instruction that reads the clock: CSRRW and the like of time.
READS_TIME = re.compile(rb"^step ([0-9]+) \S+ [0-9a-f]+ c01[0-9a-f][1-79a-f][0-9a-f](?:73|f3) ", re.M)

Tried = tuple[Trial, Trial | None, Outcome]


class Explorer:
    """Tries events at the steps of a session's run."""

    def __init__(self, session: Session, options: Namespace, again: list[dict[str, Any]]) -> None:
        self.session, self.runs, self.options, self.again = session, session.runs, options, again
        self.plain = trials.undisturbed(self.runs)
        self.criteria = criteria_of(options, self.plain)
        self.last = self.last_step()
        self.start = max(options.start or 0, self.runs.first)
        self.end = self.plain.steps if options.end is None else min(options.end, self.plain.steps)
        if self.start > self.end:
            raise guest_runs.Unusable(f"step {self.start} is not in the run, which goes from "
                                      f"{self.runs.first} to {self.plain.steps}")
        is_bounded = options.each or options.runs or options.time
        self.is_whole = not is_bounded and self.end - self.start <= SHORT
        self.survey = Survey(self.runs, self.start, self.end, options.each or 1, self.is_whole)
        self.setting = Setting(options.by, self.survey.reads_time)
        self.kinds = [kind for kind in KINDS if kind in options.kinds]
        self.names, self.random = Names(session), random.Random(options.seed)
        self.found: dict[tuple[Any, ...], Finding] = {}
        self.tried: Counter[str] = Counter()
        self.places: set[Any] = set()
        self.begun = self.told = time.monotonic()
        self.now = self.start  # the step of the last trial

    def last_step(self) -> int:
        """The step up to which trials go on."""
        if self.plain.status == "running":
            return self.runs.last
        times = self.criteria.stops or STOPS
        return self.runs.first + times * (self.plain.steps - self.runs.first) + trials.SLACK

    def states(self) -> Iterator[saves.Saved]:
        """The states at which events are tried that the log does not place."""
        if self.is_whole:
            yield from itertools.islice(self.runs.singles(self.start, self.end), self.end - self.start)
            return
        yield from map(self.runs.at, self.survey.by_place(self.options.each or 1))
        if self.options.runs or self.options.time:
            yield from map(self.runs.at, self.random_steps())

    def random_steps(self) -> Iterator[int]:
        """All steps, in a random order."""
        made = set[int]()
        while len(made) < self.end - self.start:
            step = self.random.randrange(self.start, self.end)
            if step not in made:
                made.add(step)
                yield step

    def is_wanted(self, kind: str, saved: saves.Saved) -> bool:
        """Whether a kind is tried at a state; of kept findings, where one of this kind was."""
        if not self.again:
            return True
        name = self.names.name(saved).partition("+")[0]
        pc = saved.numbers["pc"]
        return any(each["kind"] == kind and (name in each["functions"] or pc in each["pcs"])
                   for each in self.again)

    def trials(self) -> Iterator[Trial]:
        """The trials, in order."""
        made: set[tuple[str, int]] = set()
        for kind in self.kinds:
            for step in self.survey.steps_of(kind) if kind not in AT_STATES else ():
                yield from self.trial_of(kind, self.runs.at(step), step, made)
        kinds = [kind for kind in self.kinds if kind in AT_STATES]
        for saved in self.states() if kinds else ():
            for kind in kinds:
                yield from self.trial_of(kind, saved, saved.numbers["steps"], made)

    def trial_of(self, kind: str, saved: saves.Saved, step: int,
                 made: set[tuple[str, int]]) -> Iterator[Trial]:
        """The trial of a kind at a state, where the event changes something that was not tried."""
        if (kind, step) in made or kind == "wake" and self.survey.waits[step] == saved.numbers["clock"] + 1:
            return
        changed = KINDS[kind].change(saved, self.setting)
        if changed and self.is_wanted(kind, saved):
            made.add((kind, step))
            if len(made) % self.options.shard[1] == self.options.shard[0] % self.options.shard[1]:
                self.places.add(self.survey.place_of.get(step))
                yield Trial(kind, step, changed)

    def bounded(self) -> Iterator[Trial]:
        """The trials, until there are as many as were asked for, or the time has passed."""
        for number, trial in enumerate(self.trials()):
            is_late = self.options.time and time.monotonic() - self.begun > self.options.time
            if is_late or self.options.runs and number >= self.options.runs:
                return
            yield trial

    def outcomes_of(self, trial: Trial) -> list[Tried]:
        """What comes of a trial, and with --twice of a second event at a later step of its run."""
        outcome = trial.outcome(self.runs, self.last)
        made: list[Tried] = [(trial, None, outcome)]
        if self.options.twice and not self.failures(trial.kind, outcome):
            second = self.second(trial, outcome)
            if second:
                made.append((trial, second, second.outcome(self.runs, self.last)))
        return made

    def second(self, trial: Trial, outcome: Outcome) -> Trial | None:
        """A second event at a random later step of the run after a first one, or none."""
        chosen = random.Random(f"{self.options.seed} {trial.kind} {trial.step}")
        if outcome.steps <= trial.start() + 1:
            return None
        step = chosen.randrange(trial.start() + 1, outcome.steps)
        with trial.line(self.runs) as line:
            saved = line.at(step)
        kinds = [kind for kind in self.kinds if kind in AT_STATES]
        chosen.shuffle(kinds)
        for kind in kinds:
            changed = KINDS[kind].change(saved, self.setting)
            if changed:
                return Trial(kind, saved.numbers["steps"], changed)
        return None

    def failures(self, kind: str, outcome: Outcome) -> list[Failure]:
        return failures_of(self.criteria, kind, self.plain, outcome, self.names.of)

    def explore(self) -> None:
        """Makes all trials, and keeps what fails."""
        for tried in parallel.in_order(self.outcomes_of, self.bounded()):
            for trial, second, outcome in tried:
                self.tried[trial.kind] += 1
                self.now = trial.step
                failures = self.failures(trial.kind, outcome)
                if failures:
                    self.take(trial, second, outcome, failures)
            self.tell()

    def take(self, trial: Trial, second: Trial | None, outcome: Outcome, failures: list[Failure]) -> None:
        """Takes a trial that fails, once it is confirmed."""
        key = key_of(trial, second, failures)
        if key in self.found:
            self.found[key].count += 1
            return
        early = [each for each in (trial, second) if each and each.kind == "timer"]
        if any(map(self.reads_time, early)):
            if not second:
                self.take_moved(trial)
            return
        self.confirm(second or trial, outcome)
        own = self.runs.at(trial.step)
        before = self.runs.at(trial.step - 1) if trial.step > self.runs.first else None
        lines = trial_effects.lines_of(self.runs, trial, own.mode()) if not second else []
        finding = Finding(trial.kind, self.names.at(own, before), failures, trial, lines)
        finding.second = second
        self.found[key] = finding

    def confirm(self, trial: Trial, outcome: Outcome) -> None:
        """Asks the program whose report is proved, which has to say the same of a run."""
        report = trial.report(self.runs, self.last)
        section = (reports.sections_of(report) or [{}])[0]
        said = section.get("status"), section.get("steps"), section.get("console")
        if said != (outcome.status, outcome.steps, outcome.text()):
            raise guest_runs.Unusable(f"nesthv and nesthv-trace say different things of {trial.kind} at step "
                                      f"{trial.step}: {said[:2]} and {outcome[:2]}")

    def reads_time(self, trial: Trial) -> bool:
        """Whether the clock is read after a timer that fired before its moment, which no hardware shows."""
        if self.setting.reads_time:
            return False
        with trial.line(self.runs) as line:
            with line.log_of(["steps"], 0, self.last - trial.start()) as file:
                return any(True for _ in event_logs.Log(file, "the log").found(READS_TIME))

    def take_moved(self, trial: Trial) -> None:
        """Tries in place of a trial the one whose clock moves to the moment of the timer."""
        setting = self.setting._replace(reads_time=True)
        saved = KINDS[trial.kind].change(self.runs.at(trial.step), setting)
        if saved:
            moved = trial._replace(saved=saved)
            outcome = moved.outcome(self.runs, self.last)
            failures, kept = self.failures(trial.kind, outcome), self.setting
            self.setting = setting
            if failures:
                self.take(moved, None, outcome, failures)
            self.setting = kept

    def tell(self) -> None:
        """Says how far it is, where it takes long."""
        now = time.monotonic()
        if now - self.told > TELL_EVERY:
            self.told = now
            streams.say(self.progress())

    def progress(self) -> str:
        made = sum(self.tried.values())
        rate = made / max(1e-9, time.monotonic() - self.begun)
        rest = f", at step {self.now:,} of {self.end:,}" if self.is_whole else \
            f", {max(0, self.options.runs - made):,} to come" if self.options.runs else ""
        return f"{made:,} trials, {rate:.0f} a second{rest}; {len(self.found)} places with a failure"

    def share(self) -> str:
        """What share of the places was tried, in words."""
        places = self.survey.places
        tried = len(self.places - {None})
        return f"{tried:,} of {len(places):,} places tried" + \
            (f" ({100 * tried // len(places)} %)" if places else "")

    def findings(self) -> list[Finding]:
        return merged(list(self.found.values()))


def criteria_of(options: Namespace, plain: Outcome) -> Criteria:
    """What is asked of the runs: what the options say, else what the undisturbed run suggests."""
    if options.verdict or options.console or options.stops or options.expected:
        return Criteria(options.verdict, tuple(KINDS) * options.console, options.stops or 0, options.expected)
    kinds = () if plain.names_verdict() else tuple(kind for kind in KINDS if kind not in AT_STATES)
    return Criteria(True, kinds, STOPS, [])


def key_of(trial: Trial, second: Trial | None, failures: list[Failure]) -> tuple[Any, ...]:
    """By what trials are the same finding: consoles may differ in many ways."""
    words = tuple(each.rank if each.rank == Rank.CONSOLE else each for each in failures)
    return trial.kind, trials.world_of(trial.saved), trial.saved.numbers["pc"], words, second is not None
