"""Tries the controls of edits, and with --edits the edits too. An edit is a wrong body, which the prover has to
refuse: crates/NAME/must-fail/EDIT.edit, which the gate tries, or crates/NAME/controls/EDIT.edit, which it doesn't.
Its control, crates/NAME/controls/EDIT.control, has the same lines `file:` and `old:`, and its lines `new:` have a
right body in the textual form of the edit's, which the prover has to take. Where a control is refused, the prover may
refuse the edit for its form too, and not for what it means: then the edit shows nothing.

What changes different functions of a crate is applied together, in a copy of the sources, and one `rt check` proves
these functions. What it doesn't settle is tried again with less beside it, down to single bodies. An edit is
`refused (values)` where there are values at which a goal is false, `refused (open goal)` where a goal has no proof,
`refused (limit)` where the prover stopped at a limit of its own with no verdict, `PROVED` where the contracts let it
through, and `bad` where it did not reach the prover. The last three show nothing.

It is not part of the gate. The status is 0 where each edit that was tried is refused by values or an open goal and
each control is proved, 1 where one is not or an edit has no control, 2 where nothing was tried.
"""
import glob
import os
import shutil
import subprocess
from collections import Counter
from collections.abc import Iterator

from nesthv_tools import command_line, endings, places, streams
from nesthv_tools.checks import BAD, LIMIT, OPEN, PROVED, VALUES, Checked, Verdict
from nesthv_tools.edits import (CRATES, FOLDERS, Edit, Place, Unusable, changed, changes_of, controls_of, edits_of,
                                function_at, line_of, path_of, text_of)

NO_CONTROL = Verdict("none")


class Crate:
    """A crate in a copy of the sources, its edits, and their controls by the names of the edits."""

    def __init__(self, folder: str, name: str, jobs: int) -> None:
        self.name, self.jobs = name, jobs
        self.folder = os.path.join(folder, "crates", name)
        self.edits = edits_of(name)
        self.controls = controls_of(name, self.edits)
        files = {edit.file for edit in self.edits.values()}
        self.texts = {file: text_of(os.path.join(CRATES, name, file)) for file in files}
        self.paths = {edit: self.places(edit, path_of) for edit in self.edits}

    def places(self, name: str, place_of: Place) -> set[str]:
        """What an edit changes, and its control too: the places of its old texts."""
        file = self.edits[name].file
        text = self.texts[file]
        return {place_of(file, text, change.place) for change in changes_of(text, self.edits[name])}

    def is_in_functions(self, name: str) -> bool:
        """Whether an edit changes nothing outside functions."""
        text = self.texts[self.edits[name].file]
        return all(function_at(text, change.place) for change in changes_of(text, self.edits[name]))

    def rounds(self, names: list[str], place_of: Place) -> list[list[str]]:
        """These edits or controls, so that those of a round change different places. What is outside functions
        may change each function, so it has a round of its own."""
        rounds: list[tuple[list[str], set[str]]] = []
        for name in filter(self.is_in_functions, names):
            places = self.places(name, place_of)
            free = next((taken for taken in rounds if not taken[1] & places), None)
            if free is None:
                free = ([], set())
                rounds.append(free)
            free[0].append(name)
            free[1].update(places)
        return [names for names, _ in rounds] + [[name] for name in names if not self.is_in_functions(name)]

    def apply(self, bodies: list[Edit]) -> None:
        """Writes the files of the crate with these bodies."""
        for file, text in self.texts.items():
            changes = [change for body in bodies if body.file == file for change in changes_of(text, body)]
            with open(os.path.join(self.folder, file), "w", encoding="utf-8") as to:
                to.write(changed(text, changes))

    def check(self, names: list[str], bodies: list[Edit]) -> Checked:
        """What the prover says, with these bodies, of the functions that the edits of these names change."""
        self.apply(bodies)
        paths = {path for name in names for path in self.paths[name]}
        only = [] if "" in paths else [word for path in sorted(paths) for word in ("--only", path)]
        ran = subprocess.run(["rt", "check", "--jobs", str(self.jobs), *only], cwd=self.folder,
                             stdin=subprocess.DEVNULL, stdout=subprocess.PIPE, stderr=subprocess.STDOUT,
                             text=True, errors="replace")
        return Checked(self.name, ran.returncode, ran.stdout)

    def settled(self, bodies: dict[str, Edit]) -> dict[str, Verdict]:
        """What one check of these bodies settles. Where it refuses a function that two of them change, it does
        not tell which of the two it refuses."""
        checked = self.check(list(bodies), list(bodies.values()))
        uses = Counter(path for name in bodies for path in self.paths[name])
        told = {name: checked.of(self.paths[name]) for name in bodies}
        if len(bodies) == 1:
            return {name: verdict or checked.of_all() for name, verdict in told.items()}
        return {name: verdict for name, verdict in told.items()
                if verdict and (verdict.word == PROVED or all(uses[path] == 1 for path in self.paths[name]))}

    def verdicts(self, bodies: dict[str, Edit]) -> dict[str, Verdict]:
        """What the prover says of each of these bodies, which change different places."""
        told = self.settled(bodies)
        left = [name for name in bodies if name not in told]
        half = 0 if told else len(left) // 2
        for part in filter(None, (left[:half], left[half:])):
            told.update(self.verdicts({name: bodies[name] for name in part}))
        return told

    def of_edits(self) -> dict[str, Verdict]:
        """What the prover says of each edit."""
        rounds = self.rounds(list(self.edits), path_of)
        return {name: verdict for names in rounds
                for name, verdict in self.verdicts({name: self.edits[name] for name in names}).items()}

    def of_controls(self, names: list[str]) -> dict[str, Verdict]:
        """What the prover says of each of these controls. Where it refuses one, it has to take the crate."""
        told = self.verdicts({name: self.controls[name] for name in names})
        refused = [name for name, verdict in told.items() if verdict.word != PROVED]
        if refused:
            unproved = self.check(refused, [])
            if unproved.status:
                raise Unusable(f"{self.name}: the crate itself is not proved: {unproved.why()}")
        return told


def told_of_controls(crate: Crate) -> bool:
    """Tries the controls of a crate, and tells of each. Gives whether each edit has one that is proved."""
    lacking = [name for name in crate.edits if name not in crate.controls]
    for name in lacking:
        print(f"{crate.name}/{name}: no control", flush=True)
    is_good = not lacking
    for names in crate.rounds(list(crate.controls), line_of):
        for name, (word, why) in crate.of_controls(names).items():
            print(f"{crate.name}/{name}: {'proved' if word == PROVED else 'refused: ' + why}", flush=True)
            is_good = is_good and word == PROVED
    return is_good


def said_of_edit(verdict: Verdict) -> str:
    match verdict.word:
        case "proved":
            return "PROVED"
        case "bad":
            return f"bad ({verdict.why})"
        case word:
            return f"refused ({word})"


def said_of_control(verdict: Verdict) -> str:
    match verdict.word:
        case "none":
            return "no control"
        case "proved":
            return "control proved"
        case _:
            return f"control refused: {verdict.why}"


def told_of_edits(crate: Crate) -> Iterator[tuple[str, str]]:
    """Tries the edits of a crate and their controls, tells of each, and gives the words of both verdicts."""
    edits = crate.of_edits()
    controls: dict[str, Verdict] = {}
    for names in crate.rounds(list(crate.controls), line_of):
        controls.update(crate.of_controls(names))
    for name in crate.edits:
        edit, control = edits[name], controls.get(name, NO_CONTROL)
        print(f"{crate.name}/{name}: {said_of_edit(edit)}, {said_of_control(control)}", flush=True)
        yield edit.word, control.word


def sum_of(pairs: list[tuple[str, str]]) -> str:
    """How many edits and controls came to what."""
    edits, controls = (Counter(words) for words in zip(*pairs)) if pairs else (Counter(), Counter())
    refused = edits[VALUES] + edits[OPEN] + edits[LIMIT]
    others = len(pairs) - controls[PROVED] - controls["none"]
    return (f"{len(pairs)} edits: {refused} refused ({edits[VALUES]} by values, {edits[OPEN]} by an open goal, "
            f"{edits[LIMIT]} by a limit), {edits[PROVED]} PROVED, {edits[BAD]} bad; "
            f"controls: {controls[PROVED]} proved, {others} refused, {controls['none']} none")


def copy_sources(folder: str) -> None:
    """Copies all sources, without what checks have kept of them."""
    for name in "crates.txt", "HANDLES":
        shutil.copy(os.path.join(places.TOP, name), folder)
    kept = shutil.ignore_patterns("out")
    shutil.copytree(CRATES, os.path.join(folder, "crates"), ignore=kept, symlinks=True)


def chosen(names: list[str]) -> list[str]:
    """The crates that are named, or all that have edits."""
    for name in names:
        if not os.path.isdir(os.path.join(CRATES, name, "src")):
            raise Unusable(f"{name} is not a crate")
    paths = [path for folder in FOLDERS for path in glob.glob(os.path.join(CRATES, "*", folder))]
    return names or sorted({os.path.basename(os.path.dirname(path)) for path in paths})


def tried(names: list[str], with_edits: bool, jobs: int) -> int:
    """Tries the controls of these crates, and their edits where that is asked for. Gives the status."""
    if not shutil.which("rt"):
        raise Unusable("rt is not installed")
    with endings.Folder("controls-") as folder:
        crates = [Crate(folder, name, jobs) for name in chosen(names)]
        copy_sources(folder)
        if not with_edits:
            return 0 if all([told_of_controls(crate) for crate in crates]) else 1
        pairs = [pair for crate in crates for pair in told_of_edits(crate)]
    print(sum_of(pairs), flush=True)
    return 0 if all(edit in (VALUES, OPEN) and control == PROVED for edit, control in pairs) else 1


def main() -> int:
    parser = command_line.Parser(__doc__)
    parser.add_argument("names", metavar="NAME", nargs="*", help="a crate; without one, all that have edits")
    parser.add_argument("--edits", action="store_true", help="try the edits too, those outside the gate among them")
    parser.add_argument("--jobs", type=command_line.number(1, 64), default=1, help="the jobs of a check (1)")
    words = parser.parse_args()
    try:
        return tried(words.names, words.edits, words.jobs)
    except Unusable as error:
        streams.say(str(error))
        return 2
