"""The cases of the command, the debugger and the log, by the programs that rt has built of these sources, else by those
of dist/, or by the one that NESTHV has with those beside it. A line tells what has been run of each file of cases, and
cases/counts.txt has the same lines, so that a file that loses a case is seen."""
import concurrent.futures
import glob
import multiprocessing
import os
import platform
import sys
import unittest
from types import ModuleType

import helper
from nesthv_tools import programs

import case_files
import case_programs
import case_runs
import command_cases
import command_runs
import gdb_cases
import gdb_talks
import trace_cases
import trace_runs
from case_runs import Outcome, Programs

CASES = os.path.join(os.path.dirname(os.path.abspath(__file__)), "cases")
COUNTS = os.path.join(CASES, "counts.txt")
# By folder of cases: what reads its files, the kinds of their blocks, and what runs them.
FOLDERS: dict[str, tuple[ModuleType, tuple[str, ...], ModuleType]] = {
    "command": (command_cases, command_cases.KINDS, command_runs),
    "gdb": (gdb_cases, ("case",), gdb_talks),
    "trace": (trace_cases, ("case",), trace_runs),
}
UNITS = ("cases", "asks", "runs", "tables", "rows", "lines", "cuts", "left out", "lines of the inside",
         "rows of the description")


def program(name: str) -> str:
    """The path of a program: that which NESTHV has, or the one beside it; else the one that rt has built, where that is
    no older than the sources, else that of dist/."""
    named = os.environ.get("NESTHV")
    if named:
        found = programs.named(named).path if name == "nesthv" else programs.beside(name, named)
        return os.path.abspath(found or "")
    crate = name.replace("-", "_")
    built = os.path.join(helper.TOP, "crates", crate, "out", crate)
    if programs.is_program(built) and not programs.is_older_than_sources(built):
        return built
    return os.path.join(helper.TOP, "dist", name)


def paths(folder: str) -> list[str]:
    return sorted(glob.glob(os.path.join(CASES, folder, "*.cases")))


def named(path: str) -> str:
    """A file of cases by its folder and its name."""
    return os.path.relpath(path, CASES)


def told(path: str, outcome: Outcome) -> str:
    """The line that counts what has been run of a file."""
    return f"{named(path)}: " + ", ".join(counted(outcome.counts[unit], unit) for unit in UNITS
                                          if outcome.counts.get(unit))


def counted(count: int, unit: str) -> str:
    word, space, rest = unit.partition(" ")
    return f"{count} {word.removesuffix('s') if count == 1 else word}{space}{rest}"


def counts() -> list[str]:
    return case_files.lines_of(COUNTS)


class CasesTest(unittest.TestCase):
    maxDiff = None

    def programs(self) -> Programs:
        """The programs, or a skip where they are not there or do not run here."""
        found = Programs(*map(program, ("nesthv", "nesthv-gdb", "nesthv-trace")))
        for path in vars(found).values():
            if not programs.is_program(path):
                self.skipTest(f"{path} is not a program")
        if (platform.system(), platform.machine()) != ("Linux", "x86_64"):
            self.skipTest("the programs run under Linux on x86-64 alone")
        return found

    def check(self, folder: str) -> None:
        """Runs the cases of a folder side by side, over the processors that there are."""
        found = self.programs()
        reader, kinds, runner = FOLDERS[folder]
        context = multiprocessing.get_context("fork")
        with concurrent.futures.ProcessPoolExecutor(os.cpu_count(), context, case_runs.take_limits) as pool:
            running = []
            for path in paths(folder):
                suite = case_files.read(path, kinds)
                cases = reader.cases(suite, case_programs.words_of(suite))
                running.append((path, [pool.submit(runner.check, found, case) for case in cases]))
            lines, differences = [], []
            for path, cases in running:
                outcome = Outcome()
                for case in cases:
                    outcome.add(case.result())
                lines.append(told(path, outcome))
                differences += [f"{folder}/{each}" for each in outcome.differences]
                print(lines[-1], file=sys.stderr, flush=True)
        self.assertEqual(differences, [], "\n".join(["", *differences]))
        wanted = [line for line in counts() if line.startswith(f"{folder}/")]
        self.assertEqual(lines, wanted, "cases/counts.txt has other counts")

    def test_command(self) -> None:
        self.check("command")

    def test_gdb(self) -> None:
        self.check("gdb")

    def test_trace(self) -> None:
        self.check("trace")

    def test_stored_words(self) -> None:
        """GNU as makes the words that stand beside the cases, of the same lines."""
        if not case_programs.assembler():
            self.skipTest("GNU as for RISC-V is not installed")
        for folder, (_, kinds, _) in FOLDERS.items():
            for path in paths(folder):
                with self.subTest(named(path)):
                    words = case_programs.assembled(case_files.read(path, kinds))
                    stored = case_programs.stored(path)
                    self.assertEqual(case_programs.listing(stored), case_programs.listing(words))

    def test_files(self) -> None:
        """No file of words or of answers stands without its cases."""
        cases = {os.path.splitext(path)[0] for folder in FOLDERS for path in paths(folder)}
        for path in glob.glob(os.path.join(CASES, "*", "*")):
            self.assertIn(os.path.splitext(path)[0], cases, path)


if __name__ == "__main__":
    unittest.main()
