#!/usr/bin/env python3
"""Runs the tests of a folder, file by file. It says how far it is, prints each failure when its file is done, and at
the end which tests it left out, and why.
"""
# Usage: runner.py FOLDER [PATTERN]     (test*.py if PATTERN is left out)
import collections
import os
import sys
import time
import unittest
from collections.abc import Iterator

sys.dont_write_bytecode = True
UNITTEST = "unittest"  # begins the module of a test that stands for a file that cannot be imported


def tests_of(suite: unittest.TestSuite) -> Iterator[unittest.TestCase]:
    """The tests of a suite and of those in it, in order."""
    for test in suite:
        if isinstance(test, unittest.TestSuite):
            yield from tests_of(test)
        else:
            yield test


def by_file(suite: unittest.TestSuite) -> dict[str, list[unittest.TestCase]]:
    """The tests of each file, by its name."""
    files: dict[str, list[unittest.TestCase]] = {}
    for test in tests_of(suite):
        module = type(test).__module__
        name = test.id().rpartition(".")[2] if module.startswith(UNITTEST) else module
        files.setdefault(name, []).append(test)
    return files


def run_file(tests: list[unittest.TestCase], result: unittest.TestResult) -> None:
    """Runs the tests of a file, and prints those that fail."""
    failed = len(result.failures), len(result.errors), len(result.unexpectedSuccesses)
    unittest.TestSuite(tests).run(result)
    for test, trace in [*result.failures[failed[0]:], *result.errors[failed[1]:]]:
        print(f"FAILED {test}\n{trace}", flush=True)
    for test in result.unexpectedSuccesses[failed[2]:]:
        print(f"FAILED {test}: it passes, and is marked as one that fails", flush=True)


def run(folder: str, pattern: str) -> unittest.TestResult:
    name = os.path.basename(os.path.abspath(folder))
    files = by_file(unittest.defaultTestLoader.discover(folder, pattern))
    result = unittest.TestResult()
    for number, (file, tests) in enumerate(files.items(), 1):
        print(f"{name}: {number} of {len(files)}, {file}: {len(tests)} tests", flush=True)
        run_file(tests, result)
    return result


def tell(result: unittest.TestResult, seconds: float) -> None:
    """Prints what was left out, and how the tests ended."""
    reasons = collections.Counter(reason for _, reason in result.skipped)
    for reason, count in sorted(reasons.items()):
        print(f"left out {count}: {reason}")
    wrong = len(result.failures) + len(result.errors) + len(result.unexpectedSuccesses)
    print(f"{result.testsRun} tests in {seconds:.0f} s, {wrong} failed, {len(result.skipped)} left out", flush=True)


def main() -> int:
    folder, *rest = sys.argv[1:]
    begin = time.monotonic()
    try:
        result = run(folder, rest[0] if rest else "test*.py")
    except KeyboardInterrupt:
        print("interrupted", file=sys.stderr)
        return 130
    tell(result, time.monotonic() - begin)
    return int(not result.wasSuccessful() or not result.testsRun)


if __name__ == "__main__":
    sys.exit(main())
