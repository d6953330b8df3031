#!/usr/bin/env python3
"""Runs the tests of a folder, and writes what each came to.

usage: unittests.py RESULTS TOP FOLDER [MODULE..]

Those of FOLDER, whose modules are found from TOP, or of these modules alone. RESULTS gets a line of JSON for each test that
has ended: its name, `passed`, `failed` or `skipped`, and why it was skipped. What a failed test says goes to standard output.
"""
import json
import os
import signal
import sys
import unittest


class Results(unittest.TextTestResult):
    """Writes a line for each test, and prints failures as they come."""

    def __init__(self, file) -> None:
        super().__init__(unittest.runner._WritelnDecorator(sys.stdout), descriptions=False, verbosity=0)
        self.file, self.told = file, {}

    def write(self, test: unittest.TestCase, came_to: str, why: str = "") -> None:
        """Writes what a test came to; a later line of the same test, one of whose parts failed, counts in place of the first."""
        name = test.id()
        if name not in self.told or (came_to == "failed" and self.told[name] != "failed"):
            self.told[name] = came_to
            print(json.dumps([name, came_to, why]), file=self.file, flush=True)

    def fails(self, test: unittest.TestCase, error: tuple) -> None:
        print(f"{'=' * 70}\n{test.id()}\n{self._exc_info_to_string(error, test)}", flush=True)
        self.write(getattr(test, "test_case", test), "failed")

    def addSuccess(self, test: unittest.TestCase) -> None:
        self.write(test, "passed")

    def addSkip(self, test: unittest.TestCase, reason: str) -> None:
        self.write(getattr(test, "test_case", test), "skipped", reason)

    def addFailure(self, test: unittest.TestCase, error: tuple) -> None:
        self.failures.append((test, ""))
        self.fails(test, error)

    def addError(self, test: unittest.TestCase, error: tuple) -> None:
        self.errors.append((test, ""))
        self.fails(test, error)

    def addSubTest(self, test: unittest.TestCase, subtest: unittest.TestCase, error: tuple | None) -> None:
        if error is not None:
            self.failures.append((subtest, ""))
            self.fails(subtest, error)

    def addExpectedFailure(self, test: unittest.TestCase, error: tuple) -> None:
        self.write(test, "passed")

    def addUnexpectedSuccess(self, test: unittest.TestCase) -> None:
        print(f"{test.id()}: it passes, and was expected to fail", flush=True)
        self.failures.append((test, ""))
        self.write(test, "failed")


def main() -> int:
    results, top, folder, *modules = sys.argv[1:]
    # (nohup, and bash for what it starts beside itself, have these ignored, and so would be what tests start and send them to)
    for number in (signal.SIGHUP, signal.SIGINT, signal.SIGQUIT):
        signal.signal(number, signal.default_int_handler if number == signal.SIGINT else signal.SIG_DFL)
    sys.path.insert(0, top)
    os.chdir(top)
    loader = unittest.TestLoader()
    suite = loader.loadTestsFromNames(modules) if modules else loader.discover(folder, top_level_dir=top)
    with open(results, "w", encoding="utf-8") as file:
        print(json.dumps(["", "tests", suite.countTestCases()]), file=file, flush=True)
        found = Results(file)
        suite.run(found)
    return 0 if found.wasSuccessful() else 1


if __name__ == "__main__":
    sys.exit(main())
