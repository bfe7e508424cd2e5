"""Runs the unit tests of a folder and counts them, for the scripts that bin/test runs.

A test is a method of a `unittest.TestCase`; if it has subtests, each of them is one. What fails is printed with its
reason, and so is what is skipped. The last line is `N passed, M failed`, with `, K skipped` behind it if K isn't 0.
"""

import argparse
import os
import sys
import traceback
import unittest


class Report(unittest.TestResult):
    """Counts tests and subtests, and prints what fails or is skipped."""

    def __init__(self):
        super().__init__()
        self.passed = self.failed = self.left_out = self.subtests = 0

    def startTest(self, test):
        super().startTest(test)
        self.subtests = 0

    def addSuccess(self, test):
        self.passed += not self.subtests

    def addSubTest(self, test, subtest, error):
        self.subtests += 1
        if error is None:
            self.passed += 1
        else:
            self.tell(subtest, error)

    def addFailure(self, test, error):
        self.tell(test, error)

    def addError(self, test, error):
        self.tell(test, error)

    def addUnexpectedSuccess(self, test):
        self.failed += 1
        print(f"FAILED {name_of(test)}: it was expected to fail", flush=True)

    def addSkip(self, test, reason):
        self.left_out += 1
        self.subtests += 1
        print(f"skipped {name_of(test)}: {reason}", flush=True)

    def tell(self, test, error):
        self.failed += 1
        lines = "".join(traceback.format_exception(*error)).rstrip("\n").split("\n")
        # Of a longer text the reason is last, and the place where it was found first.
        shown = lines if len(lines) <= 40 else lines[:10] + ["..."] + lines[-29:]
        print(f"FAILED {name_of(test)}", *(f"    {line[:1000]}" for line in shown), sep="\n", flush=True)

    def close(self):
        """Prints the last line, and gives the exit status."""
        print(closing_line(self.passed, self.failed, self.left_out), flush=True)
        return int(self.failed > 0)


def name_of(test):
    return test.id() if hasattr(test, "id") else str(test)


def closing_line(passed, failed, skipped=0):
    return f"{passed} passed, {failed} failed" + (f", {skipped} skipped" if skipped else "")


def chosen(tests, words):
    """The tests whose names have one of the words; all if there is no word."""
    for test in tests:
        if isinstance(test, unittest.TestSuite):
            yield from chosen(test, words)
        elif not words or any(word in test.id() for word in words):
            yield test


def run_tests(tests, words=()):
    """Runs these tests, prints the last line, and gives the exit status."""
    report = Report()
    picked = list(chosen(tests, words))
    unittest.TestSuite(picked).run(report)
    if not picked:
        print("no test has such a name")
        report.failed += 1
    return report.close()


def main(folder, description, program):
    """Runs the files `test_*.py` of a folder on the program that `--program` names, by default `program`."""
    words = argparse.ArgumentParser(description=description)
    words.add_argument("--program", default=program, help="the program to test (default: the one that bin/build makes)")
    words.add_argument("--only", nargs="+", default=[], metavar="WORD",
                       help="only the tests whose names have one of these words")
    given = words.parse_args()
    if not os.access(given.program, os.X_OK) or not os.path.isfile(given.program):
        print(f"there is no program {given.program}: bin/build makes it, --program FILE names another", file=sys.stderr)
        print(closing_line(0, 1))
        return 1
    os.environ["CROSSBAR5_PROGRAM"] = os.path.abspath(given.program)
    return run_tests(unittest.defaultTestLoader.discover(folder, "test_*.py", folder), given.only)
