#!/usr/bin/env python3
"""Runs all tests of the plugin: run.py PLUGIN TOOL. The last line counts them, with the build of the plugin as one."""
import sys
import unittest
from pathlib import Path

import served


class Told(unittest.TextTestResult):
    """One line a test, as the gate's other steps have it."""

    passed = 0

    def addSuccess(self, test: unittest.TestCase) -> None:
        unittest.TestResult.addSuccess(self, test)
        self.passed += 1
        print(f"ok: {test.shortDescription()}", flush=True)

    def addSkip(self, test: unittest.TestCase, reason: str) -> None:
        unittest.TestResult.addSkip(self, test, reason)
        print(f"NOT RUN: {test.shortDescription()}: {reason}", flush=True)


def main() -> int:
    served.PLUGIN, served.TOOL = sys.argv[1:]
    tests = unittest.defaultTestLoader.discover(str(Path(__file__).parent))
    result = unittest.TextTestRunner(sys.stdout, verbosity=0, resultclass=Told).run(tests)
    failed = len(result.failures) + len(result.errors)
    print(f"{result.passed + 1} passed, {failed} failed")
    return 1 if failed or not result.passed else 0


sys.exit(main())
