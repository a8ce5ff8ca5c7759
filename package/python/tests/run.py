"""Runs the tests by pytest and ends in a line 'N passed, M failed'. What is skipped is no pass: it counts as failed."""
from __future__ import annotations

import sys
from pathlib import Path

import pytest


class Counted:
    """Each test once, by the worst of its three phases."""

    def __init__(self) -> None:
        self.broken: set[str] = set()
        self.met: set[str] = set()

    def pytest_runtest_logreport(self, report: pytest.TestReport) -> None:
        self.met.add(report.nodeid)
        if report.outcome != "passed":
            self.broken.add(report.nodeid)

    def pytest_collectreport(self, report: pytest.CollectReport) -> None:
        if report.outcome != "passed":
            self.met.add(report.nodeid)
            self.broken.add(report.nodeid)


def main(words: list[str]) -> int:
    here = Path(__file__).resolve().parent
    counted = Counted()
    named = [] if any(not word.startswith("-") for word in words) else [str(here)]
    status = pytest.main(["-q", "-p", "no:cacheprovider", "-rs", *words, *named], plugins=[counted])
    failed = len(counted.broken) or int(status != 0)
    print(f"{len(counted.met - counted.broken)} passed, {failed} failed")
    return int(failed > 0)


if __name__ == "__main__":
    sys.exit(main(sys.argv[1:]))
