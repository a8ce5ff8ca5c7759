#!/usr/bin/env python3
"""Prints what docs/PROMISES.md cites and the repository does not have, and each row of its tables that has an empty cell or
names no test: tests/promises.py.

A cell cites `FILE` `NAME` `NAME` .., and a name counts where the file defines it. A file is below crates/, or one of the
tests: tests/checks/NAME or tests/cases/NAME, a stored input; tests/NAME.py with labels of its cases; a file of rust/ with tests of its own; a
script of .ci/ with its steps; the stdout of a program crate with what a line of it begins with."""
import importlib
import re
from functools import lru_cache

from sources import defined, root, rust_tests

# What the last cell of a row may name: a test, an example that is proved, or a wrong program that is refused.
TESTS = re.compile(r"tests/(checks/[\w-]+|cases/[\w-]+|\w+\.py)|rust/[\w/-]+\.rs|\.ci/\w+|\w+/stdout|"
                   r"\w+/proofs/\w*Example\w*\.antt|\w+/must-fail/\w+\.edit")


def place(file):
    """Where a file that is cited stands."""
    return root / file if re.match(r"(tests|rust|samples|docs|\.ci)/", file) else root / "crates" / file


@lru_cache(maxsize=None)
def names(file):
    """What can be cited of a file."""
    path = place(file)
    if re.fullmatch(r"tests/\w+\.py", file):
        return set(importlib.import_module(path.stem).LABELS) if "LABELS" in path.read_text() else set()
    if path.suffix == ".rs":
        return rust_tests(path)
    if file.startswith(".ci/"):
        return set(re.findall(r"(?m)^(?:step|test_that) '([^']+)'", path.read_text()))
    if path.name == "stdout":
        words = [line.split() for line in path.read_text().splitlines()]
        return {" ".join(line[:count]) for line in words for count in range(1, 4)}
    return defined(path) if path.suffix in (".antt", ".rt") else set()


def missing(text):
    """What a cell, or a line that is no row, cites and is not there."""
    file = None
    for cited in re.findall(r"`([^`]+)`", text):
        if re.fullmatch(r"[\w.-]+(/[\w.-]+)+", cited):
            file = cited
            stored = {"tests/checks": ".line", "tests/cases": ".lines"}.get("/".join(file.split("/")[:2]))
            if not place(file).is_file() or stored and not place(file + stored).is_file():
                yield f"no file {file}"
                file = None
        elif file and cited not in names(file):
            yield f"{file} does not have {cited}"
        elif not file:
            yield f"{cited} is of no file"


def untested(cell):
    """What keeps a last cell from naming a test: an input or an edit is one by itself, any other file with a name of it."""
    files = re.findall(r"`([\w.-]+(?:/[\w.-]+)+)`(?=\s*(`?))", cell)
    for file, name in files:
        if not TESTS.fullmatch(file):
            yield f"{file} is no test"
        elif not name and not re.match(r"tests/checks/|tests/cases/|\w+/must-fail/", file):
            yield f"no test of {file} is named"
    if not files:
        yield "no test is named"


head = False
for number, line in enumerate((root / "docs/PROMISES.md").read_text().splitlines(), 1):
    said = []
    if not line.startswith("|"):
        head = True
        said = list(missing(line))
    elif head:
        head = False
    elif not line.startswith("|---"):
        cells = [cell.strip() for cell in line.split("|")[1:-1]]
        said = [lack for cell in cells[1:] for lack in missing(cell)]
        if len(cells) != 4 or not all(cells):
            said.append(f"{len(cells)} cells, or an empty one")
        said += [f"nothing is named: {cell}" for cell in cells[1:3] if not re.search("`|below|^tested only", cell)]
        said += untested(cells[-1])
    for lack in said:
        print(f"docs/PROMISES.md:{number}: {lack}")
