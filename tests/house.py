#!/usr/bin/env python3
"""Writes docs/HOUSE.md and docs/EDITS.md from the sources and from a gate's run: tests/house.py LOG [FOLDER]. LOG is what the
run printed, FOLDER the repository that it ran in, whose crates/*/out have the libraries as they were built: each edit of code
is compiled over them, which takes a quarter of an hour or more. Without words it prints where the two pages and the repository
differ, and each edit of code that by the log of the last rt ci only breaks the code's shape (target/rt-ci.log, from .ci/run).

HOUSE.md has the lines of each crate; what stands in it from the line MARK on is written by hand and kept. EDITS.md has each
must-fail edit with the place of the first error that the prover gave, and what was to be shown there."""
import os
import re
import sys
import textwrap
from concurrent.futures import ThreadPoolExecutor
from pathlib import Path

from calls import CALLS, edits as edits_by_call
from shapes import keeps_shape, refused_at
from sources import root

MARK = "<!-- From here on by hand: tests/house.py keeps it. -->\n"
HOUSE, EDITS = root / "docs/HOUSE.md", root / "docs/EDITS.md"
LAST = root / "target/rt-ci.log"
crates = re.findall(r"(?m)^(\w+)[^:\n#]*:", (root / "crates.txt").read_text())
# CRATE/LABEL and the file of each edit, crate by crate.
edits = {f"{crate}/{path.stem}": path for crate in crates
         for path in sorted((root / "crates" / crate / "must-fail").glob("*.edit"))}


def does(name):
    """What an edit does: its first line."""
    return edits[name].read_text().splitlines()[0].lstrip("# ").replace("|", "\\|")


def changes(name):
    """What an edit changes: src, specs or both."""
    return " ".join(sorted(set(re.findall(r"(?m)^file: (\w+)/", edits[name].read_text()))))


def lines(crate, folder, below=None):
    """Lines in a folder of a crate: all, or only those of its own files (below False), or only those further down (True)."""
    start = root / "crates" / crate / folder
    paths = [path for path in start.rglob("*") if path.suffix in (".rt", ".antt")]
    return sum(len(path.read_text().splitlines()) for path in paths if below is None or (path.parent != start) == below)


def functions(crate):
    source = "".join(path.read_text() for path in (root / "crates" / crate / "src").rglob("*.rt"))
    return len(re.findall(r'(?m)^\s*(?:pub )?(?:extern "C" )?fn ', source))


def calls_table():
    """The wrong programs of each public call, as EDITS.md has them."""
    wrong = edits_by_call()
    return [f"| `anhkhovet_{call}` | {', '.join(wrong[call])} |" for call in CALLS]


def refusals(log):
    """What rt ci said of each edit that was refused."""
    found = re.findall(r"(?m)^rt: must-fail (\w+)/([\w.-]+)\.edit: (refused, as it must be.*)$", log)
    return {f"{crate}/{label}": said for crate, label, said in found}


def place_in(said):
    """The place of the first error, as rt ci tells it."""
    found = re.search(r": (?:note: )?(?:\./)?((?:src|specs|proofs)/[^\s:]+:\d+:\d+):? ", said)
    return found[1] if found else ""


def stands_at(crate, said):
    """What the prover was asked to show at that place: the name that the proof has for it, or the line itself."""
    place = place_in(said)
    asked = re.search(r"^error: `([^`\s]+)`:|\(`([^`\s]+)`\)", said.partition(place)[2].lstrip(": "))
    if asked:
        name = asked[1] or asked[2]
        return "the contract" if name.startswith("returns") else f"`{name}`"
    file, line = (place or ":1").split(":")[:2]
    path = root / "crates" / crate / file
    text = path.read_text().splitlines()[int(line) - 1].strip() if path.is_file() else ""
    return f"`{text[:60]}`".replace("|", "\\|")


def write_house(log, refused):
    rows, totals = [], [0] * 6
    for crate in crates:
        row = [lines(crate, "src"), functions(crate), lines(crate, "specs"), lines(crate, "proofs", False),
               lines(crate, "proofs", True), sum(name.startswith(f"{crate}/") for name in refused)]
        totals = [a + b for a, b in zip(totals, row)]
        rows.append(f"| `{crate}` | " + " | ".join(f"{n:,}" for n in row) + " |")
    rows.append("| **all** | " + " | ".join(f"{n:,}" for n in totals) + " |")
    model = re.search(r"model name\s*: (.*)", Path("/proc/cpuinfo").read_text())
    minutes = re.search(r"(?m)^gate: (\d+) minutes$", log)
    done = re.search(r"(?m)^rt: ok;.*; ([^;\n]*in this run[^;\n]*)", log)
    _, mark, kept = HOUSE.read_text().partition(MARK)
    took = f"{minutes[1] if minutes else '?'} minutes on {os.cpu_count()} cores ({model[1] if model else 'unknown'})"
    HOUSE.write_text(f"""# The house in numbers

Written by tests/house.py from the sources and the log of a gate's run. Lines count comments and blank ones. rt ci tells no
seconds of a crate or an edit, and what it passed before it takes from what it kept.

The whole gate: {took}. In it rt ci said:
{done[1] if done else '?'}.

| crate | code | functions | definitions | laws | functions' proofs | edits |
|---|---|---|---|---|---|---|
""" + "\n".join(rows) + "\n" + ("\n" + mark + kept if mark else ""))


def write_edits(refused, folder):
    of_code = [name for name in refused if changes(name) == "src"]
    with ThreadPoolExecutor(os.cpu_count()) as pool:
        kept = list(pool.map(lambda name: keeps_shape(name, edits[name], folder), of_code))
    shape = {name: {True: "kept", False: "changed", None: "?"}[it] for name, it in zip(of_code, kept)}
    at = {name: refused_at(said) for name, said in refused.items()}
    rows = [f"| {name} | {does(name)} | {shape.get(name, 'a definition')} | {at[name]} | {place_in(said)} | "
            f"{stands_at(name.split('/')[0], said)} |" for name, said in refused.items()]
    changed = [name for name in of_code if shape[name] != "kept"]
    by_shape = [name for name in of_code if only_shape(refused[name], shape[name])]
    paragraphs = [
        f"""Written by tests/house.py from a gate's run. An edit of `crates/CRATE/must-fail` makes a wrong program, and the gate
        fails unless the prover refuses it. There are {len(refused)}; {len(refused) - len(of_code)} of them change a definition,
        the others code.""",
        f"""Where an edit of code keeps its shape, which is the same operations in the same order with other operands, the proof
        still fits it, and the prover can refuse it only at a fact that no longer holds. The compiler's output tells which do:
        {len(shape) - len(changed)} of {len(shape)}. The others have an operation, a test or a call more, less or in another
        order: {', '.join(changed) or 'none'}. Of these rt ci's log tells which met no fact but only a proof that no longer
        fits, as one that names what the code has no more, and so show nothing: {', '.join(by_shape) or 'none'}. The gate fails
        where there is one."""]
    said = "\n\n".join(textwrap.fill(" ".join(text.split()), 125, break_on_hyphens=False) for text in paragraphs)
    EDITS.write_text(f"""# What the prover has to refuse

{said}

## Wrong programs by public call

A call is a line or two over the crates below it, and its contract cites the same definition as theirs does: a program that is
wrong there is wrong here. Each edit names its calls itself, in a line `# call:`.

| call | wrong programs |
|---|---|
""" + "\n".join(calls_table()) + """

## All of them

The first error that rt ci tells: where it stands in the edited crate, and what was to be shown there: the contract, a goal of
the proof by its name (what a callee asks for, `..-requires`; a loop's invariant, `..-next-..`; a sum that fits, `overflow_..`),
or what the line says.

| edit | what it does | shape | refused at | first error | what was to be shown |
|---|---|---|---|---|---|
""" + "\n".join(rows) + "\n")


def only_shape(said, shape):
    """Whether a refusal met no fact but only the code's shape: proof files name what is gone, or a proof that goes through the
    code step by step (Proof.antt) has another code before it."""
    return refused_at(said) == "a name" or shape != "kept" and "/Proof.antt:" in place_in(said)


def rows_of(page, cells):
    """The rows of a page's table that has so many cells: not its head, nor the sums."""
    rows = [[cell.strip() for cell in re.split(r"(?<!\\)\|", line)[1:-1]] for line in page.splitlines() if line.startswith("|")]
    return [row for row in rows if len(row) == cells and not set(row[0]) <= {"-"} and not row[0].startswith("**")][1:]


def unlike(page, rows, what, wanted):
    """Rows that a page lacks, and rows of what is not there."""
    there = [row[0].strip("`") for row in rows]
    yield from (f"docs/{page} has no row of the {what} {name}" for name in wanted if name not in there)
    yield from (f"docs/{page} has a row of {name}, which is no {what}" for name in there if name not in wanted)


def problems():
    """Where the pages and the repository differ."""
    page = EDITS.read_text()
    of_edits, of_crates = rows_of(page, 6), rows_of(HOUSE.read_text().partition(MARK)[0], 7)
    yield from unlike("EDITS.md", of_edits, "edit", list(edits))
    yield from unlike("HOUSE.md", of_crates, "crate", crates)
    yield from (f"docs/EDITS.md lacks the row {row}" for row in calls_table() if row not in page.splitlines())
    for name, said, shape, at, *_ in of_edits:
        if name in edits and (said != does(name) or "?" in (shape, at)):
            yield f"docs/EDITS.md tells {name} otherwise than the edit does, or not what it is refused at"
    for crate, *_, count in of_crates:
        own = sum(name.startswith(crate.strip("`") + "/") for name in edits)
        if count != str(own):
            yield f"docs/HOUSE.md tells of {count} edits of {crate}, which has {own}"
    refused = refusals(LAST.read_text()) if LAST.is_file() else {}
    shapes = {name: shape for name, _, shape, *_ in of_edits}
    for name in edits:
        if name not in refused:
            yield f"{LAST.relative_to(root)}, the log of the last rt ci, does not tell that {name} was refused"
        elif refused_at(refused[name]) == "a limit":
            yield f"{name} is refused only by a limit of the prover, which is no verdict: {refused[name]}"
        elif changes(name) != "specs" and only_shape(refused[name], shapes.get(name)):
            yield f"{name} only breaks the code's shape: {refused[name]}"


if sys.argv[1:]:
    said = Path(sys.argv[1]).read_text()
    by_name = {name: it for name, it in refusals(said).items() if name in edits}
    write_house(said, by_name)
    write_edits(by_name, Path(sys.argv[2]) if sys.argv[2:] else root)
    print(f"{len(crates)} crates, {len(by_name)} edits")
    for name in edits.keys() - by_name.keys():
        print(f"not in the log: {name}")
else:
    for problem in problems():
        print(problem)
