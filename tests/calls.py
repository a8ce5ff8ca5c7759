#!/usr/bin/env python3
"""Prints what a public call lacks of the places that docs/ADD-A-CALL.md lists, and what names a call that is not there:
tests/calls.py.

The calls are the functions `anhkhovet_NAME` of crates/exports/src."""
import re

from sources import code, defined, root


def text(*patterns):
    """The code of all files of some patterns, lib first."""
    files = [path for pattern in patterns for path in root.glob(pattern)]
    return "\n".join(map(code, sorted(files, key=lambda path: (path.stem != "lib", path))))


def names(pattern):
    """What the files of a pattern define."""
    return set().union(*map(defined, root.glob(pattern)))


FACE = text("crates/exports/src/**/*.rt")
CALLS = re.findall(r'pub extern "C" fn anhkhovet_(\w+)\(', FACE)


def edits():
    """For each call the must-fail edits that are wrong programs for it: those with a line `# call: NAME NAME ..`."""
    found = {call: [] for call in CALLS}
    for path in sorted(root.glob("crates/*/must-fail/*.edit")):
        for line in re.findall(r"(?m)^# call:(.*)$", path.read_text()):
            for call in line.split():
                found.setdefault(call, []).append(f"{path.parent.parent.name}/{path.stem}")
    return found


def lacks(call, wrong):
    """Each place that a call has to have, and does not."""
    binding, plain, compare = (f"rust/{package}/src/**/*.rs" for package in ("anhkhovet", "plain", "compare"))
    places = {
        "two must-fail edits with a line '# call:'": len(wrong) >= 2,
        f"`{call}_determined` in crates/exports/proofs/Determined*.antt":
            f"{call}_determined" in names("crates/exports/proofs/Determined*.antt"),
        f"`{call}_varies` in crates/examples/proofs/NotConstant*.antt":
            f"{call}_varies" in names("crates/examples/proofs/NotConstant*.antt"),
        "a row in docs/PROMISES.md, Public calls": f"| `anhkhovet_{call}` |" in text("docs/PROMISES.md"),
        f"a line '{call} ..' in crates/cases/stdout": re.search(rf"(?m)^{call} ", text("crates/cases/stdout")),
        f"`anhkhovet_{call}` declared in rust/anhkhovet": f"pub fn anhkhovet_{call}(" in text(binding),
        f"`{call}` in rust/anhkhovet/src/raw.rs": re.search(rf"pub fn {call}(_part)?\(", text("rust/anhkhovet/src/raw.rs")),
        f"`{call}` made public in rust/anhkhovet/src/lib.rs":
            re.search(rf"pub use [^;]*\b{call}\b", text("rust/anhkhovet/src/lib.rs")),
        f"`{call}` in rust/plain": re.search(rf"pub fn {call}\(", text(plain)),
        f"`{call}` made public in rust/plain/src/lib.rs": re.search(rf"pub use [^;]*\b{call}\b", text("rust/plain/src/lib.rs")),
        f"`{call}` in the trait of rust/compare/src/side.rs":
            re.search(rf"fn {call}\(\s*&self", text("rust/compare/src/side.rs")),
        f'"{call}" in the table of rust/compare/src/tally.rs': f'"{call}"' in text("rust/compare/src/tally.rs"),
        f"a generated case of rust/compare that asks `run.{call}`": f"run.{call}(" in text(compare),
        f"`anhkhovet::{call}` in rust/tool": re.search(rf"anhkhovet::{call}(_part)?\b", text("rust/tool/src/**/*.rs")),
        f"`anhkhovet_{call}` in docs/TOOL.md": f"`anhkhovet_{call}`" in text("docs/TOOL.md"),
    }
    return [place for place, there in places.items() if not there]


def theorems(pattern, ending):
    """The calls that theorems with this ending are about."""
    return re.findall(rf"(\S+)_{ending}", " ".join(names(pattern)))


def strangers(wrong):
    """What names a call that is not there."""
    cited = {
        "a must-fail edit": wrong,
        "crates/exports/proofs/Determined*.antt": theorems("crates/exports/proofs/Determined*.antt", "determined"),
        "crates/examples/proofs/NotConstant*.antt": theorems("crates/examples/proofs/NotConstant*.antt", "varies"),
        "docs": re.findall(r"`anhkhovet_(\w+)`", text("docs/PROMISES.md", "docs/TOOL.md", "docs/EDITS.md")),
        "rust/anhkhovet": re.findall(r"pub fn anhkhovet_(\w+)\(", text("rust/anhkhovet/src/**/*.rs")),
    }
    return [f"{place} names the call {call}, which is not there" for place, all_of_it in cited.items()
            for call in sorted(set(all_of_it)) if call not in CALLS]


if __name__ == "__main__":
    programs = edits()
    for call in CALLS:
        for place in lacks(call, programs[call]):
            print(f"anhkhovet_{call} lacks {place}")
    for stranger in strangers(programs):
        print(stranger)
    if not CALLS or len(CALLS) != FACE.count('extern "C" fn'):
        print(f"{len(CALLS)} calls are named anhkhovet_NAME, of {FACE.count('extern')} in crates/exports/src")
    if "requires" in FACE:
        print("a public call has a requires")
