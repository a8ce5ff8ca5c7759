"""What the sources of the library say, read from them by the tests."""
from __future__ import annotations

import os
import re
import sys
from pathlib import Path

ROOT = Path(__file__).resolve().parents[3]
BINDING = ROOT / "rust/anhkhovet/src"
SAMPLES = ROOT / "samples"

# What starts this Python: an emulator stands before it where the library is of another processor.
PYTHON = [*os.environ.get("ANHKHOVET_RUNNER", "").split(), sys.executable]

_STRING = r'"((?:[^"\\]|\\.|\\\n\s*)*)"'


def _plain(rust: str) -> str:
    """The text of a string of Rust."""
    return re.sub(r'\\(["\\])', r"\1", re.sub(r"\\\n\s*", "", rust))


def sentences() -> tuple[dict[int, str], str, str]:
    """The sentences by number, that of a faulty line of 33, and that of a number which is none."""
    source = (BINDING / "refusal.rs").read_text()
    body = source[source.index("pub fn sentence") :]
    body = body[: body.index("\n    }\n")]
    arms = re.findall(r"(?m)^\s+(\d+|_)( if self\.place > 0)? => (?:\{\s*)?" + _STRING, body)
    by_number = {int(number): _plain(words) for number, guard, words in arms if number != "_" and not guard}
    guarded = [_plain(words) for number, guard, words in arms if guard]
    other = [_plain(words) for number, _, words in arms if number == "_"]
    assert len(guarded) == 1 and len(other) == 1, "refusal.rs is not as these tests read it"
    return by_number, guarded[0], other[0]


def parts() -> dict[int, tuple[str, str]]:
    """Name and words of what refusal 8 finds outside the file, by its place."""
    source = (BINDING / "refusal.rs").read_text()
    places = {name: int(place) for place, name in re.findall(r"(\d) => Some\(MisplacedPart::(\w+)\)", source)}
    words = dict(re.findall(r"MisplacedPart::(\w+) => (?:\{\s*)?" + _STRING, source))
    return {place: (name, _plain(words[name])) for name, place in places.items()}


def structs() -> dict[str, list[str]]:
    """The fields of each struct of the C face."""
    source = (BINDING / "face.rs").read_text()
    found = re.findall(r"answer! \{(?:\s*///[^\n]*\n)+\s*(\w+) \{([^}]*)\}", source)
    return {name: re.findall(r"\w+", fields) for name, fields in found}


def calls() -> dict[str, tuple[str, list[str]]]:
    """The answer of each call of the C face, and the types that it takes."""
    source = (BINDING / "face.rs").read_text()
    found = re.findall(r"pub fn anhkhovet_(\w+)\(([^)]*)\) -> (\w+);", source)
    return {name: (answer, re.findall(r"\w+: ([^,\n]+)", takes)) for name, takes, answer in found}


def deep() -> set[str]:
    """The calls whose documentation asks for STACK bytes."""
    source = (BINDING / "raw.rs").read_text()
    found = re.findall(r"((?:///[^\n]*\n)+)pub fn (\w+)\(", source)
    return {name for about, name in found if "needs [`STACK`](crate::STACK) bytes of stack" in about}
