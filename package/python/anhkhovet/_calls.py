"""Each call of the library, with its answer as the library's own struct: number 0 is an answer, what does not apply is 0."""
from __future__ import annotations

import ctypes
from typing import Iterator, Sequence, TypeAlias, TypeVar, Union, cast

from . import _face as face
from ._lent import Memory, Words
from ._stack import on_stack

Extents: TypeAlias = ctypes.Array[face.Extent]
Argument: TypeAlias = Union[Memory, Words, Extents, int]
Answer = TypeVar("Answer", bound=ctypes.Structure)

_LIBRARY = face.load()


def _flat(arguments: Sequence[Argument]) -> Iterator[int]:
    for argument in arguments:
        if isinstance(argument, Memory):
            yield from (argument.address, argument.length)
        elif isinstance(argument, ctypes.Array):
            yield from (ctypes.addressof(argument), len(argument))
        else:
            yield argument


def _ask(answer: type[Answer], call: str, *arguments: Argument) -> Answer:
    function = getattr(_LIBRARY, f"anhkhovet_{call}")

    # The arguments are held until the call has ended, whoever waits for it.
    def asked() -> Answer:
        return cast(Answer, function(*_flat(arguments)))

    return on_stack(asked) if call in face.DEEP else asked()


def check(image: Memory) -> face.Verdict:
    return _ask(face.Verdict, "check", image)


def check_in(image: Memory, marks: Words) -> face.Marked:
    return _ask(face.Marked, "check_in", image, marks)


def profile(image: Memory) -> face.Verdict:
    return _ask(face.Verdict, "profile", image)


def header(image: Memory) -> face.Head:
    return _ask(face.Head, "header", image)


def lookup(image: Memory, sector: int) -> face.Located:
    return _ask(face.Located, "lookup", image, sector)


def steps(image: Memory, sector: int) -> face.Steps:
    return _ask(face.Steps, "steps", image, sector)


def chain(layers: Memory, lengths: Words, sector: int) -> face.Located:
    return _ask(face.Located, "chain", layers, lengths, sector)


def read(image: Memory, sector: int) -> face.Part:
    return _ask(face.Part, "read", image, sector)


def frame(image: Memory, areas: Words) -> face.Framed:
    return _ask(face.Framed, "frame", image, areas)


def survey(images: Memory, lengths: Words, rows: Words, tally: Words) -> face.Surveyed:
    return _ask(face.Surveyed, "survey", images, lengths, rows, tally)


def mend(image: Memory, good: int, changes: Words) -> face.Mended:
    return _ask(face.Mended, "mend", image, good, changes)


def normal(image: Memory, out: Memory) -> face.Written:
    return _ask(face.Written, "normal", image, out)


def collapse(lower: Memory, upper: Memory, out: Memory) -> face.Written:
    return _ask(face.Written, "collapse", lower, upper, out)


def to_kdmv(image: Memory, out: Memory) -> face.Written:
    return _ask(face.Written, "to_kdmv", image, out)


def to_cowd(image: Memory, out: Memory) -> face.Written:
    return _ask(face.Written, "to_cowd", image, out)


def close(image: Memory, out: Memory) -> face.Closed:
    return _ask(face.Closed, "close", image, out)


def descriptor(text: Memory, extents: Extents) -> face.Described:
    return _ask(face.Described, "descriptor", text, extents)


def find(extents: Extents, sector: int) -> face.Found:
    return _ask(face.Found, "find", extents, sector)


def split(text: Memory, files: Memory, lengths: Words, sector: int) -> face.Located:
    return _ask(face.Located, "split", text, files, lengths, sector)
