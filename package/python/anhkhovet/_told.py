"""The library's numbers as answers, and its refusals as `Refused`."""
from __future__ import annotations

import ctypes
import operator
from typing import Callable, Iterable, Iterator, Protocol, TypeVar

from . import _face as face
from ._lent import Memory, Words, own, words
from .answers import Absent, Geometry, Packed, Source, Step, Stored, Way, Zero
from .refusals import Refused

SECTOR = 512
TOO_LITTLE_ROOM = 21


class Judged(Protocol):
    """What each answer of the library begins with."""

    number: int
    place: int


Answer = TypeVar("Answer", bound=Judged)


def judged(answer: Answer) -> Answer:
    """The answer, where it is no refusal."""
    if answer.number:
        raise Refused(answer.number, answer.place)
    return answer


def number_of(given: int) -> int:
    """A number that the library can be handed: a sector, a count."""
    number = operator.index(given)
    if not 0 <= number < 1 << 64:
        raise ValueError(f"{number} is no number from 0 to 2^64 - 1")
    return number


def geometry_of(told: face.Verdict | face.Marked | face.Head) -> Geometry:
    return Geometry(told.capacity, told.grain_size)


def source_of(told: face.Located | face.Steps) -> Source:
    if told.kind == 0:
        return Absent()
    if told.kind == 1:
        return Zero()
    return Stored(told.sector) if told.kind == 2 else Packed(told.sector, told.size, told.offset)


def way_of(told: face.Steps) -> Way:
    def step(at: int, entry: int) -> Step | None:
        # No entry stands in the first sector, which is the header's.
        return Step(at, entry) if at else None

    directory, table = step(told.directory_at, told.directory_entry), step(told.table_at, told.table_entry)
    return Way(bool(told.one_is_zero), told.grain, directory, table)


def rows_of(list_: Words, size: int, count: int) -> Iterator[list[int]]:
    """The first rows of a list, of so many words each."""
    return (list_[size * row : size * (row + 1)] for row in range(count))


def words_of(numbers: Iterable[int]) -> Words:
    """A list with these numbers."""
    given = list(numbers)
    return (ctypes.c_uint64 * len(given))(*given)


def with_room(call: Callable[[Memory], Answer], first: int) -> tuple[Answer, Memory]:
    """What a call writes, which is told how much room there is and says only whether that is enough."""
    room = first
    while True:
        out = own(room)
        said = call(out)
        if said.number != TOO_LITTLE_ROOM:
            return judged(said), out
        room *= 2


def with_words(call: Callable[[Words], Answer], first: int) -> tuple[Answer, Words]:
    """The same of a call that writes a list."""
    room = first
    while True:
        list_ = words(room)
        said = call(list_)
        if said.number != TOO_LITTLE_ROOM:
            return judged(said), list_
        room *= 2
