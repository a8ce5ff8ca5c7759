"""The stored cases of the test program, and what the calls tell of them: a line for each call, as crates/cases prints it."""
from __future__ import annotations

import ctypes
import functools
from collections.abc import Iterator
from dataclasses import dataclass
from pathlib import Path

from anhkhovet import _calls as calls
from anhkhovet import _face as face
from anhkhovet._lent import Memory, Words, of_bytes, own
from sources import ROOT

STORED = [(path.with_suffix(""), path) for path in sorted((ROOT / "tests/cases").glob("*.lines"))]
STORED.append((ROOT / "crates/cases/stdin", ROOT / "crates/cases/stdout"))

MOST_WORDS, MOST_ROWS, TALLY = 96, 128, 66
# A survey's room of so much more is one with a tally that is a word too short.
SHORT, SHORT_TALLY = 1000, 62
RECORD_SIZE, RECORDS = 56, 32


@dataclass(frozen=True)
class Case:
    asked: int
    sectors: list[int]
    lengths: list[int]
    data: bytes
    room: int

    @property
    def image(self) -> Memory:
        return of_bytes(self.data)

    def length(self, number: int) -> int:
        return self.lengths[number] if number < len(self.lengths) else 0

    def layers(self) -> list[bytes]:
        """The bytes cut by the lengths; the fourth layer has all that are left."""
        first, second, third = (self.length(number) for number in range(3))
        ends = [0, first, first + second, first + second + third]
        cut = [self.data[at:end] for at, end in zip(ends, ends[1:])]
        return (cut + [self.data[ends[3] :]])[: len(self.lengths)]


def cases(path: Path) -> Iterator[Case]:
    stored = path.read_bytes()
    at = 0

    def numbers(count: int) -> list[int]:
        nonlocal at
        at += 8 * count
        return [int.from_bytes(stored[at - 8 * left : at - 8 * left + 8], "little") for left in range(count, 0, -1)]

    while at < len(stored):
        asked, sectors, lengths, size, room = numbers(5)
        case = (asked, numbers(sectors), numbers(lengths))
        at += size
        yield Case(*case, stored[at - size : at], room)


@functools.lru_cache(maxsize=None)
def digest(data: bytes) -> int:
    """What stands for bytes in a line: a number in base 257, by a prime below 2^55. Long ones are cut in two."""
    prime = 36028797018963913
    if len(data) > 64:
        half = len(data) // 2
        return (digest(data[:half]) * pow(257, len(data) - half, prime) + digest(data[half:])) % prime
    return functools.reduce(lambda total, byte: (257 * total + byte + 1) % prime, data, 0)


def line(call: str, *numbers: int) -> str:
    return " ".join([call, *map(str, numbers)]) + " \n"


def fields(answer: ctypes.Structure) -> list[int]:
    return [getattr(answer, name) for name, *_ in answer._fields_]


def filled(count: int) -> Words:
    """Words that hold 170 before a call: it shows which were not written."""
    return (ctypes.c_uint64 * count)(*[170] * count)


def listed(numbers: list[int]) -> Words:
    return (ctypes.c_uint64 * len(numbers))(*numbers)


def output(room: int) -> Memory:
    out = own(room)
    out.view[:] = b"\xaa" * room
    return out


def image(case: Case) -> Iterator[str]:
    yield line("check", *fields(calls.check(case.image)))
    yield line("header", *fields(calls.header(case.image)))
    yield normal(case.data, case.room)


def normal(data: bytes, room: int) -> str:
    out = output(room)
    return line("normal", *fields(calls.normal(of_bytes(data), out)), digest(bytes(out.view)))


def pair(lower: bytes, upper: bytes) -> bytes:
    """A pairing on the way: its result, nothing on a refusal."""
    out = own(65536)
    return bytes(out.view[: calls.collapse(of_bytes(lower), of_bytes(upper), out).length])


def collapse(lower: bytes, upper: bytes, room: int) -> str:
    out = output(room)
    return line("collapse", *fields(calls.collapse(of_bytes(lower), of_bytes(upper), out)), digest(bytes(out.view)))


def paired(layers: list[bytes], room: int) -> Iterator[str]:
    """A line for each order of pairing neighbours."""
    if len(layers) == 1:
        yield normal(layers[0], room)
    elif len(layers) == 2:
        yield collapse(layers[0], layers[1], room)
    else:
        for at in range(len(layers) - 1):
            yield from paired(layers[:at] + [pair(layers[at], layers[at + 1])] + layers[at + 2 :], room)


def held() -> calls.Extents:
    """Records that hold 9 in each number before a call."""
    return (face.Extent * 4)(*[face.Extent(*[9] * 7)] * 4)


def text(case: Case) -> Iterator[str]:
    few, all_ = held(), (face.Extent * RECORDS)()
    yield line("descriptor", *fields(calls.descriptor(case.image, few)))
    count = calls.descriptor(case.image, all_).extents
    yield from (line("record", *fields(record)) for record in [*few, *all_[:count]])


def frame(case: Case) -> Iterator[str]:
    list_ = filled(min(MOST_WORDS, case.room))
    yield line("frame", *fields(calls.frame(case.image, list_)), *list_)


def survey(case: Case) -> Iterator[str]:
    short = case.room >= SHORT
    rows = filled(min(MOST_ROWS, case.room - SHORT if short else case.room))
    tally = filled(SHORT_TALLY if short else TALLY)
    yield line("survey", *fields(calls.survey(case.image, listed(case.lengths), rows, tally)), *rows)
    yield line("tally", *tally)


def check_in(case: Case) -> Iterator[str]:
    list_ = filled(min(MOST_WORDS, case.room))
    yield line("check_in", *fields(calls.check_in(case.image, list_)), *list_)


def mend(case: Case) -> Iterator[str]:
    list_ = filled(min(MOST_WORDS, case.length(1)))
    copy = own(min(len(case.data), case.room))
    copy.view[:] = case.data[: copy.length]
    said = calls.mend(copy, case.length(0), list_)
    yield line("mend", *fields(said), digest(bytes(copy.view)), *list_)


def moves(case: Case) -> Iterator[str]:
    for name, call in (("to_kdmv", calls.to_kdmv), ("to_cowd", calls.to_cowd)):
        out = output(case.room)
        yield line(name, *fields(call(case.image, out)), digest(bytes(out.view)))


def profile(case: Case) -> Iterator[str]:
    yield line("profile", *fields(calls.profile(case.image)))


def close(case: Case) -> Iterator[str]:
    out = output(case.room)
    yield line("close", *fields(calls.close(case.image, out)), digest(bytes(out.view)))


def look(case: Case, sector: int) -> Iterator[str]:
    yield line("lookup", *fields(calls.lookup(case.image, sector)))
    part = calls.read(case.image, sector)
    yield line("read", part.length, digest(case.data[part.at : part.at + part.length]))


def look_down(case: Case, sector: int) -> Iterator[str]:
    yield line("chain", *fields(calls.chain(case.image, listed(case.lengths), sector)))


def find_in_text(case: Case, sector: int) -> Iterator[str]:
    records = (face.Extent * RECORDS)()
    if calls.descriptor(case.image, records).extents:
        yield line("find", *fields(calls.find(records, sector)))


def find(case: Case, sector: int) -> Iterator[str]:
    records = (face.Extent * RECORDS).from_buffer_copy(case.data)
    yield line("find", *fields(calls.find(records, sector)))


def split(case: Case, sector: int) -> Iterator[str]:
    end = min(case.length(0), len(case.data))
    whole, lengths = case.image, listed(case.lengths[1:])
    said = calls.split(whole.part(0, end), whole.part(end, len(case.data) - end), lengths, sector)
    yield line("split", *fields(said))


def steps(case: Case, sector: int) -> Iterator[str]:
    yield line("steps", *fields(calls.steps(case.image, sector)))


def pairings(case: Case) -> Iterator[str]:
    yield from paired(case.layers(), case.room)


ONCE = {0: image, 2: pairings, 3: text, 6: frame, 7: survey, 9: check_in, 10: mend, 11: moves, 12: profile, 13: close}
EACH = {1: look_down, 3: find_in_text, 4: find, 8: split, 14: steps}


def lines(case: Case) -> Iterator[str]:
    """What the test program prints for a case."""
    if case.asked in ONCE:
        yield from ONCE[case.asked](case)
    for sector in case.sectors:
        yield from EACH.get(case.asked, look)(case, sector)
