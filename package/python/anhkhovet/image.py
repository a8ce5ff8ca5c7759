"""One image: a file, or bytes."""
from __future__ import annotations

import os
from dataclasses import dataclass
from types import TracebackType
from typing import Callable, TypeAlias, Union

from . import _calls as calls
from . import _face as face
from ._files import Path, read_whole
from ._lent import BUFFERS, Buffer, Memory, of_buffer, own, put_over, words
from ._told import (
    SECTOR, geometry_of, judged, number_of, rows_of, source_of, way_of, with_room, with_words,
)
from .answers import Area, Change, Geometry, Group, Header, Marked, Part, Side, Source, Steps
from .refusals import Refused

# Room that is tried first, beside what the images have: more than the tables of small disks take.
_MORE_BYTES = 1 << 16
_AREA, _CHANGE = 3, 3
_FEW = 64
# Sectors of the file for each word of the list of marks.
_WORD = 64


def words_needed(length: int) -> int:
    """The words that `Image.check_in` needs for a file of so many bytes: one for every 64 sectors, rounded up."""
    return -(-(length // SECTOR) // _WORD)


class Image:
    """An image: a path, whose file is read whole and need not stay, or a buffer, which is copied unless it is a `bytes`.

    Nothing is judged before a method is called. Each makes the call of its name, and raises `Refused` where that refuses."""

    def __init__(self, source: Path | Buffer) -> None:
        if isinstance(source, BUFFERS):
            self._memory: Memory | None = of_buffer(source)
            self.path: str | None = None
        elif isinstance(source, (str, os.PathLike)):
            self._memory = read_whole(source)
            self.path = os.fspath(source)
        else:
            raise TypeError(f"an image is a path, bytes, bytearray, memoryview or mmap, not {type(source).__name__}")

    @classmethod
    def _of(cls, memory: Memory, path: str | None = None) -> Image:
        image = cls.__new__(cls)
        image._memory, image.path = memory, path
        return image

    @property
    def _lent(self) -> Memory:
        if self._memory is None:
            raise ValueError("the image is closed")
        return self._memory

    def close(self) -> None:
        """Lets go of the bytes. What broken off streams need is `close_stream`."""
        self._memory = None

    @property
    def closed(self) -> bool:
        """Whether the bytes are gone."""
        return self._memory is None

    def __enter__(self) -> Image:
        self._lent
        return self

    def __exit__(self, kind: type[BaseException] | None, error: BaseException | None, trace: TracebackType | None) -> None:
        self.close()

    def __len__(self) -> int:
        return self._lent.length

    def __bytes__(self) -> bytes:
        return self._lent.view.tobytes()

    def __repr__(self) -> str:
        told = "closed" if self._memory is None else f"{self._memory.length} bytes"
        return f"<Image {told}>" if self.path is None else f"<Image {self.path!r}, {told}>"

    @property
    def data(self) -> memoryview:
        """Its bytes, not copied, to be read only."""
        return self._lent.view.toreadonly()

    def check(self) -> Geometry:
        """The full check: every layout rule, over every sector. Refusals: 1 to 12 and 43."""
        return geometry_of(judged(calls.check(self._lent)))

    def check_in(self, room: int | None = None) -> Marked:
        """The full check with its marks in a list of so many words, as many as needed by default, and how many sectors were
        marked. Refusals: 1 to 11 and 43, 21 for too little room, 12, which has `marked` too."""
        lent = self._lent
        said = calls.check_in(lent, words(words_needed(lent.length) if room is None else number_of(room)))
        if said.number:
            raise Refused(said.number, said.place, marked=said.marked)
        return Marked(geometry_of(said), said.marked)

    def profile(self) -> Geometry:
        """Whether it meets the lab profile, the one form of what is published: clean, uncompressed, with grains of 128 sectors
        and equal to its own normal form. Refusals: 1 to 12 and 43, 23, 27, 47, 42."""
        return geometry_of(judged(calls.profile(self._lent)))

    def header(self) -> Header:
        """The header alone, and the footer where the header asks for one. Refusals: 1 to 7 and 43."""
        said = judged(calls.header(self._lent))
        return Header(geometry_of(said), said.descriptor, said.descriptor_sectors, said.dirty)

    def lookup(self, sector: int) -> Source:
        """Where a virtual sector comes from. Judged is what the answer needs alone, so an image that is not accepted may have
        answers. Refusals: 1 to 7 and 43, 20, 8 to 10."""
        return source_of(judged(calls.lookup(self._lent, number_of(sector))))

    def steps(self, sector: int) -> Steps:
        """How the lookup comes to its answer. Refusals are the lookup's; 8, 9 and 10 have the way as far as it goes."""
        said = calls.steps(self._lent, number_of(sector))
        if said.number:
            raise Refused(said.number, said.place, way=way_of(said) if said.number in (8, 9, 10) else None)
        return Steps(way_of(said), source_of(said))

    def read_part(self, sector: int) -> Part:
        """The place, in bytes of the image, of what `read` hands over."""
        said = calls.read(self._lent, number_of(sector))
        return Part(said.at, said.length)

    def read(self, sector: int) -> bytes:
        """The bytes behind a sector's source: 512 of a stored one, the payload of a packed grain, none where it is absent, zero
        or refused, which `lookup` tells apart."""
        part = self.read_part(sector)
        return self._lent.view[part.at : part.at + part.length].tobytes()

    def frame(self) -> tuple[Area, ...]:
        """The areas of the image but its grains, all inside the file, group by group. Refusals: 1 to 8 and 43."""
        lent = self._lent
        said, list_ = with_words(lambda areas: calls.frame(lent, areas), _AREA * _FEW)
        rows = rows_of(list_, _AREA, said.count)
        return tuple(Area(Group(group), first, sectors) for group, first, sectors in rows)

    def text(self) -> bytes | None:
        """The sectors of the descriptor inside the image, for `descriptor`; None where there is none. Refused as `frame` is."""
        for area in self.frame():
            if area.group is Group.DESCRIPTOR:
                return self._lent.view[SECTOR * area.first : SECTOR * (area.first + area.sectors)].tobytes()
        return None

    def _written(self, call: Callable[[Memory, Memory], face.Written]) -> Image:
        lent = self._lent
        said, out = with_room(lambda room: call(lent, room), lent.length + _MORE_BYTES)
        return Image._of(out.part(0, said.length))

    def normal(self) -> Image:
        """Its normal form. Refusals: 1 to 12 and 43, 23 for packed images, 27 where the disk was still open."""
        return self._written(calls.normal)

    def to_kdmv(self) -> Image:
        """A COWD image as a KDMV one, in normal form. Refusals: 1 to 12 by its own rules, 23 for KDMV, 27, 44."""
        return self._written(calls.to_kdmv)

    def to_cowd(self) -> Image:
        """A KDMV image as a COWD one, in normal form. Refusals: 1 to 12, 23 for COWD and packed images, 27, 44."""
        return self._written(calls.to_cowd)

    def close_stream(self) -> ClosedStream:
        """Closes a stream that broke off: what of it is kept, with the tail behind it. Refusals: 1 to 6 and 43, 41."""
        lent = self._lent
        said, tail = with_room(lambda room: calls.close(lent, room), _MORE_BYTES)
        kept = SECTOR * said.sectors
        whole = own(kept + said.length)
        put_over(whole.view[:kept], lent.view[:kept])
        whole.view[kept:] = tail.view[: said.length]
        return ClosedStream(said.sectors, said.grains, said.length, Image._of(whole))

    def mend(self, good: Side) -> Mended:
        """A copy in which every entry in use of the other side's tables is that of the good side, if that copy is accepted.
        Refusals: 1 to 8 and 43, 40."""
        copy = own(len(self))
        put_over(copy.view, self._lent.view)
        return Mended(Image._of(copy, self.path), _mended(copy, good))


Given: TypeAlias = Union[Image, Path, Buffer]
"""What is taken for an image."""


@dataclass(frozen=True)
class ClosedStream:
    """A stream that broke off, closed."""

    sectors: int
    """What is kept of the file, from its first sector on: up to the end of the last whole grain."""
    grains: int
    """Whole grains among them."""
    tail: int
    """Bytes of the tail."""
    image: Image
    """What is kept and the tail behind it: an image that the check accepts."""


@dataclass(frozen=True)
class Mended:
    """An image whose tables were mended."""

    image: Image
    changes: tuple[Change, ...]
    """In ascending order of the grains; none where nothing differed."""


def _mended(memory: Memory, good: Side) -> tuple[Change, ...]:
    if not isinstance(good, Side):
        raise TypeError(f"the good side is a Side, not {type(good).__name__}")
    said, list_ = with_words(lambda changes: calls.mend(memory, good.value, changes), _CHANGE * _FEW)
    return tuple(Change(*row) for row in rows_of(list_, _CHANGE, said.count))


def mend_in(buffer: Buffer, good: Side) -> tuple[Change, ...]:
    """Mends an image in a buffer that may be written, as `Image.mend` does, and says what changed. On a refusal the buffer
    keeps what it held. Nobody else may write it meanwhile."""
    if not isinstance(buffer, BUFFERS):
        raise TypeError(f"what is mended is a bytearray, memoryview or mmap, not {type(buffer).__name__}")
    # Let go of also where it is refused: a refusal's traceback would keep a mapping from being closed.
    with memoryview(buffer) as given, given.cast("B") as view:
        if view.readonly:
            raise TypeError("the buffer is read-only, and mending writes")
        memory = own(len(view))
        put_over(memory.view, view)
        changes = _mended(memory, good)
        # Pages that are as they were are left alone: of a mapped file only what changed is written.
        for at in range(0, len(view), SECTOR):
            if view[at : at + SECTOR] != memory.view[at : at + SECTOR]:
                view[at : at + SECTOR] = memory.view[at : at + SECTOR]
    return changes


def collapse(lower: Image, upper: Image) -> Image:
    """One image that reads as `upper` on top of `lower` does, in normal form. Refusals: 1 to 12 and 43 of `lower`, then of
    `upper`, 23 for packed images, 22 where capacity or grain size differ, 27 where one was still open."""
    below, above = lower._lent, upper._lent
    said, out = with_room(lambda room: calls.collapse(below, above, room), below.length + above.length + _MORE_BYTES)
    return Image._of(out.part(0, said.length))
