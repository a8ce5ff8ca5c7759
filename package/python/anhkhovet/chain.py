"""Several images: the layers of a chain, and a survey."""
from __future__ import annotations

from functools import reduce
from types import TracebackType
from typing import Iterable

from . import _calls as calls
from ._files import PlainFile, room_for
from ._lent import BUFFERS, Memory, of_buffer, own, put_over, words
from ._told import judged, number_of, rows_of, source_of, words_of
from .answers import Counts, Geometry, Located, Survey, Tallied
from .image import Given, Image, collapse
from .refusals import Refused

# Words of the survey's lists: for each image, and for all numbers that refuse.
_ROW, _TALLY = 6, 63
# Refusals of a chain as a whole, which have no layer.
_WHOLE = (20, 22, 24)


def _taken(given: Given) -> Memory | PlainFile:
    if isinstance(given, Image):
        return given._lent
    return of_buffer(given) if isinstance(given, BUFFERS) else PlainFile(given)


def _end_to_end(given: Iterable[Given]) -> tuple[Memory, list[Image]]:
    """One memory with the bytes of all images in a row, and each of them as a part of it."""
    sources = [_taken(each) for each in given]
    paths = [source.path for source in sources if isinstance(source, PlainFile)]
    whole, at, images = room_for(sum(source.length for source in sources), paths), 0, []
    for source in sources:
        part = whole.part(at, source.length)
        if isinstance(source, PlainFile):
            source.fill(part.view)
        else:
            put_over(part.view, source.view)
        images.append(Image._of(part, source.path if isinstance(source, PlainFile) else None))
        at += source.length
    # All together, so that what is told of them held at one time.
    for source in sources:
        if isinstance(source, PlainFile):
            source.same()
    return whole, images


class Chain:
    """Images on top of each other, base first: each is an `Image`, a path or a buffer, and its bytes are copied.

    `layers` has them as images of the chain's own. Nothing is judged before a method is called."""

    def __init__(self, layers: Iterable[Given]) -> None:
        if isinstance(layers, (str, *BUFFERS)):
            raise TypeError(f"a chain is made of a list of images, not of one {type(layers).__name__}")
        whole, images = _end_to_end(layers)
        self._memory: Memory | None = whole
        self.layers: tuple[Image, ...] = tuple(images)
        self._lengths = words_of(len(image) for image in images)

    @property
    def _lent(self) -> Memory:
        if self._memory is None:
            raise ValueError("the chain is closed")
        return self._memory

    def close(self) -> None:
        """Lets go of the bytes, those of the layers too."""
        self._memory = None
        for layer in self.layers:
            layer.close()

    @property
    def closed(self) -> bool:
        """Whether the bytes are gone."""
        return self._memory is None

    def __enter__(self) -> Chain:
        self._lent
        return self

    def __exit__(self, kind: type[BaseException] | None, error: BaseException | None, trace: TracebackType | None) -> None:
        self.close()

    def __len__(self) -> int:
        return len(self.layers)

    def check(self) -> Geometry:
        """Judges every layer by the full check, base first, then that they are one chain. Refusals: those of `Image.check` with
        the layer, 24, 22."""
        said = []
        for number, layer in enumerate(self.layers):
            try:
                said.append(layer.check())
            except Refused as refused:
                raise Refused(refused.number, refused.place, layer=number) from None
        self.lookup(0)
        return said[0]

    def lookup(self, sector: int) -> Located:
        """Where a virtual sector comes from: the topmost layer in which it is not absent, else layer 0 and absent.
        Refusals: 24 for no layer or over 16; 1 to 7 and 43 of each header from the top down; 22; 20; 8 to 10 of each layer that
        is met on the way down."""
        said = calls.chain(self._lent, self._lengths, number_of(sector))
        if said.number:
            raise Refused(said.number, said.place, layer=None if said.number in _WHOLE else said.layer)
        return Located(said.layer, source_of(said))

    def read(self, sector: int) -> bytes:
        """The bytes behind a sector's source, as `Image.read` has them. Refusals are the lookup's."""
        return self.layers[self.lookup(sector).layer].read(sector)

    def collapse(self) -> Image:
        """One image that reads as the chain does, in normal form. Refusals are those of `collapse`, of the lowest layers first,
        and 24 for no layer."""
        if not self.layers:
            self.lookup(0)
        first, *others = self.layers
        try:
            return reduce(collapse, others, first) if others else first.normal()
        except Refused as refused:
            raise self._at_fault(refused) from None

    def _at_fault(self, refused: Refused) -> Refused:
        """The same with its layer, which the call does not tell: the lowest that is refused alike by itself."""
        for number, layer in enumerate(self.layers):
            said = calls.normal(layer._lent, own(0))
            if (said.number, said.place) == (refused.number, refused.place):
                return Refused(refused.number, refused.place, layer=number)
        return refused


def _row(row: list[int]) -> Counts | Refused:
    stored, zero, absent, packed, number, place = row
    return Refused(number, place) if number else Counts(stored, zero, absent, packed)


def survey(images: Iterable[Given]) -> Survey:
    """Checks 1 to 1,024 images, and counts the grains of those that are accepted. Refusal: 24. What the check refuses an image
    for stands in its row. All of them are in memory at one time."""
    if isinstance(images, (str, *BUFFERS)):
        raise TypeError(f"a survey is of a list of images, not of one {type(images).__name__}")
    whole, parts = _end_to_end(images)
    rows, tally = words(_ROW * len(parts)), words(_TALLY)
    said = judged(calls.survey(whole, words_of(len(part) for part in parts), rows, tally))
    return Survey(
        tuple(_row(row) for row in rows_of(rows, _ROW, len(parts))),
        Counts(said.stored, said.zero, said.absent, said.packed),
        tuple(Tallied(number, count) for number, count in enumerate(tally, 1) if count),
    )
