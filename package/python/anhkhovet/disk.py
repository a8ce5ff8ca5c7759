"""Descriptors, and disks cut into several files."""
from __future__ import annotations

import os
from types import TracebackType
from typing import Sequence

from . import _calls as calls
from . import _face as face
from ._files import Path, read_whole, unfit
from ._lent import BUFFERS, Buffer, Memory, of_buffer, own
from ._told import SECTOR, judged, number_of, source_of, words_of
from .answers import Access, Descriptor, Extent, ExtentKind, Packed, Placed, Stored
from .image import Given, Image
from .refusals import Refused

_MOST_EXTENTS = 32
# Refusals of the descriptor or of the disk as a whole, which have no extent.
_WHOLE = (20, 24, 30, 31, 32, 33, 34, 35, 36)
_IN_FILES = (ExtentKind.FLAT, ExtentKind.VMFS, ExtentKind.SPARSE)


def _part(text: Memory, at: int, length: int) -> str:
    return text.view[at : at + length].tobytes().decode("utf-8", "surrogateescape")


def _extent(text: Memory, told: face.Extent) -> Extent:
    name = _part(text, told.name_at, told.name_length)
    return Extent(
        told.first, told.sectors, Access(told.access), ExtentKind(told.kind), name, told.name_at, told.offset
    )


def _record(extent: Extent) -> face.Extent:
    length = len(extent.name.encode("utf-8", "surrogateescape"))
    numbers = (extent.first, extent.sectors, extent.access.value, extent.kind.value, extent.name_at, length, extent.offset)
    return face.Extent(*(number_of(number) for number in numbers))


def _described(text: Memory) -> Descriptor:
    records = (face.Extent * _MOST_EXTENTS)()
    said = judged(calls.descriptor(text, records))
    extents = tuple(_extent(text, records[number]) for number in range(said.extents))
    return Descriptor(
        said.version, said.cid, said.parent_cid, _part(text, said.type_at, said.type_length), extents
    )


def descriptor(text: Buffer) -> Descriptor:
    """Reads a descriptor: the bytes of its file, or what `Image.text` has. Refusals: 36, 31, 30, then the first faulty line (32
    to 34), 33 for a missing key, 35."""
    if not isinstance(text, BUFFERS):
        raise TypeError(f"a descriptor's text is bytes, not {type(text).__name__}")
    return _described(of_buffer(text))


def find(extents: Sequence[Extent], sector: int) -> int:
    """The number, in the list and from 0, of the first extent that holds a sector. The list need not come from a descriptor.
    Refusal: 20 where none holds it."""
    records = (face.Extent * len(extents))(*(_record(extent) for extent in extents))
    return judged(calls.find(records, number_of(sector))).extent


class Disk:
    """A disk cut into several files: the path of its descriptor, or the descriptor's bytes and a file for each of its extents.

    By its path, the files are looked for beside it, each when a sector of its extent is first asked for. A descriptor that is
    refused raises `Refused` at once."""

    def __init__(self, text: Path | Buffer, files: Sequence[Given | None] | None = None) -> None:
        self.path: str | None = None
        if isinstance(files, (str, *BUFFERS)):
            raise TypeError(f"the files of a disk are a list, not one {type(files).__name__}")
        if isinstance(text, BUFFERS):
            if files is None:
                raise TypeError("a descriptor's bytes do not say where its files are: hand them in too")
            self._text = of_buffer(text)
        elif isinstance(text, (str, os.PathLike)):
            self._text, self.path = read_whole(text), os.fspath(text)
            # Files are looked for later, when the process may stand elsewhere.
            self._folder = os.path.realpath(os.path.dirname(self.path) or os.curdir)
        else:
            raise TypeError(f"a disk is the path of a descriptor or its bytes, not {type(text).__name__}")
        self.descriptor: Descriptor = _described(self._text)
        self._given = files is not None
        self._files: list[Image | None] | None = [
            _file(each) for each in ([None] * len(self.extents) if files is None else files)
        ]

    @property
    def extents(self) -> tuple[Extent, ...]:
        """Those of the descriptor."""
        return self.descriptor.extents

    @property
    def capacity(self) -> int:
        """Sectors of the whole disk."""
        return sum(extent.sectors for extent in self.extents)

    def close(self) -> None:
        """Lets go of the files' bytes."""
        self._files = None

    @property
    def closed(self) -> bool:
        """Whether the bytes are gone."""
        return self._files is None

    def __enter__(self) -> Disk:
        self._open()
        return self

    def __exit__(self, kind: type[BaseException] | None, error: BaseException | None, trace: TracebackType | None) -> None:
        self.close()

    def _open(self) -> list[Image | None]:
        """The files as they are now, which stay whole if another thread closes the disk."""
        files = self._files
        if files is None:
            raise ValueError("the disk is closed")
        return files

    def _beside(self, extent: Extent) -> str:
        """The file of an extent: in the descriptor's own folder, and in no other, whatever the name or a link says."""
        path = os.path.join(self._folder, extent.name)
        if extent.name in (".", "..") or "/" in extent.name or "\\" in extent.name:
            raise unfit(path, "has a folder in its name, and the files of extents are looked for beside the descriptor alone")
        found = os.path.realpath(path, strict=True)
        if os.path.dirname(found) != self._folder:
            raise unfit(path, "is a link that leads out of the descriptor's folder")
        return found

    def _file_of(self, files: list[Image | None], number: int) -> Image | None:
        """The file of an extent, read once. What its line alone refuses is not opened."""
        extent, file = self.extents[number], files[number] if number < len(files) else None
        in_file = extent.kind in _IN_FILES and extent.access is not Access.NOACCESS
        if not self._given and in_file and file is None:
            path = self._beside(extent)
            # What a link led to is no link: one that takes its place is not followed.
            file = files[number] = Image._of(read_whole(path, follow=False), path)
        return file

    def find(self, sector: int) -> int:
        """The extent that holds a sector. Refusal: 20."""
        return find(self.extents, sector)

    def _holder(self, sector: int) -> int | None:
        """The same; where there is none, the lookup is refused for that or for what comes before it."""
        try:
            return self.find(sector)
        except Refused:
            return None

    def _looked_up(self, sector: int) -> tuple[Placed, Image | None]:
        """Where a sector comes from, with the file that was asked."""
        files = self._open()
        lengths, lent = [0] * len(files), own(0)
        number = self._holder(sector)
        file = None if number is None else self._file_of(files, number)
        if number is not None and file is not None:
            lent, lengths[number] = file._lent, len(file)
        said = calls.split(self._text, lent, words_of(lengths), number_of(sector))
        if said.number:
            raise Refused(said.number, said.place, extent=None if said.number in _WHOLE else said.layer)
        return Placed(said.layer, source_of(said)), file

    def lookup(self, sector: int) -> Placed:
        """Where a virtual sector comes from. Only its own extent is judged, and only that one's file is read. Refusals: 24
        where there is not a file for each extent; 20; then of the sector's own extent 39, 43, 45, those of the check, 38."""
        return self._looked_up(sector)[0]

    def read(self, sector: int) -> bytes:
        """The bytes behind a sector's source: 512 of a stored one, the payload of a packed grain, none where it is absent or
        zero. Refusals are the lookup's."""
        placed, file = self._looked_up(sector)
        if file is None:
            return b""
        if isinstance(placed.source, Stored):
            return file.data[SECTOR * placed.source.sector :][:SECTOR].tobytes()
        return file.read(number_of(sector) - self.extents[placed.extent].first) if isinstance(placed.source, Packed) else b""

    def check(self) -> None:
        """Judges every extent, each by a sector of its own, and raises the first refusal."""
        for extent in self.extents:
            self.lookup(extent.first)


def _file(given: Given | None) -> Image | None:
    return given if given is None or isinstance(given, Image) else Image(given)
