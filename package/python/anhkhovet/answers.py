"""What calls answer."""
from __future__ import annotations

from dataclasses import dataclass
from enum import Enum, IntEnum
from typing import TypeAlias, Union

from .refusals import Refused


@dataclass(frozen=True)
class Geometry:
    """What every layer of a disk has in common."""

    capacity: int
    """Sectors of the virtual disk, 1 to 2^31."""
    grain_size: int
    """Sectors of a grain, a power of two, at most 2,048."""


@dataclass(frozen=True)
class Marked:
    """What the check in a list says of an image that it accepts."""

    geometry: Geometry
    marked: int
    """Sectors of all its areas, never more than the file has."""


@dataclass(frozen=True)
class Header:
    """What a header says."""

    geometry: Geometry
    descriptor: int
    """First sector of the descriptor inside the image, as the header names it: nothing says yet that it lies in the file."""
    descriptor_sectors: int
    """Both numbers are 0 where there is none."""
    dirty: int
    """0 where the disk was closed, any other number where it was still open."""

    @property
    def still_open(self) -> bool:
        """Whether the disk was still open when the image was copied."""
        return self.dirty != 0


@dataclass(frozen=True)
class Absent:
    """The image says nothing of the sector: its parent is asked, and without one it reads as zeros."""


@dataclass(frozen=True)
class Zero:
    """The sector reads as zeros, whatever a parent has."""


@dataclass(frozen=True)
class Stored:
    """The sector stands in the file."""

    sector: int
    """The file's sector."""


@dataclass(frozen=True)
class Packed:
    """The sector is in a packed grain: a marker of 12 bytes, then the payload, which unpacked is the whole grain."""

    sector: int
    """The file's sector at which the marker is."""
    size: int
    """Bytes of the payload."""
    offset: int
    """The number, from 0, of the virtual sector in its grain."""


Source: TypeAlias = Union[Absent, Zero, Stored, Packed]
"""Where a virtual sector comes from, inside one image."""


@dataclass(frozen=True)
class Located:
    """Where a virtual sector comes from, inside a chain."""

    layer: int
    """From 0 at the base."""
    source: Source


@dataclass(frozen=True)
class Placed:
    """Where a virtual sector comes from, inside a disk of several files."""

    extent: int
    """From 0 in the order of the descriptor's lines."""
    source: Source
    """The source in this extent's file."""


@dataclass(frozen=True)
class Part:
    """A part of the image, in bytes."""

    at: int
    length: int


@dataclass(frozen=True)
class Step:
    """An entry of the directory or of a table, as it stands in the file."""

    at: int
    """Its first byte in the file."""
    entry: int
    """The number that its four bytes are."""


@dataclass(frozen=True)
class Way:
    """What stands on the way to a sector's source, as far as the lookup comes."""

    one_is_zero: bool
    """Whether an entry of 1 means zeros in this image; else it is file sector 1."""
    grain: int
    directory: Step | None
    """None where the directory is misplaced."""
    table: Step | None
    """None where the directory's entry names no table, or one that is past the end of the file."""


@dataclass(frozen=True)
class Steps:
    """A lookup's answer, and the way to it."""

    way: Way
    source: Source


class Group(IntEnum):
    """What an area of the frame holds."""

    HEADER = 1
    DESCRIPTOR = 2
    DIRECTORY = 3
    REDUNDANT_DIRECTORY = 4
    PRIMARY_TABLE = 5
    REDUNDANT_TABLE = 6
    FOOTER = 7
    LAST_SECTOR = 8


@dataclass(frozen=True)
class Area:
    """Some sectors of the file in a row."""

    group: Group
    first: int
    sectors: int


@dataclass(frozen=True)
class Counts:
    """Grains of each kind."""

    stored: int
    zero: int
    absent: int
    packed: int

    @property
    def grains(self) -> int:
        """All of them."""
        return self.stored + self.zero + self.absent + self.packed


@dataclass(frozen=True)
class Tallied:
    """How many images a number refuses."""

    number: int
    images: int


@dataclass(frozen=True)
class Survey:
    """What a survey says."""

    rows: tuple[Counts | Refused, ...]
    """One for each image, in their order: its grains, or why the check refuses it."""
    totals: Counts
    """The sums over the accepted images."""
    tally: tuple[Tallied, ...]
    """The numbers that refuse an image, ascending."""


class Side(Enum):
    """One of an image's two directories, with its tables."""

    PRIMARY = 0
    REDUNDANT = 1


@dataclass(frozen=True)
class Change:
    """An entry of a table that was changed."""

    grain: int
    old: int
    new: int
    """What it holds now, as the good side does: 0 for absent, 1 where that means zeros, else a sector of the file."""


class Access(Enum):
    """How an extent may be used."""

    RW = 1
    RDONLY = 2
    NOACCESS = 3


class ExtentKind(Enum):
    """What holds an extent's sectors."""

    FLAT = 1  # a file, sector by sector
    VMFS = 2  # the same, on another file system
    SPARSE = 3  # a KDMV image
    VMFSSPARSE = 4  # a COWD image, which a disk refuses
    ZERO = 5  # nothing: it reads as zeros


@dataclass(frozen=True)
class Extent:
    """One extent of a descriptor."""

    first: int
    """The first virtual sector that it holds."""
    sectors: int
    access: Access
    kind: ExtentKind
    name: str
    """Without its quotes; empty where there is none. Bytes that are no UTF-8 are kept as Python keeps them in file names."""
    name_at: int
    """Where it stands in the text."""
    offset: int
    """The offset that its line has, in sectors, else 0."""


@dataclass(frozen=True)
class Descriptor:
    """What a descriptor says."""

    version: int
    cid: int
    """The content's identifier, 32 bits."""
    parent_cid: int
    """That of the parent; 0xffffffff where there is no parent."""
    create_type: str
    extents: tuple[Extent, ...]
    """1 to 32, in the order of their lines."""
