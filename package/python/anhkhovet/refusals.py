"""Why a call gives no answer. The sentences are those of rust/anhkhovet/src/refusal.rs, and a test holds them to it."""
from __future__ import annotations

from enum import Enum, IntEnum
from typing import TYPE_CHECKING

from ._sentences import BROKEN, LINE_33, PARTS, SENTENCES

if TYPE_CHECKING:
    from .answers import Way


class MisplacedPart(IntEnum):
    """What refusal 8 finds outside the file, by its place. Where several parts lie outside, the place is the lowest."""

    DESCRIPTOR = 1
    DIRECTORY = 2
    REDUNDANT_DIRECTORY = 3
    PRIMARY_TABLE = 4
    REDUNDANT_TABLE = 5

    @property
    def words(self) -> str:
        """What is wrong with it."""
        return PARTS[self]


class Counted(Enum):
    """What a refusal's place counts."""

    PART = "part"  # nothing: it names the part that does not lie inside the file
    GRAIN = "grain"  # grains of the image, from 0
    BYTE = "byte"  # bytes of the file, from 0
    LINE = "line"  # lines of the text, from 1
    NOTHING = "nothing"  # the place is 0 and says nothing


class Refused(Exception):
    """A refusal by the rules of the format. Shown, it is its number, its place where that counts something, and a sentence."""

    def __init__(
        self,
        number: int,
        place: int = 0,
        layer: int | None = None,
        extent: int | None = None,
        marked: int = 0,
        way: Way | None = None,
    ) -> None:
        super().__init__(number, place, layer, extent, marked, way)
        self.number = number
        """Which rule is broken: docs/REFUSALS.md has for each its rule, its usual cause and what to try."""
        self.place = place
        """The part, the grain, the byte or the line at fault, as `counted` says, else 0."""
        self.layer = layer
        """The layer of a chain at fault, from 0 at the base; None where the whole chain is refused, or it is no chain."""
        self.extent = extent
        """The extent of a disk at fault, from 0; None where descriptor or whole disk are refused, or it is no disk of files."""
        self.marked = marked
        """Of the check in a list, on 12: the sectors of the areas before the first one that meets an earlier one."""
        self.way = way
        """Of a lookup's steps, on 8, 9 and 10: how far it came."""

    @property
    def part(self) -> MisplacedPart | None:
        """What does not lie inside the file, by the place of refusal 8."""
        return MisplacedPart(self.place) if self.number == 8 and self.place in PARTS else None

    @property
    def counted(self) -> Counted:
        """What the place counts."""
        if self.part is not None:
            return Counted.PART
        if self.number in (9, 10):
            return Counted.GRAIN
        if self.number == 42:
            return Counted.BYTE
        return Counted.LINE if self.number in (32, 33, 34) and self.place > 0 else Counted.NOTHING

    @property
    def sentence(self) -> str:
        """What the number means, in words; of 8 with what sticks out."""
        if self.part is not None:
            return self.part.words
        if self.number == 33 and self.place > 0:
            return LINE_33
        return SENTENCES.get(self.number, BROKEN)

    def __str__(self) -> str:
        of = "" if self.layer is None else f"layer {self.layer}: "
        of += "" if self.extent is None else f"extent {self.extent}: "
        counts = self.counted in (Counted.GRAIN, Counted.BYTE, Counted.LINE)
        at = f" at {self.counted.value} {self.place}" if counts else ""
        before = f" ({self.marked} sectors were marked before)" if self.marked else ""
        return f"{of}refused {self.number}{at}: {self.sentence}{before}"

    def __eq__(self, other: object) -> bool:
        return isinstance(other, Refused) and self.args == other.args

    def __hash__(self) -> int:
        return hash(self.args)
