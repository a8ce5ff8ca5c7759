"""The proved library of sparse disk images (VMDK), for Python.

`Image` is one image, `Chain` several on top of each other, `Disk` a descriptor with its files; `survey` counts the grains of
many images, `descriptor` reads a descriptor's text. What breaks a rule raises `Refused`, with its number, its place
and a sentence; a file that cannot be read, or changed while it was read (`Changed`), raises an `OSError`.

No byte of an image is judged here: each answer is the library's. docs/PYTHON.md, with the package below
/usr/share/anhkhovet, has examples; `help(anhkhovet.Image)` is where to begin."""
from ._face import STACK
from ._files import Changed
from ._told import SECTOR
from .answers import (
    Absent,
    Access,
    Area,
    Change,
    Counts,
    Descriptor,
    Extent,
    ExtentKind,
    Geometry,
    Group,
    Header,
    Located,
    Marked,
    Packed,
    Part,
    Placed,
    Side,
    Source,
    Step,
    Steps,
    Stored,
    Survey,
    Tallied,
    Way,
    Zero,
)
from .chain import Chain, survey
from .disk import Disk, descriptor, find
from .image import ClosedStream, Image, Mended, collapse, mend_in, words_needed
from .refusals import Counted, MisplacedPart, Refused

__all__ = [
    "Absent", "Access", "Area", "Chain", "Change", "Changed", "ClosedStream", "Counted", "Counts", "Descriptor", "Disk",
    "Extent", "ExtentKind", "Geometry", "Group", "Header", "Image", "Located", "Marked", "Mended", "MisplacedPart",
    "Packed", "Part", "Placed", "Refused", "SECTOR", "STACK", "Side", "Source", "Step", "Steps", "Stored", "Survey",
    "Tallied", "Way", "Zero", "collapse", "descriptor", "find", "mend_in", "survey", "words_needed",
]
