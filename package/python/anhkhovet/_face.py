"""The C face of the proved library: its structs and calls, and where its shared library is found. A slice is an address and a
count, a struct is all 64-bit numbers. The tests hold this page to the sources of the library."""
from __future__ import annotations

import ctypes
import os
from pathlib import Path
from typing import TypeVar

LIBRARY = "libanhkhovet.so.1"
VARIABLE = "ANHKHOVET_LIBRARY"


Answer = TypeVar("Answer", bound=ctypes.Structure)


def _numbers(struct: type[Answer]) -> type[Answer]:
    """Has the fields of a struct in the order in which they are told, 64 bits each."""
    struct._fields_ = [(name, ctypes.c_uint64) for name in struct.__annotations__]
    return struct


@_numbers
class Verdict(ctypes.Structure):
    number: int
    place: int
    capacity: int
    grain_size: int


@_numbers
class Marked(ctypes.Structure):
    number: int
    place: int
    capacity: int
    grain_size: int
    marked: int


@_numbers
class Head(ctypes.Structure):
    number: int
    place: int
    capacity: int
    grain_size: int
    descriptor: int
    descriptor_sectors: int
    dirty: int


@_numbers
class Located(ctypes.Structure):
    number: int
    layer: int
    place: int
    kind: int
    sector: int
    size: int
    offset: int


@_numbers
class Steps(ctypes.Structure):
    number: int
    place: int
    one_is_zero: int
    grain: int
    directory_at: int
    directory_entry: int
    table_at: int
    table_entry: int
    kind: int
    sector: int
    size: int
    offset: int


@_numbers
class Part(ctypes.Structure):
    at: int
    length: int


@_numbers
class Framed(ctypes.Structure):
    number: int
    place: int
    count: int


@_numbers
class Surveyed(ctypes.Structure):
    number: int
    place: int
    stored: int
    zero: int
    absent: int
    packed: int


@_numbers
class Mended(ctypes.Structure):
    number: int
    place: int
    count: int


@_numbers
class Written(ctypes.Structure):
    number: int
    place: int
    length: int


@_numbers
class Closed(ctypes.Structure):
    number: int
    place: int
    sectors: int
    grains: int
    length: int


@_numbers
class Described(ctypes.Structure):
    number: int
    place: int
    extents: int
    version: int
    cid: int
    parent_cid: int
    type_at: int
    type_length: int


@_numbers
class Extent(ctypes.Structure):
    first: int
    sectors: int
    access: int
    kind: int
    name_at: int
    name_length: int
    offset: int


@_numbers
class Found(ctypes.Structure):
    number: int
    place: int
    extent: int


# What a call takes, one letter each: s a slice, n a number.
_TAKEN: dict[str, tuple[type, ...]] = {"s": (ctypes.c_void_p, ctypes.c_size_t), "n": (ctypes.c_uint64,)}

CALLS: dict[str, tuple[type[ctypes.Structure], str]] = {
    "check": (Verdict, "s"),
    "check_in": (Marked, "ss"),
    "profile": (Verdict, "s"),
    "header": (Head, "s"),
    "lookup": (Located, "sn"),
    "steps": (Steps, "sn"),
    "chain": (Located, "ssn"),
    "read": (Part, "sn"),
    "frame": (Framed, "ss"),
    "survey": (Surveyed, "ssss"),
    "mend": (Mended, "sns"),
    "normal": (Written, "ss"),
    "collapse": (Written, "sss"),
    "to_kdmv": (Written, "ss"),
    "to_cowd": (Written, "ss"),
    "close": (Closed, "ss"),
    "descriptor": (Described, "ss"),
    "find": (Found, "sn"),
    "split": (Located, "sssn"),
}

# Calls that keep a mark for each of some eight million sectors on the stack.
DEEP = frozenset({"check", "profile", "survey", "normal", "collapse", "to_kdmv", "to_cowd", "split", "mend"})

# Bytes of stack that are enough for any call.
STACK = (1 << 20) + (1 << 16)


def taken(call: str) -> list[type]:
    """The C types of a call's arguments."""
    return [each for letter in CALLS[call][1] for each in _TAKEN[letter]]


def _opened() -> ctypes.CDLL:
    named = os.environ.get(VARIABLE)
    module = Path(__file__).resolve()
    # Beside the module, and where the package's tarball has it, below one lib with the module.
    near = [module.with_name(LIBRARY)]
    if module.parts[-5:-2] == ("lib", "python3", "dist-packages"):
        near.append(module.parents[3] / LIBRARY)
    place = named or next((str(path) for path in near if path.exists()), LIBRARY)
    try:
        return ctypes.CDLL(place)
    except OSError as error:
        raise ImportError(
            f"the proved library cannot be loaded: {error}; it is looked for where {VARIABLE} says, "
            f"then as {' and '.join(map(str, near))}, then as {LIBRARY} by the system's loader"
        ) from error


def load() -> ctypes.CDLL:
    """The library, with each call's types told."""
    library = _opened()
    for call, (answer, _) in CALLS.items():
        name = f"anhkhovet_{call}"
        try:
            function = getattr(library, name)
        except AttributeError:
            raise ImportError(f"{library._name} has no {name}: it is not the library that this module is for") from None
        function.restype, function.argtypes = answer, taken(call)
    return library
