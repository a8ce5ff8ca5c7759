"""Memory that is lent to the library. It must stand still for a call, so it is the module's own or a `bytes`."""
from __future__ import annotations

import ctypes
import mmap
from contextlib import suppress
from typing import TypeAlias, Union

Buffer: TypeAlias = Union[bytes, bytearray, memoryview, mmap.mmap]
BUFFERS = (bytes, bytearray, memoryview, mmap.mmap)

Words: TypeAlias = ctypes.Array[ctypes.c_uint64]

# Python has the name from 3.13 on; the number is Linux's.
_NORESERVE = getattr(mmap, "MAP_NORESERVE", 0x4000)
_ANONYMOUS = mmap.MAP_PRIVATE | mmap.MAP_ANONYMOUS | _NORESERVE
# Bytes that are looked at together, where zeros are left out.
_STRETCH = bytes(1 << 16)


class Memory:
    """Bytes at an address, which stay there as long as this is held."""

    __slots__ = ("address", "length", "view", "_held")

    def __init__(self, held: object, address: int, view: memoryview) -> None:
        self._held = held
        self.address = address
        self.length = len(view)
        self.view = view

    def part(self, at: int, length: int) -> Memory:
        """Some of them, not copied."""
        return Memory(self._held, self.address + at, self.view[at : at + length])


def of_bytes(data: bytes) -> Memory:
    """A `bytes` as it is: nobody can change it."""
    address = ctypes.cast(ctypes.c_char_p(data), ctypes.c_void_p).value
    assert address is not None
    return Memory(data, address, memoryview(data))


def of_buffer(buffer: Buffer) -> Memory:
    """Any other buffer is copied: a thread or another program may change it in the middle of a call."""
    return of_bytes(buffer if type(buffer) is bytes else memoryview(buffer).tobytes())


def own(length: int) -> Memory:
    """Zeros that may be written. A page that nobody touches costs nothing."""
    try:
        # No mapping is empty.
        area = mmap.mmap(-1, max(length, 1), flags=_ANONYMOUS)
    except (OSError, OverflowError) as error:
        raise MemoryError(f"{length} bytes of memory are not to be had") from error
    # A large page for each table that stands alone would take 2 MiB.
    with suppress(OSError):
        area.madvise(mmap.MADV_NOHUGEPAGE)
    held = (ctypes.c_ubyte * length).from_buffer(area)
    return Memory(held, ctypes.addressof(held), memoryview(area)[:length])


def put_over(zeros: memoryview, source: memoryview) -> None:
    """Puts bytes over as many zeros, and leaves long zeros out: what was a hole in a file still costs nothing."""
    for at in range(0, len(source), len(_STRETCH)):
        part = source[at : at + len(_STRETCH)]
        if bytes(part) != _STRETCH[: len(part)]:
            zeros[at : at + len(part)] = part


def words(count: int) -> Words:
    """A list of so many numbers, all 0."""
    memory = own(8 * count)
    return (ctypes.c_uint64 * count).from_buffer(memory.view)
