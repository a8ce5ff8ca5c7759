"""Enough stack for calls that need much: the caller's own thread, or another where that has too little left or cannot tell."""
from __future__ import annotations

import ctypes
import os
import platform
import resource
import threading
from typing import Callable, TypeVar

from ._face import STACK

Answer = TypeVar("Answer")

# Beside what the call takes: Python's own frames, and what the kernel keeps free below a stack.
_ENOUGH = STACK + (2 << 20)
# What a thread usually has: another one that is started at the same moment gets no less than it would have.
_ROOM = 8 << 20

_C = ctypes.CDLL(None)
# Where the two are known: glibc on x86-64, which the library is for. A context has the stack pointer at this byte.
_TOLD = platform.machine() == "x86_64" and hasattr(_C, "gnu_get_libc_version")
_POINTER = 160
# More than a context and a thread's attributes take.
_STRUCT = 4096

_starting = threading.Lock()
# A child has none of the threads that could let go of it: no fork stands between the two sizes of stack.
os.register_at_fork(before=_starting.acquire, after_in_parent=_starting.release, after_in_child=_starting.release)


class _Lowest(threading.local):
    """The end of this thread's stack, and the limit by which it was found."""

    address = 0
    limit: int | None = None


_lowest = _Lowest()


def _end_of_stack() -> int:
    """Asked once a thread, since it takes long; and again where the limit of the first thread was changed."""
    limit = resource.getrlimit(resource.RLIMIT_STACK)[0]
    if _lowest.limit != limit:
        attributes, low, size = ctypes.create_string_buffer(_STRUCT), ctypes.c_void_p(), ctypes.c_size_t()
        _C.pthread_self.restype = ctypes.c_void_p
        if _C.pthread_getattr_np(ctypes.c_void_p(_C.pthread_self()), attributes) != 0:
            raise OSError("the system does not tell where the stack ends")
        _C.pthread_attr_getstack(attributes, ctypes.byref(low), ctypes.byref(size))
        _C.pthread_attr_destroy(attributes)
        _lowest.address, _lowest.limit = low.value or 0, limit
    return _lowest.address


def left() -> int:
    """Bytes of stack that this thread has left; 0 where nobody tells."""
    if not _TOLD:
        return 0
    context = ctypes.create_string_buffer(_STRUCT)
    try:
        end = _end_of_stack()
    except OSError:
        return 0
    return int.from_bytes(context.raw[_POINTER : _POINTER + 8], "little") - end if _C.getcontext(context) == 0 else 0


def _elsewhere(call: Callable[[], Answer]) -> Answer:
    """Whoever is interrupted while waiting leaves the thread behind, which holds all that it was lent."""
    answers: list[Answer] = []
    thread = threading.Thread(target=lambda: answers.append(call()), name="anhkhovet", daemon=True)
    with _starting:
        before = threading.stack_size()
        threading.stack_size(max(before, _ROOM))
        try:
            thread.start()
        finally:
            threading.stack_size(before)
    thread.join()
    return answers[0]


def on_stack(call: Callable[[], Answer]) -> Answer:
    """What the call answers."""
    return call() if left() >= _ENOUGH else _elsewhere(call)
