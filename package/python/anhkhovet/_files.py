"""Plain files, read whole into own memory. A file may change while it is read: that is told, as docs/ROBUST.md has it."""
from __future__ import annotations

import errno
import os
import stat
import time
from contextlib import contextmanager
from typing import Iterator, TypeAlias, Union

from ._lent import Memory, own

Path: TypeAlias = Union[str, os.PathLike[str]]

_CLOCK_REALTIME_COARSE = 5
_TICK = 0.001
# Ticks: longer than the clock by which the kernel stamps files takes to go on, and how long a file is waited for.
_STILL, _PATIENCE = 20, 100

_Facts: TypeAlias = tuple[int, int, int, int, int]


def _look(file: int) -> _Facts:
    told = os.fstat(file)
    return told.st_size, told.st_mtime_ns, told.st_ctime_ns, told.st_dev, told.st_ino


class Changed(OSError):
    """The file was written, cut or lengthened while it was read."""

    def __init__(self, path: str) -> None:
        super().__init__(errno.EBUSY, "the file changed while it was read", path)

    def __reduce__(self) -> tuple[type[Changed], tuple[str]]:
        return Changed, (self.filename,)


def unfit(path: str, why: str) -> OSError:
    """The error of a path that is there, and is not opened."""
    return OSError(errno.EINVAL, why, path)


class PlainFile:
    """A file, and what shows that it was written since it was first looked at. It is open only while it is read: a survey takes
    more files than a process may have open."""

    def __init__(self, path: Path, follow: bool = True) -> None:
        self.path, self._follow = os.fspath(path), follow
        with self._opened() as file:
            self._facts = self._settled(file)
        self.length = self._facts[0]

    @contextmanager
    def _opened(self) -> Iterator[int]:
        # Before it is opened: a pipe would be waited for, and a device touched.
        self._plain(os.stat(self.path, follow_symlinks=self._follow))
        flags = os.O_RDONLY | os.O_NONBLOCK | os.O_CLOEXEC | (0 if self._follow else os.O_NOFOLLOW)
        file = os.open(self.path, flags)
        try:
            self._plain(os.fstat(file))
            yield file
        finally:
            os.close(file)

    def _plain(self, told: os.stat_result) -> None:
        if not stat.S_ISREG(told.st_mode):
            raise unfit(self.path, "is no plain file, and only those can be read")

    def _settled(self, file: int) -> _Facts:
        """Waits until the clock has gone on since the last change: only then does the next one get another time."""
        facts, still = _look(file), 0
        for _ in range(_PATIENCE):
            if facts[2] < time.clock_gettime_ns(_CLOCK_REALTIME_COARSE) or still >= _STILL:
                return facts
            time.sleep(_TICK)
            now = _look(file)
            facts, still = now, still + 1 if now == facts else 0
        raise Changed(self.path)

    def _data(self, file: int, at: int) -> tuple[int, int]:
        """The next bytes from there on that are no hole."""
        try:
            start = os.lseek(file, at, os.SEEK_DATA)
            return start, min(os.lseek(file, start, os.SEEK_HOLE), self.length)
        except OSError as error:
            # Nothing but a hole is left; else it is a file system that knows no holes.
            return (self.length if error.errno == errno.ENXIO else at), self.length

    def fill(self, zeros: memoryview) -> None:
        """Puts the file's bytes over as many zeros, and leaves its holes out, so that they cost nothing."""
        with self._opened() as file:
            at = 0
            while at < self.length:
                at, end = self._data(file, at)
                while at < end:
                    read = os.preadv(file, [zeros[at:end]], at)
                    if read == 0:
                        raise Changed(self.path)
                    at += read

    def same(self) -> None:
        """Fails where it is another file, or length or times are other than they were at first."""
        with self._opened() as file:
            if _look(file) != self._facts:
                raise Changed(self.path)


def room_for(length: int, paths: list[str]) -> Memory:
    """Memory for files and buffers. That files are too long is their fault, and told as one of theirs."""
    try:
        return own(length)
    except MemoryError as error:
        if not paths:
            raise
        raise OSError(errno.ENOMEM, "is too long to be read into memory", ", ".join(paths)) from error


def read_whole(path: Path, follow: bool = True) -> Memory:
    """The bytes of one file, as they were at one time."""
    file = PlainFile(path, follow)
    memory = room_for(file.length, [file.path])
    file.fill(memory.view)
    file.same()
    return memory
