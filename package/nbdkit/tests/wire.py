"""The NBD protocol itself, since well-behaved clients ask for nothing odd: https://github.com/NetworkBlockDevice/nbd."""
import socket
import struct
from pathlib import Path
from typing import Tuple

READ, WRITE, TRIM, WRITE_ZEROES, BLOCK_STATUS = 0, 1, 4, 6, 7
# Options before the requests, the answer that ends one, and the kinds of reply that are errors.
GO, STRUCTURED, SET_CONTEXT, ACKNOWLEDGED, ERRORS = 7, 8, 10, 1, 1 << 15
# Error numbers of the protocol.
EPERM, EIO, EINVAL = 1, 5, 22
READ_ONLY = 2


class Client:
    """One connection."""

    def __init__(self, path: Path) -> None:
        self.stream = socket.socket(socket.AF_UNIX)
        self.stream.settimeout(60)
        self.stream.connect(str(path))
        assert self.take(16) == b"NBDMAGICIHAVEOPT"
        self.take(2)
        self.greet()

    def greet(self) -> None:
        """Fixed newstyle without zeroes behind; then the export without a name."""
        self.stream.sendall(struct.pack(">I8sII", 3, b"IHAVEOPT", 1, 0))
        self.size, self.flags = struct.unpack(">QH", self.take(10))

    def __enter__(self) -> "Client":
        return self

    def __exit__(self, *_: object) -> None:
        self.stream.close()

    def take(self, count: int) -> bytes:
        found = b""
        while len(found) < count:
            more = self.stream.recv(count - len(found))
            if not more:
                raise ConnectionError("the server is gone")
            found += more
        return found

    def ask(self, what: int, offset: int, length: int, data: bytes = b"") -> Tuple[int, bytes]:
        """The error number of a request, 0 for none, and what was read."""
        self.stream.sendall(struct.pack(">IHHQQI", 0x25609513, 0, what, 7, offset, length) + data)
        magic, error, cookie = struct.unpack(">IIQ", self.take(16))
        assert (magic, cookie) == (0x67446698, 7)
        return error, self.take(length) if what == READ and error == 0 else b""

    def read(self, offset: int, length: int) -> bytes:
        error, found = self.ask(READ, offset, length)
        assert error == 0, f"error {error}"
        return found


class StatusClient(Client):
    """One connection that asks for block status."""

    def greet(self) -> None:
        context = b"base:allocation"
        self.stream.sendall(struct.pack(">I", 3))
        self.option(STRUCTURED, b"")
        self.option(SET_CONTEXT, struct.pack(">III", 0, 1, len(context)) + context)
        self.option(GO, struct.pack(">IH", 0, 0))

    def option(self, what: int, data: bytes) -> None:
        self.stream.sendall(struct.pack(">8sII", b"IHAVEOPT", what, len(data)) + data)
        kind = 0
        while kind != ACKNOWLEDGED:
            _, _, kind, length = struct.unpack(">QIII", self.take(20))
            assert kind < 1 << 31, f"option {what} refused: {kind:x}"
            self.take(length)

    def status(self, offset: int, length: int) -> int:
        """The error number of a request for block status, 0 for none."""
        self.stream.sendall(struct.pack(">IHHQQI", 0x25609513, 0, BLOCK_STATUS, 7, offset, length))
        error, done = 0, 0
        while not done:
            magic, done, kind, _, count = struct.unpack(">IHHQI", self.take(20))
            assert magic == 0x668E33EF
            data = self.take(count)
            error = struct.unpack(">I", data[:4])[0] if kind & ERRORS else error
        return error
