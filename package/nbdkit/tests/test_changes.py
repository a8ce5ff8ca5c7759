"""Files that change while they are served."""
import os
from pathlib import Path
from typing import Callable

from served import Case, Served
from wire import EIO, READ, Client, StatusClient

GRAIN = 65536


class Changes(Case):
    def served(self, change: Callable[[Path], None]) -> None:
        """Before the change there are answers, after it none, and the file is named; a new client is turned away."""
        base, middle = self.copy("tool-base.vmdk"), self.copy("tool-middle.vmdk")
        with Served(base, middle) as server:
            with Client(server.socket) as client, StatusClient(server.socket) as asked:
                self.assertEqual(client.read(0, 2), b"AA")
                self.assertEqual(asked.status(0, 512), 0)
                change(base)
                self.assertEqual(asked.status(0, 512), EIO)
                # Also for what is read from the other file, and for what is from none.
                for at in (0, GRAIN, 2 * GRAIN, 8 * GRAIN):
                    self.assertEqual(client.ask(READ, at, 512)[0], EIO)
            self.assertIn(f"{base}: the file changed after it was opened", server.words())
            with self.assertRaises(OSError):
                with Client(server.socket) as client:
                    client.read(0, 1)

    def test_written(self) -> None:
        """After a write to a layer each request is an I/O error, also with the time put back"""
        def write(path: Path) -> None:
            facts = os.stat(path)
            with path.open("r+b") as file:
                file.seek(GRAIN)
                file.write(b"Z")
            os.utime(path, ns=(facts.st_atime_ns, facts.st_mtime_ns))
        self.served(write)

    def test_cut(self) -> None:
        """After a layer was cut each request is an I/O error"""
        self.served(lambda path: os.truncate(path, 4096))

    def test_tables(self) -> None:
        """After a layer's tables were overwritten each request is an I/O error"""
        def zero(path: Path) -> None:
            with path.open("r+b") as file:
                file.write(bytes(GRAIN))
        self.served(zero)

    def test_replaced(self) -> None:
        """A file that another one takes the name of is told as changed"""
        self.served(lambda path: os.replace(self.copy("tool-top.vmdk"), path))
