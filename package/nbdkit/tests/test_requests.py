"""Requests at odd places, of packed grains, past the end and to write; and what a server is asked to serve."""
import json
import os
from pathlib import Path

from served import SAMPLES, Case, Served, converted, made, ran, run, told
import served
from wire import EINVAL, EIO, EPERM, READ, READ_ONLY, TRIM, WRITE, WRITE_ZEROES, Client

BASE = SAMPLES / "tool-base.vmdk"
PACKED = SAMPLES / "tool-packed.vmdk"
GRAIN = 65536


class Requests(Case):
    def test_odd_ranges(self) -> None:
        """Reads that begin or end inside of sectors and go over grains"""
        disk = converted(BASE)
        edges = [0, 1, 511, 512, 513, 1024, 1535, GRAIN - 1, GRAIN, GRAIN + 1, 2 * GRAIN - 513, 2 * GRAIN + 7, len(disk)]
        with Served(BASE) as server, Client(server.socket) as client:
            self.assertEqual(client.size, len(disk))
            for at in edges[:-1]:
                for end in edges:
                    if at < end:
                        self.assertEqual(client.read(at, end - at), disk[at:end], (at, end))

    def test_last_grain(self) -> None:
        """A disk that ends inside of a grain is read to its last byte"""
        image = SAMPLES / "monolithic-sparse-data.vmdk"
        disk = converted(image)
        self.assertNotEqual(len(disk) % GRAIN, 0)
        with Served(image) as server, Client(server.socket) as client:
            self.assertEqual(client.read(len(disk) - 53248, 53248), disk[-53248:])
            self.assertEqual(client.read(len(disk) - 1, 1), disk[-1:])

    def test_past_the_end(self) -> None:
        """Reads across the end and past it are refused, and the next one is answered"""
        with Served(BASE) as server, Client(server.socket) as client:
            for at, length in [(client.size - 1, 2), (client.size, 1), (client.size - 512, 1024), (2**63, 512)]:
                self.assertEqual(client.ask(READ, at, length)[0], EINVAL, (at, length))
            self.assertEqual(client.read(1024, 3), b"bbb")

    def test_writes(self) -> None:
        """Whatever would write is refused, and the file stays as it is"""
        image = self.copy("tool-base.vmdk")
        with Served(image) as server:
            with Client(server.socket) as client:
                self.assertTrue(client.flags & READ_ONLY)
                self.assertEqual(client.ask(WRITE, 0, 512, b"x" * 512)[0], EPERM)
                self.assertEqual(client.ask(WRITE_ZEROES, 0, 512)[0], EPERM)
                self.assertEqual(client.ask(TRIM, 0, 512)[0], EPERM)
                self.assertEqual(client.read(0, 2), b"AA")
            self.assertNotEqual(ran("nbdcopy", PACKED, server.uri).returncode, 0)
        self.assertEqual(image.read_bytes(), BASE.read_bytes())

    def test_packed(self) -> None:
        """A packed sector is an I/O error with a line that says why, and its neighbours are read"""
        with Served(PACKED) as server, Client(server.socket) as client:
            self.assertEqual(client.read(0, GRAIN), bytes(GRAIN))
            for at, length, sector in [(GRAIN, 512, 128), (GRAIN - 1, 2, 128), (4 * GRAIN - 1, 1, 511), (0, 1 << 20, 128)]:
                self.assertEqual(client.ask(READ, at, length)[0], EIO, (at, length))
                line = server.words().splitlines()[-1]
                self.assertIn(f"{PACKED}: sector {sector} is in a packed grain", line)
            self.assertEqual(client.read(4 * GRAIN, 1024), bytes(1024))
            self.assertNotEqual(ran("nbdcopy", server.uri, self.folder / "disk").returncode, 0)

    def test_packed_below(self) -> None:
        """What a layer above hides of a packed one is read"""
        top = made(self.folder / "top.vmdk", "1M", "write -q -P 0x55 64k 64k", "write -q -P 0x55 192k 64k")
        with Served(PACKED, top) as server:
            self.assertEqual(server.copied(), converted(top))

    def test_deep_chain(self) -> None:
        """Sixteen layers are served, and each is seen"""
        layers: list = []
        for number in range(16):
            below = layers[-1] if layers else None
            write = f"write -q -P {number + 1} {number * GRAIN} {GRAIN}"
            layers.append(made(self.folder / f"{number}.vmdk", "1M", write, below=below))
        with Served(*layers) as server:
            self.assertEqual(server.copied(), b"".join(bytes([number + 1]) * GRAIN for number in range(16)))

    def test_small_stack(self) -> None:
        """A server with 128 KiB of stack does as any other"""
        with Served(BASE, before=["prlimit", f"--stack={128 << 10}"]) as server:
            self.assertEqual(server.copied(), converted(BASE))

    def test_long_file(self) -> None:
        """A disk of 1 TiB, whose file has over 4 GiB, is served in little memory"""
        image = made(self.folder / "long.vmdk", "1T", "write -q -P 0x33 1099511562240 64k")
        os.truncate(image, 5 << 30)
        with Served(image) as server, Client(server.socket) as client:
            self.assertEqual(client.size, 1 << 40)
            self.assertEqual(client.read((1 << 40) - GRAIN - 3, 6), bytes(3) + b"333")
            status = Path(f"/proc/{server.process.pid}/status").read_text()
            resident = int(status.split("VmRSS:")[1].split()[0])
            self.assertLess(resident, 400 << 10)

    def test_what_is_told(self) -> None:
        """Several connections may be made, the preferred block is a grain, and requests run side by side"""
        with Served(BASE) as server:
            export = json.loads(run("nbdinfo", "--json", server.uri).stdout)["exports"][0]
        self.assertEqual((export["can_multi_conn"], export["block_size_preferred"]), (True, GRAIN))
        self.assertIn(b"\nthread_model=parallel\n", run("nbdkit", "--dump-plugin", served.PLUGIN).stdout)

    def test_parameters(self) -> None:
        """Files may be named without `file=`, and words that it does not know are told"""
        found = run("nbdkit", "-U", "-", served.PLUGIN, BASE, SAMPLES / "tool-middle.vmdk", "--run", "nbdinfo --size $uri")
        self.assertEqual(found.stdout, b"1048576\n")
        for words, said in [(["disk=x"], "unknown parameter 'disk'"), ([], "no file is named")]:
            refused = ran("nbdkit", "-U", "-", served.PLUGIN, *words, "--run", "true")
            self.assertEqual(refused.returncode, 1)
            self.assertIn(said, refused.stderr.decode())

    def test_no_files(self) -> None:
        """What is no plain file is told at once"""
        pipe = self.folder / "pipe"
        os.mkfifo(pipe)
        strange = self.folder / "a\x1b[1mb\n.vmdk"
        for path, said in [(pipe, "is no plain file"), (self.folder, "is no plain file"), ("/dev/zero", "is no plain file"),
                           (self.folder / "none", "cannot be opened: No such file or directory"),
                           (strange, "a\\x1b[1mb\\x0a.vmdk: cannot be opened")]:
            refused = told(BASE, path)
            self.assertEqual((refused.returncode, refused.stdout), (1, b""), path)
            self.assertIn(said, refused.stderr.decode())
