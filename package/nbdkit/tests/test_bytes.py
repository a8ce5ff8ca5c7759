"""The bytes that are served are those that qemu-img reads, and the map is the tool's."""
import json
import random
import subprocess
import tempfile
from concurrent.futures import ThreadPoolExecutor
from pathlib import Path
from typing import Tuple

from served import PATIENCE, SAMPLES, Case, Served, converted, made, mapped, mapped_runs, run
import served
from wire import Client

# Samples that qemu-img opens by themselves, and chains with the layers below the last one.
CHAINS = [
    ["monolithic-sparse"],
    ["monolithic-sparse-data"],
    ["zeroed-grain"],
    ["zeroed-grain-data"],
    ["chain-base"],
    ["chain-base", "chain-middle"],
    ["chain-base", "chain-middle", "chain-top"],
    ["tool-base"],
    ["tool-base", "tool-middle"],
    ["tool-base", "tool-middle", "tool-top"],
    ["monolithic-sparse", "delta"],
]
# Samples that are only mapped: packed ones, and extents of 2 GiB and of some sectors, which qemu-img does not open alone.
MAPPED = [["stream-optimized"], ["stream-optimized-data"], ["tool-packed"], ["vmdkstream"], ["two-gb-sparse-data-s001"],
          ["two-gb-sparse-data-s002"], ["tool-packed", "tool-base"], ["tool-base", "tool-packed"]]


def paths(names: list) -> list:
    return [SAMPLES / f"{name}.vmdk" for name in names]


def grown(folder: Path) -> Tuple[list, bytes]:
    """Three layers of three tables each, with grains in any order, written in part, zeroed and covered; and their disk."""
    chance = random.Random(30)
    size = 70 * 2**20 + 3 * 512
    layers: list = []
    for name in ("base", "middle", "top"):
        noise = folder / f"{name}.noise"
        noise.write_bytes(chance.randbytes(200000))
        writes = []
        for _ in range(24):
            at = chance.randrange(size // 512) * 512
            length = min(chance.choice([512, 65536, 131072, 3 * 512, 196608]), size - at)
            writes.append(f"write -q -z {at} {length}" if chance.random() < 0.3 else f"write -q -s {noise} {at} {length}")
        layers.append(made(folder / f"{name}.vmdk", str(size), *writes, below=layers[-1] if layers else None))
    return layers, converted(layers[-1])


class Bytes(Case):
    @classmethod
    def setUpClass(cls) -> None:
        cls.work = tempfile.TemporaryDirectory()
        cls.addClassCleanup(cls.work.cleanup)
        cls.layers, cls.disk = grown(Path(cls.work.name))

    def test_samples(self) -> None:
        """nbdcopy of samples and of their chains gives the bytes of qemu-img convert"""
        for names in CHAINS:
            with self.subTest(names), Served(*paths(names)) as server:
                self.assertEqual(server.copied(), converted(paths(names)[-1]))

    def test_chain(self) -> None:
        """nbdcopy of a chain made anew gives the bytes of qemu-img convert and of the tool"""
        layers, disk = self.layers, self.disk
        run(served.TOOL, "raw", *layers, "-o", self.folder / "raw")
        self.assertEqual((self.folder / "raw").read_bytes(), disk)
        with Served(*layers) as server:
            self.assertEqual(server.copied(), disk)
            self.assertEqual(server.runs(), mapped(*layers))
            self.assertGreater(len(server.runs()), 20)
        # The order of layers counts.
        with Served(layers[1], layers[0], layers[2]) as server:
            self.assertNotEqual(server.copied(), disk)

    def test_layers_in_a_row(self) -> None:
        """Grains in a row that stand at places in a row, but in two files, are read from both"""
        base = made(self.folder / "base.vmdk", "1M", "write -q -P 1 0 64k", "write -q -P 2 64k 64k")
        top = made(self.folder / "top.vmdk", "1M", "write -q -P 4 512k 64k", "write -q -P 3 64k 64k", below=base)
        places = [(run["layer"], run["file_sector"]) for run in mapped_runs(base, top)[:2]]
        self.assertEqual(places, [(0, 128), (1, 256)])
        with Served(base, top) as server:
            self.assertEqual(server.copied(), converted(top))

    def test_maps(self) -> None:
        """nbdinfo --map of samples and of their chains agrees with the tool's map"""
        for names in CHAINS + MAPPED:
            with self.subTest(names), Served(*paths(names)) as server:
                self.assertEqual(server.runs(), mapped(*paths(names)))

    def test_one_extent(self) -> None:
        """A client that asks for one extent at a time sees the same map"""
        names = paths(["tool-base", "tool-middle", "tool-top"])
        with Served(*names) as server:
            # qemu-img asks so, and tells of zeros and data alone.
            said = json.loads(run("qemu-img", "map", "-f", "raw", "--output=json", server.uri).stdout)
        found = [(part["start"], part["length"], part["zero"]) for part in said]
        wanted = [(0, 65536, True), (65536, 65536, False), (131072, 65536, True), (196608, 65536, False), (262144, 786432, True)]
        self.assertEqual(found, wanted)

    def test_long_maps(self) -> None:
        """Disks of over 4 GiB are mapped whole: an empty one, and one with a grain on each side of that edge"""
        empty = made(self.folder / "empty.vmdk", "9G")
        written = made(self.folder / "written.vmdk", "9G", "write -q -P 1 4294901760 128k")
        for image in (empty, written):
            with Served(image) as server:
                self.assertEqual(server.runs(), mapped(image))

    def test_four_readers(self) -> None:
        """Four readers at once give the same bytes"""
        disk = self.disk
        with Served(*self.layers) as server:
            outs = [self.folder / f"out-{number}" for number in range(4)]
            copies = [subprocess.Popen(["nbdcopy", server.uri, str(out)]) for out in outs]
            with ThreadPoolExecutor(4) as pool:
                self.assertEqual(list(pool.map(lambda seed: parts(server, disk, seed), range(4))), [None] * 4)
            self.assertEqual([copy.wait(PATIENCE) for copy in copies], [0] * 4)
            for out in outs:
                self.assertEqual(out.read_bytes(), disk)
            self.assertEqual(server.words(), "")


def parts(server: Served, disk: bytes, seed: int) -> None:
    """Parts of any length at any byte, some over several grains."""
    chance = random.Random(seed)
    with Client(server.socket) as client:
        for _ in range(200):
            at = chance.randrange(len(disk))
            length = min(chance.choice([1, 511, 513, 4096, 70000, 300000]), len(disk) - at)
            assert client.read(at, length) == disk[at:at + length], f"{length} bytes at {at}"
