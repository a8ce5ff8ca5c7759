"""A chain served by nbdkit and the plugin, and the other programs that the tests compare it with."""
import json
import shutil
import subprocess
import tempfile
import time
import unittest
from pathlib import Path
from typing import Dict, List, Optional, Sequence, Tuple

ROOT = Path(__file__).resolve().parents[3]
SAMPLES = ROOT / "samples"
PLUGIN = TOOL = ""
# Seconds until a server that does not answer is given up.
PATIENCE = 60

# Types of NBD: what the kinds of the tool's map are told as.
DATA, ZERO, HOLE = 0, 2, 3
TYPES = {"stored": DATA, "packed": DATA, "zero": ZERO, "absent": HOLE}

Runs = List[Tuple[int, int, int]]


def run(*words: object, **more: object) -> subprocess.CompletedProcess:
    """A command that has to do well."""
    done = ran(*words, **more)
    if done.returncode != 0:
        raise AssertionError(f"{words}: status {done.returncode}: {done.stderr!r}")
    return done


def ran(*words: object, **more: object) -> subprocess.CompletedProcess:
    return subprocess.run([str(word) for word in words], capture_output=True, timeout=PATIENCE, **more)


def told(*layers: object) -> subprocess.CompletedProcess:
    """What nbdkit says of layers that it may not serve; where it does, it prints `served`."""
    return ran("nbdkit", "-U", "-", PLUGIN, *[f"file={layer}" for layer in layers], "--run", "echo served")


class Served:
    """A server of layers, base first, on a socket of its own: with Served(..) as server."""

    def __init__(self, *layers: object, before: Sequence[str] = ()) -> None:
        self.folder = Path(tempfile.mkdtemp())
        self.socket = self.folder / "socket"
        self.uri = f"nbd+unix:///?socket={self.socket}"
        self.log = self.folder / "log"
        files = [f"file={layer}" for layer in layers]
        # It is written once the server listens.
        self.ready = self.folder / "pid"
        command = [*before, "nbdkit", "-f", "-P", str(self.ready), "-U", str(self.socket), PLUGIN, *files]
        with self.log.open("wb") as log:
            self.process = subprocess.Popen(command, stderr=log, stdin=subprocess.DEVNULL)

    def __enter__(self) -> "Served":
        for _ in range(100 * PATIENCE):
            if self.ready.exists():
                return self
            if self.process.poll() is not None:
                break
            time.sleep(0.01)
        self.__exit__()
        raise AssertionError(f"not served: {self.said}")

    def __exit__(self, *_: object) -> None:
        self.process.terminate()
        self.process.wait()
        self.said = self.words()
        shutil.rmtree(self.folder)

    def words(self) -> str:
        """What the server has said on standard error so far."""
        return self.log.read_text()

    def copied(self) -> bytes:
        """The whole disk, by nbdcopy."""
        disk = self.folder / "disk"
        run("nbdcopy", self.uri, disk)
        return disk.read_bytes()

    def runs(self) -> Runs:
        """Offset, length and type of each run, by nbdinfo."""
        found = json.loads(run("nbdinfo", "--map", "--json", self.uri).stdout)
        return joined([(part["offset"], part["length"], part["type"]) for part in found])


def joined(runs: Runs) -> Runs:
    """Neighbours of one type as one."""
    all_runs: Runs = []
    for at, length, kind in runs:
        if all_runs and all_runs[-1][2] == kind and sum(all_runs[-1][:2]) == at:
            at, length = all_runs[-1][0], all_runs.pop()[1] + length
        all_runs.append((at, length, kind))
    return all_runs


def mapped_runs(*layers: object) -> List[Dict[str, object]]:
    """What the tool's map says."""
    return json.loads(run(TOOL, "map", "--json", *layers).stdout)["runs"]


def mapped(*layers: object) -> Runs:
    """Offset, length and type of each run, by the tool's map."""
    found = mapped_runs(*layers)
    return joined([(512 * part["first"], 512 * part["sectors"], TYPES[part["kind"]]) for part in found])


def converted(image: object) -> bytes:
    """The disk of an image and its backing files, by qemu-img."""
    with tempfile.TemporaryDirectory() as folder:
        run("qemu-img", "convert", "-O", "raw", image, f"{folder}/raw")
        return Path(folder, "raw").read_bytes()


def made(path: Path, size: str, *commands: str, below: Optional[Path] = None, options: str = "zeroed_grain=on") -> Path:
    """An image made by qemu-img and written to by qemu-io."""
    backing = ["-b", below, "-F", "vmdk"] if below else []
    run("qemu-img", "create", "-q", "-f", "vmdk", "-o", options, *backing, path, *([] if below else [size]))
    words = [word for command in commands for word in ("-c", command)]
    if words:
        # What is lost in a crash is lost: no test waits for a disk.
        run("qemu-io", "-t", "unsafe", "-f", "vmdk", *words, path)
    return path


class Case(unittest.TestCase):
    """A test with a folder of its own."""

    maxDiff = 4000

    def setUp(self) -> None:
        folder = tempfile.TemporaryDirectory()
        self.addCleanup(folder.cleanup)
        self.folder = Path(folder.name)

    def copy(self, name: str) -> Path:
        """A copy of a sample, to be written to."""
        return Path(shutil.copy(SAMPLES / name, self.folder))
