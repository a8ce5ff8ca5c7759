"""Files that change, that are strange, or that have holes; and the files of a disk."""
import os
import socket
import threading
import time
from pathlib import Path

import pytest
from sources import SAMPLES

import anhkhovet
from anhkhovet import Changed, Chain, Disk, Image, Placed, Refused, Side, Stored, survey
from anhkhovet._files import PlainFile

BASE = SAMPLES / "tool-base.vmdk"
TEXT = '# Disk DescriptorFile\nversion=1\nCID=1\nparentCID=ffffffff\ncreateType="custom"\n'


def told_as_changed(path: Path, change: object) -> None:
    """Opens the file, has it changed, and reads it on."""
    file = PlainFile(path)
    assert callable(change)
    change()
    with pytest.raises(Changed, match="changed while it was read"):
        file.fill(memoryview(bytearray(file.length)))
        file.same()


def test_a_file_that_changes(tmp_path: Path) -> None:
    path = tmp_path / "image"

    def rewritten() -> None:
        with path.open("r+b") as file:
            file.write(b"K")

    def put_back() -> None:
        times = path.stat()
        rewritten()
        os.utime(path, ns=(times.st_atime_ns, times.st_mtime_ns))

    for change in (rewritten, put_back, lambda: os.truncate(path, 100), lambda: os.truncate(path, 1 << 20)):
        path.write_bytes(BASE.read_bytes())
        told_as_changed(path, change)


def test_a_file_that_is_written_all_the_time(tmp_path: Path) -> None:
    path, ended = tmp_path / "image", threading.Event()
    whole = BASE.read_bytes()
    path.write_bytes(whole)

    def write() -> None:
        while not ended.is_set():
            with path.open("r+b") as file:
                file.write(whole)

    writer = threading.Thread(target=write)
    writer.start()
    try:
        for _ in range(30):
            # Either is right: nothing else may be told, since every state of the file has these bytes.
            try:
                assert Image(path).check().capacity == 2048
            except Changed as changed:
                assert changed.filename == str(path)
    finally:
        ended.set()
        writer.join()


def test_a_file_is_read_when_the_clock_has_gone_on(tmp_path: Path, monkeypatch: pytest.MonkeyPatch) -> None:
    path, slept = tmp_path / "image", list[float]()
    path.write_bytes(BASE.read_bytes())
    written = path.stat().st_ctime_ns
    monkeypatch.setattr(time, "sleep", slept.append)
    monkeypatch.setattr(time, "clock_gettime_ns", lambda _: written + (len(slept) == 3))
    Image(path)
    assert len(slept) == 3
    # A clock that was set back does not keep it from being read.
    monkeypatch.setattr(time, "clock_gettime_ns", lambda _: 0)
    Image(path)
    assert 3 < len(slept) < 50


def test_a_file_may_go_away(tmp_path: Path) -> None:
    path = tmp_path / "image"
    path.write_bytes(BASE.read_bytes())
    image, chain = Image(path), Chain([path, path])
    os.truncate(path, 0)
    path.unlink()
    assert image.check() == chain.layers[1].check()


@pytest.mark.parametrize("kind", ["folder", "pipe", "socket", "device", "missing"])
def test_no_plain_file(tmp_path: Path, kind: str) -> None:
    path = tmp_path / "strange"
    with socket.socket(socket.AF_UNIX) as listening:
        if kind == "folder":
            path.mkdir()
        elif kind == "pipe":
            os.mkfifo(path)
        elif kind == "socket":
            listening.bind(str(path))
        elif kind == "device":
            path = Path("/dev/zero")
        begun = time.monotonic()
        for call in (lambda: Image(path), lambda: Chain([BASE, path]), lambda: Disk(path), lambda: survey([path])):
            with pytest.raises(OSError, match="No such file" if kind == "missing" else "no plain file"):
                call()
        assert time.monotonic() - begun < 5


def test_files_are_closed_again(tmp_path: Path) -> None:
    def opened() -> int:
        return len(os.listdir("/proc/self/fd"))

    before = opened()
    Image(BASE), Chain([BASE, BASE]), survey([BASE])
    with pytest.raises(FileNotFoundError):
        Chain([BASE, tmp_path / "missing"])
    assert opened() == before


def test_holes_cost_nothing(tmp_path: Path) -> None:
    path = tmp_path / "long"
    path.write_bytes(BASE.read_bytes())
    os.truncate(path, 1 << 40)
    image = Image(path)
    assert len(image) == 1 << 40 and image.lookup(2) == Stored(130)
    assert image.header().geometry == Image(BASE).check()


def resident() -> int:
    """Bytes of memory that this process takes."""
    return int(Path("/proc/self/statm").read_text().split()[1]) * os.sysconf("SC_PAGESIZE")


def test_holes_cost_nothing_when_an_image_is_taken_over(tmp_path: Path) -> None:
    path = tmp_path / "long"
    path.write_bytes(BASE.read_bytes())
    os.truncate(path, 1 << 30)
    image = Image(path)
    before = resident()
    chain, mended = Chain([image, path]), image.mend(Side.PRIMARY)
    assert resident() - before < 1 << 26
    assert chain.lookup(2).source == Stored(130) and mended.image.data[-1] == 0
    assert chain.layers[0].data[: 1 << 20] == image.data[: 1 << 20] == mended.image.data[: 1 << 20]


def split(folder: Path, *lines: str) -> Path:
    path = folder / "disk"
    path.write_text(TEXT + "\n".join(lines) + "\n")
    return path


def test_a_disk_of_every_kind(tmp_path: Path) -> None:
    (tmp_path / "image").write_bytes(BASE.read_bytes())
    (tmp_path / "plain").write_bytes(b"z" * 4096)
    lines = ['RW 2048 SPARSE "image"', "RW 8 ZERO", 'RW 4 FLAT "plain" 4', 'RW 9 VMFS "plain"', 'NOACCESS 8 SPARSE "gone"']
    disk = Disk(split(tmp_path, *lines, 'RW 8 VMFSSPARSE "gone"'))
    assert disk.capacity == 2085 and disk.find(2057) == 2
    assert disk.lookup(2) == Placed(0, Stored(130)) and disk.read(2) == Image(BASE).read(2)
    assert disk.lookup(2050) == Placed(1, anhkhovet.Zero()) and disk.read(2050) == b""
    assert disk.lookup(2057) == Placed(2, Stored(5)) and disk.read(2057) == b"z" * 512
    # NOACCESS and VMFSSPARSE are refused by the line alone: the file need not be there.
    for sector, number, extent in ((2060, 45, 3), (2069, 39, 4), (2077, 43, 5), (2085, 20, None)):
        with pytest.raises(Refused) as refused:
            disk.lookup(sector)
        assert (refused.value.number, refused.value.extent) == (number, extent)
    with pytest.raises(Refused) as refused:
        disk.check()
    assert refused.value.extent == 3
    Disk(split(tmp_path, *lines[:3])).check()


def test_files_of_a_disk_are_beside_it(tmp_path: Path) -> None:
    inside = tmp_path / "inside"
    inside.mkdir()
    for folder in (tmp_path, inside):
        (folder / "image").write_bytes(BASE.read_bytes())
    os.symlink("image", inside / "link")
    os.symlink("../image", inside / "out")
    assert Disk(split(inside, 'RW 2048 SPARSE "link"')).lookup(2).source == Stored(130)
    for name, why in (("../image", "folder in its"), ("a\\b", "folder in its"), ("..", "folder in its"), ("out", "leads out")):
        with pytest.raises(OSError, match=why):
            Disk(split(inside, f'RW 2048 SPARSE "{name}"')).lookup(2)
    with pytest.raises(FileNotFoundError):
        Disk(split(inside, 'RW 2048 SPARSE "missing"')).lookup(2)


def test_only_the_sector_s_own_file_is_read(tmp_path: Path) -> None:
    (tmp_path / "image").write_bytes(BASE.read_bytes())
    disk = Disk(split(tmp_path, 'RW 2048 SPARSE "image"', 'RW 8 FLAT "missing" 0'))
    assert disk.lookup(2).source == Stored(130)
    with pytest.raises(FileNotFoundError):
        disk.lookup(2048)


def test_what_is_written_meanwhile_is_told(tmp_path: Path, monkeypatch: pytest.MonkeyPatch) -> None:
    path, read = tmp_path / "image", os.preadv
    path.write_bytes(BASE.read_bytes())

    def meanwhile(file: int, to: list[memoryview], at: int) -> int:
        said = read(file, to, at)
        with path.open("r+b") as other:
            other.write(b"K")
        return said

    monkeypatch.setattr(os, "preadv", meanwhile)
    for call in (lambda: Image(path), lambda: Chain([path]), lambda: survey([path]), lambda: Disk(path)):
        with pytest.raises(Changed):
            call()
