"""The samples: what qemu-img said of them when they were stored, and what the library says by this module."""
import hashlib
import json
import zlib
from pathlib import Path

import pytest
from sources import ROOT, SAMPLES

from anhkhovet import Absent, Chain, Disk, Image, Packed, Placed, Refused, Stored, Zero, mend_in, Side

SECTOR, CHUNK = 512, 65536
# The layers of each sample, base first.
CHAINS = {
    "chain-middle": ["chain-base", "chain-middle"],
    "chain-top": ["chain-base", "chain-middle", "chain-top"],
    "tool-middle": ["tool-base", "tool-middle"],
    "tool-top": ["tool-base", "tool-middle", "tool-top"],
    "delta": ["monolithic-sparse", "delta"],
}
DISKS = {"two-gb-sparse", "two-gb-sparse-data"}
MAPPED = sorted(path.name.split(".")[0] for path in SAMPLES.glob("*.vmdk.map"))
WHOLE = 4096


def opened(name: str) -> Chain | Disk:
    if name in DISKS:
        return Disk(SAMPLES / f"{name}.vmdk")
    if name == "cowd":
        return Chain([Image(SAMPLES / "cowd-s001.vmdk").to_kdmv()])
    return Chain([SAMPLES / f"{layer}.vmdk" for layer in CHAINS.get(name, [name])])


def sector_bytes(disk: Chain | Disk, sector: int) -> bytes:
    """The 512 bytes of a sector; here, and not in the module, packed grains are unpacked."""
    said, data = disk.lookup(sector).source, disk.read(sector)
    if isinstance(said, Packed):
        return zlib.decompress(data)[SECTOR * said.offset :][:SECTOR]
    assert len(data) == (SECTOR if isinstance(said, Stored) else 0)
    return data or bytes(SECTOR)


@pytest.mark.parametrize("name", MAPPED)
def test_bytes_of_qemu_img(name: str) -> None:
    disk = opened(name)
    length, *lines = (SAMPLES / f"{name}.vmdk.raw.sha256").read_text().splitlines()
    for line in lines:
        at, size, digest = line.split()
        first = int(at) // SECTOR
        read = b"".join(sector_bytes(disk, sector) for sector in range(first, first + int(size) // SECTOR))
        assert hashlib.sha256(read).hexdigest() == digest, line
    sectors = int(length) // SECTOR
    told = {int(line.split()[0]) // CHUNK for line in lines}
    for sector in range(0, sectors, 1 if sectors <= WHOLE else sectors // 50):
        if sector * SECTOR // CHUNK not in told:
            assert not any(sector_bytes(disk, sector))
    with pytest.raises(Refused) as refused:
        disk.lookup(sectors)
    assert refused.value.number == 20


@pytest.mark.parametrize("name", [name for name in MAPPED if name != "cowd"])
def test_map_of_qemu_img(name: str) -> None:
    disk = opened(name)
    for run in json.loads((SAMPLES / f"{name}.vmdk.map").read_text()):
        first = run["start"] // SECTOR
        for sector in {first, first + run["length"] // SECTOR - 1}:
            located = disk.lookup(sector)
            source = located.source
            if not run["present"]:
                assert source == Absent()
                continue
            if "offset" in run:
                assert source == Stored(run["offset"] // SECTOR + sector - first)
            else:
                assert isinstance(source, Packed if run["data"] else Zero)
            if not isinstance(located, Placed) and isinstance(disk, Chain):
                assert located.layer == len(disk) - 1 - run["depth"]


@pytest.mark.parametrize("path", sorted(ROOT.glob("tests/checks/*.line")), ids=lambda path: path.stem)
def test_checks(path: Path) -> None:
    """What vmdk_check must say; 37 is its own number, of an input that is too long for it."""
    word, *numbers = path.read_text().split()
    image = Image(path.with_suffix(""))
    if word == "accepted":
        geometry = image.check()
        assert [geometry.capacity, geometry.grain_size] == [int(number) for number in numbers]
    elif numbers[0] != "37":
        with pytest.raises(Refused) as refused:
            image.check()
        assert [refused.value.number, refused.value.place] == [int(number) for number in numbers]


def test_steps_name_entries_of_the_file() -> None:
    image = Image(SAMPLES / "tool-base.vmdk")
    steps = image.steps(2)
    assert steps.source == image.lookup(2) == Stored(130)
    for step in (steps.way.directory, steps.way.table):
        assert step is not None
        assert int.from_bytes(image.data[step.at : step.at + 4], "little") == step.entry
    assert steps.way.grain == 0 and not steps.way.one_is_zero


def test_a_download_that_broke_off() -> None:
    whole = Image(SAMPLES / "vmdkstream.vmdk")
    part = Image(bytes(whole)[:70000])
    with pytest.raises(Refused):
        part.check()
    closed = part.close_stream()
    assert closed.image.check() == whole.check()
    assert closed.image.data[: 512 * closed.sectors] == whole.data[: 512 * closed.sectors]
    assert len(closed.image) == 512 * closed.sectors + closed.tail


def test_which_layer_of_a_chain_is_at_fault() -> None:
    base, middle = SAMPLES / "tool-base.vmdk", (SAMPLES / "tool-middle.vmdk").read_bytes()
    for layers, number, layer in (
        ([base, middle[:70000], base], 9, 1),
        ([middle[:70000], base], 9, 0),
        ([base, base, SAMPLES / "tool-packed.vmdk"], 23, 2),
        ([SAMPLES / "cowd-s001.vmdk"], 43, 0),
        ([base, SAMPLES / "chain-base.vmdk"], 22, None),
    ):
        with pytest.raises(Refused) as refused:
            Chain(layers).collapse()
        assert (refused.value.number, refused.value.layer) == (number, layer)
        if number != 23:
            with pytest.raises(Refused) as refused:
                Chain(layers).check()
            assert (refused.value.number, refused.value.layer) == (number, layer)
    assert Chain([base, middle]).check() == Image(base).check()
    for layers in ([], [base] * 17):
        with pytest.raises(Refused) as refused:
            Chain(layers).check()
        assert (refused.value.number, refused.value.layer) == (24, None)


def test_a_torn_table() -> None:
    sound = (SAMPLES / "tool-base.vmdk").read_bytes()
    table = Image(sound).steps(0).way.table
    assert table is not None
    torn = bytearray(sound)
    torn[table.at : table.at + 4] = bytes(4)
    with pytest.raises(Refused) as refused:
        Image(torn).check()
    assert refused.value.number == 11
    mended = Image(torn).mend(Side.REDUNDANT)
    assert bytes(mended.image) == sound and mended.image.check()
    assert [(change.grain, change.old, change.new) for change in mended.changes] == [(0, 0, table.entry)]
    assert mend_in(torn, Side.REDUNDANT) == mended.changes and torn == sound


def test_texts_inside_images() -> None:
    assert Image(SAMPLES / "tool-base.vmdk").text() is not None
    assert Image(SAMPLES / "tool-base.vmdk").normal().text() is None
