"""Wrong use is told as Python tells it, and never reaches the library."""
import mmap
import pickle
import threading
from array import array
from pathlib import Path
from typing import Any

import pytest
from sources import SAMPLES

import anhkhovet
from anhkhovet import Chain, Disk, Image, Refused, Side, collapse, descriptor, find, mend_in, survey

BASE = SAMPLES / "tool-base.vmdk"


@pytest.mark.parametrize("given", [3, None, 1.5, ["a"], object(), array("B", [1])])
def test_no_image(given: Any) -> None:
    for make in (Image, Disk, lambda each: Chain([each])):
        with pytest.raises(TypeError):
            make(given)


def test_no_list_of_images() -> None:
    for given in (str(BASE), BASE.read_bytes(), bytearray(3)):
        with pytest.raises(TypeError):
            Chain(given)
        with pytest.raises(TypeError):
            survey(given)


@pytest.mark.parametrize("sector", [-1, 1 << 64, -(1 << 70)])
def test_no_number_of_the_library(sector: int) -> None:
    image = Image(BASE)
    calls = (image.lookup, image.steps, image.read, image.check_in, Chain([BASE]).lookup, Disk(DESCRIPTOR, [BASE]).lookup)
    for call in calls:
        with pytest.raises(ValueError, match="no number from 0"):
            call(sector)


@pytest.mark.parametrize("sector", ["2", 2.0, None, b"2"])
def test_no_number_at_all(sector: Any) -> None:
    for call in (Image(BASE).lookup, Chain([BASE]).lookup, Disk(DESCRIPTOR, [BASE]).lookup):
        with pytest.raises(TypeError):
            call(sector)


def test_the_greatest_sector_is_refused() -> None:
    with pytest.raises(Refused) as refused:
        Image(BASE).lookup((1 << 64) - 1)
    assert refused.value.number == 20


def test_closed() -> None:
    image = Image(BASE)
    with image:
        view = image.data
        assert image.check().capacity == 2048
    assert image.closed and view[:4] == b"KDMV"
    for call in (image.check, image.header, image.normal, image.frame, image.check_in, image.close_stream, image.__bytes__):
        with pytest.raises(ValueError, match="closed"):
            call()
    given = (lambda: image.lookup(0), lambda: len(image), lambda: image.data, lambda: Chain([image]), lambda: survey([image]))
    for take in given:
        with pytest.raises(ValueError, match="closed"):
            take()
    with pytest.raises(ValueError, match="closed"):
        collapse(Image(BASE), image)
    with pytest.raises(ValueError, match="closed"):
        image.__enter__()
    image.close()


def test_closed_chain_and_disk() -> None:
    chain, disk = Chain([BASE]), Disk(DESCRIPTOR, [BASE])
    with chain, disk:
        assert chain.lookup(2).source == disk.lookup(2).source
    for call in (lambda: chain.lookup(2), lambda: disk.lookup(2), lambda: chain.layers[0].check(), lambda: disk.read(2)):
        with pytest.raises(ValueError, match="closed"):
            call()


def test_read_only_buffers_are_not_mended() -> None:
    data = BASE.read_bytes()
    for given in (data, memoryview(data), memoryview(bytearray(data)).toreadonly()):
        with pytest.raises(TypeError, match="read-only"):
            mend_in(given, Side.PRIMARY)
    with BASE.open("rb") as file, mmap.mmap(file.fileno(), 0, access=mmap.ACCESS_READ) as mapped:
        with pytest.raises(TypeError, match="read-only"):
            mend_in(mapped, Side.PRIMARY)


def test_no_side() -> None:
    wrong: Any = 1
    with pytest.raises(TypeError, match="Side"):
        mend_in(bytearray(BASE.read_bytes()), wrong)
    with pytest.raises(TypeError, match="Side"):
        Image(BASE).mend(wrong)


def test_mending_writes_what_may_be_written(tmp_path: Path) -> None:
    torn = bytearray(BASE.read_bytes())
    table = Image(torn).steps(0).way.table
    assert table is not None
    torn[table.at] ^= 255
    (tmp_path / "torn").write_bytes(torn)
    with (tmp_path / "torn").open("r+b") as file, mmap.mmap(file.fileno(), 0) as mapped:
        assert len(mend_in(mapped, Side.REDUNDANT)) == 1
    assert (tmp_path / "torn").read_bytes() == BASE.read_bytes()
    before = bytes(torn[:100])
    with pytest.raises(Refused) as refused:
        mend_in(memoryview(torn)[:100], Side.REDUNDANT)
    assert refused.value.number == 1 and torn[:100] == before


def test_every_kind_of_buffer() -> None:
    data = BASE.read_bytes()
    with BASE.open("rb") as file, mmap.mmap(file.fileno(), 0, access=mmap.ACCESS_READ) as mapped:
        views = [memoryview(data), memoryview(array("Q", data)), memoryview(data * 2)[: len(data)]]
        buffers = [data, bytearray(data), *views, mapped]
        assert {Image(each).check() for each in buffers} == {Image(BASE).check()}
    assert Image(memoryview(data)[::-1]).data == data[::-1]


def test_a_buffer_that_changes_later_does_not_matter() -> None:
    data = bytearray(BASE.read_bytes())
    image = Image(data)
    data[:] = bytes(len(data))
    assert image.check().capacity == 2048


def test_nothing_may_be_written_through_an_image() -> None:
    with pytest.raises(TypeError):
        Image(BASE).data[0] = 1


def test_empty() -> None:
    empty = Image(b"")
    for call in (empty.check, empty.normal, lambda: empty.mend(Side.PRIMARY), lambda: mend_in(bytearray(), Side.PRIMARY)):
        with pytest.raises(Refused) as refused:
            call()
        assert refused.value.number == 1
    none, many = Chain([]), Chain([BASE] * 17)
    for refuse in (lambda: none.lookup(0), none.collapse, lambda: survey([]), lambda: many.lookup(0)):
        with pytest.raises(Refused) as refused:
            refuse()
        assert refused.value.number == 24
    with pytest.raises(Refused) as refused:
        find([], 0)
    assert refused.value.number == 20


def test_texts() -> None:
    wrong: Any = "# Disk DescriptorFile"
    with pytest.raises(TypeError, match="bytes"):
        descriptor(wrong)
    with pytest.raises(TypeError, match="where its files are"):
        Disk(DESCRIPTOR)
    with pytest.raises(Refused) as refused:
        Disk(b"nothing", [])
    assert (refused.value.number, refused.value.extent) == (30, None)


def test_a_refusal_says_what_it_is() -> None:
    line = Refused(33, 4)
    assert str(line) == "refused 33 at line 4: this line's key is there twice or has a value of the wrong form"
    assert str(Refused(9, 3, layer=2)) == "layer 2: refused 9 at grain 3: the grain runs past the end of the file"
    assert str(Refused(39, extent=1)) == "extent 1: refused 39: the extent is NOACCESS"
    assert Refused(8, 4).part is anhkhovet.MisplacedPart.PRIMARY_TABLE and Refused(8).part is None
    assert str(Refused(8, 4)) == "refused 8: a primary table does not lie inside the file"
    assert str(Refused(12, marked=7)).endswith(" (7 sectors were marked before)")
    assert str(Refused(63)) == "refused 63: a rule of the format is broken"
    assert Refused(9, 3) == Refused(9, 3) != Refused(9, 4) and len({Refused(9, 3), Refused(9, 3)}) == 1
    told = Refused(9, 3, layer=2)
    assert pickle.loads(pickle.dumps(told)) == told and pickle.loads(pickle.dumps(told)).layer == 2


def test_many_threads_at_once() -> None:
    image, answers = Image(BASE), []
    work = [threading.Thread(target=lambda: answers.extend(image.check().capacity for _ in range(20))) for _ in range(8)]
    for thread in work:
        thread.start()
    for thread in work:
        thread.join()
    assert answers == [2048] * 160


DESCRIPTOR = b'# Disk DescriptorFile\nversion=1\nCID=1\nparentCID=ffffffff\ncreateType="x"\nRW 2048 SPARSE "tool-base.vmdk"\n'
