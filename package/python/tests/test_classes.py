"""What the classes answer for the stored cases, against the library's own numbers, which test_vectors holds to the lines."""
import ctypes
from collections.abc import Callable
from pathlib import Path
from typing import TypeVar

import pytest
from cases import RECORDS, STORED, Case, cases, fields, filled, listed, pair

import anhkhovet
from anhkhovet import Absent, Chain, Disk, Image, Packed, Refused, Side, Source, Stored, Zero
from anhkhovet import _calls as calls
from anhkhovet import _face as face
from anhkhovet._lent import of_bytes, own

Answer = TypeVar("Answer")


def agree(told: ctypes.Structure, call: Callable[[], Answer], numbers: Callable[[Answer], list[int]]) -> Refused | None:
    """Holds a call to what the library told: all its numbers, or number and place of the refusal, which is handed back."""
    try:
        answer = call()
    except Refused as refused:
        assert (refused.number, refused.place) == (getattr(told, "number"), getattr(told, "place"))
        return refused
    assert numbers(answer) == fields(told)
    return None


def source(said: Source) -> list[int]:
    """Kind, sector, size, offset."""
    if isinstance(said, Packed):
        return [3, said.sector, said.size, said.offset]
    if isinstance(said, Stored):
        return [2, said.sector, 0, 0]
    return [{Absent: 0, Zero: 1}[type(said)], 0, 0, 0]


def geometry(said: anhkhovet.Geometry) -> list[int]:
    return [0, 0, said.capacity, said.grain_size]


def written(told: face.Written, call: Callable[[], Image], out: memoryview) -> None:
    """Holds an image that was written to the library's, where that had enough room."""
    if told.number == 21:
        assert len(call()) > len(out)
    else:
        agree(told, call, lambda image: [0, 0, len(image)] if image.data == out[: told.length] else [])


def image(case: Case) -> None:
    given, lent, out = Image(case.data), case.image, own(case.room)
    agree(calls.check(lent), given.check, geometry)
    header = calls.header(lent)
    agree(header, given.header, lambda h: [*geometry(h.geometry), h.descriptor, h.descriptor_sectors, h.dirty])
    written(calls.normal(lent, out), given.normal, out.view)
    looks(case)
    steps(case)


def looks(case: Case) -> None:
    given = Image(case.data)
    for sector in case.sectors:
        told, part = calls.lookup(case.image, sector), calls.read(case.image, sector)
        agree(told, lambda: given.lookup(sector), lambda said: [0, 0, 0, *source(said)])
        assert given.read(sector) == case.data[part.at : part.at + part.length]
        assert given.read_part(sector) == anhkhovet.Part(part.at, part.length)


def way(said: anhkhovet.Way) -> list[int]:
    entries = (said.directory or anhkhovet.Step(0, 0), said.table or anhkhovet.Step(0, 0))
    return [int(said.one_is_zero), said.grain, *(number for step in entries for number in (step.at, step.entry))]


def steps(case: Case) -> None:
    given = Image(case.data)
    for sector in case.sectors:
        told = calls.steps(case.image, sector)
        refused = agree(told, lambda: given.steps(sector), lambda said: [0, 0, *way(said.way), *source(said.source)])
        if refused is not None:
            assert (refused.way is not None) == (told.number in (8, 9, 10))
            assert refused.way is None or way(refused.way) == fields(told)[2:8]


def chain(case: Case) -> None:
    if sum(case.lengths) != len(case.data):
        return
    ends = [sum(case.lengths[:number]) for number in range(len(case.lengths) + 1)]
    given = Chain([case.data[at:end] for at, end in zip(ends, ends[1:])])
    for sector in case.sectors:
        told = calls.chain(case.image, listed(case.lengths), sector)
        refused = agree(told, lambda: given.lookup(sector), lambda said: [0, said.layer, 0, *source(said.source)])
        if refused is not None:
            assert (refused.layer or 0) == told.layer
            assert (refused.layer is None) == (told.number in (20, 22, 24))
        elif told.kind > 1:
            assert given.read(sector) == given.layers[told.layer].read(sector) != b""


def collapse(case: Case) -> None:
    layers = case.layers()
    if len(layers) < 2:
        return
    below, top, out = layers[0], layers[-1], own(case.room)
    for layer in layers[1:-1]:
        below = pair(below, layer)
    told = calls.collapse(of_bytes(below), of_bytes(top), out)
    written(told, lambda: anhkhovet.collapse(Image(below), Image(top)), out.view)
    if told.number == 0:
        assert Chain(layers).collapse().data == out.view[: told.length]


def text(case: Case) -> None:
    records = (face.Extent * RECORDS)()
    told = calls.descriptor(case.image, records)
    cut = case.data[told.type_at : told.type_at + told.type_length].decode("utf-8", "surrogateescape")

    def numbers(said: anhkhovet.Descriptor) -> list[int]:
        assert said.create_type == cut
        return [0, 0, len(said.extents), said.version, said.cid, said.parent_cid, told.type_at, told.type_length]

    if agree(told, lambda: anhkhovet.descriptor(case.data), numbers) is None:
        extents = anhkhovet.descriptor(case.data).extents
        for extent, record in zip(extents, records):
            name = case.data[record.name_at : record.name_at + record.name_length]
            assert extent.name.encode("utf-8", "surrogateescape") == name
            kinds = [extent.access.value, extent.kind.value]
            assert [extent.first, extent.sectors, *kinds, extent.name_at, len(name), extent.offset] == fields(record)
        for sector in case.sectors:
            agree(calls.find(records, sector), lambda: anhkhovet.find(extents, sector), lambda number: [0, 0, number])


def frame(case: Case) -> None:
    list_ = filled(3000)
    told = calls.frame(case.image, list_)
    refused = agree(told, Image(case.data).frame, lambda areas: [0, 0, len(areas)])
    if refused is None:
        areas = Image(case.data).frame()
        assert [number for area in areas for number in (area.group, area.first, area.sectors)] == list_[: 3 * told.count]


def survey(case: Case) -> None:
    if sum(case.lengths) != len(case.data):
        return
    rows, tally = filled(6 * len(case.lengths)), filled(63)
    told = calls.survey(case.image, listed(case.lengths), rows, tally)
    ends = [sum(case.lengths[:number]) for number in range(len(case.lengths) + 1)]
    images = [case.data[at:end] for at, end in zip(ends, ends[1:])]

    def numbers(said: anhkhovet.Survey) -> list[int]:
        for number, row in enumerate(said.rows):
            refused = [0, 0, 0, 0, row.number, row.place] if isinstance(row, Refused) else []
            counted = [row.stored, row.zero, row.absent, row.packed, 0, 0] if isinstance(row, anhkhovet.Counts) else refused
            assert counted == rows[6 * number : 6 * number + 6]
        assert {each.number: each.images for each in said.tally} == {n: count for n, count in enumerate(tally, 1) if count}
        return [0, 0, said.totals.stored, said.totals.zero, said.totals.absent, said.totals.packed]

    agree(told, lambda: anhkhovet.survey(images), numbers)


def split(case: Case) -> None:
    end, lengths = case.length(0), case.lengths[1:]
    if end + sum(lengths) != len(case.data):
        return
    ends = [end + sum(lengths[:number]) for number in range(len(lengths) + 1)]
    files = [case.data[at:stop] for at, stop in zip(ends, ends[1:])]
    for sector in case.sectors:
        told = calls.split(case.image.part(0, end), case.image.part(end, sum(lengths)), listed(lengths), sector)
        call: Callable[[], anhkhovet.Placed] = lambda: Disk(case.data[:end], files).lookup(sector)
        refused = agree(told, call, lambda said: [0, said.extent, 0, *source(said.source)])
        if refused is not None:
            assert (refused.extent or 0) == told.layer
        elif told.kind == 2:
            own_file = files[told.layer]
            assert Disk(case.data[:end], files).read(sector) == own_file[512 * told.sector : 512 * told.sector + 512]


def check_in(case: Case) -> None:
    list_ = filled(case.room)
    told = calls.check_in(case.image, list_)
    refused = agree(told, lambda: Image(case.data).check_in(case.room), lambda said: [*geometry(said.geometry), said.marked])
    assert refused is None or refused.marked == told.marked


def mend(case: Case) -> None:
    good = Side.REDUNDANT if case.length(0) else Side.PRIMARY
    copy, list_, data = own(min(len(case.data), case.room)), filled(3000), bytearray(case.data[: case.room])
    copy.view[:] = data
    told = calls.mend(copy, good.value, list_)
    refused = agree(told, lambda: Image(data).mend(good).changes, lambda changes: [0, 0, len(changes)])
    if refused is None:
        changes = anhkhovet.mend_in(data, good)
        assert [number for each in changes for number in (each.grain, each.old, each.new)] == list_[: 3 * told.count]
        assert data == copy.view == Image(case.data[: case.room]).mend(good).image.data


def moves(case: Case) -> None:
    out = own(case.room)
    written(calls.to_kdmv(case.image, out), Image(case.data).to_kdmv, out.view)
    written(calls.to_cowd(case.image, out), Image(case.data).to_cowd, out.view)


def profile(case: Case) -> None:
    agree(calls.profile(case.image), Image(case.data).profile, geometry)


def close(case: Case) -> None:
    out = own(65536)
    told = calls.close(case.image, out)
    agree(told, Image(case.data).close_stream, lambda said: [0, 0, said.sectors, said.grains, said.tail])
    if told.number == 0:
        kept = case.data[: 512 * told.sectors]
        assert Image(case.data).close_stream().image.data == kept + out.view[: told.length]


KINDS = {
    0: image, 1: chain, 2: collapse, 3: text, 4: lambda case: None, 5: looks, 6: frame, 7: survey, 8: split, 9: check_in,
    10: mend, 11: moves, 12: profile, 13: close, 14: steps,
}


@pytest.mark.parametrize("stored", [stored for stored, _ in STORED], ids=lambda path: path.name)
def test_classes_agree(stored: Path) -> None:
    for case in cases(stored):
        KINDS[case.asked](case)
