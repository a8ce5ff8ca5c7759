"""Faults that a fresh reader found in the module, so that they do not come back."""
import errno
import mmap
import os
import resource
import shutil
from pathlib import Path
from typing import Any

import pytest
from sources import SAMPLES

from anhkhovet import Chain, Disk, Image, Packed, Refused, Side, Stored, mend_in, survey, words_needed
from anhkhovet import _calls as calls
from anhkhovet import _files as files

BASE = SAMPLES / "tool-base.vmdk"
TEXT = '# Disk DescriptorFile\nversion=1\nCID=1\nparentCID=ffffffff\ncreateType="custom"\n'


def test_a_disk_that_another_thread_closes(monkeypatch: pytest.MonkeyPatch) -> None:
    disk, split = Disk((TEXT + 'RW 2048 SPARSE "a"\n').encode(), [BASE]), calls.split

    def closed_meanwhile(*asked: Any) -> Any:
        disk.close()
        return split(*asked)

    monkeypatch.setattr(calls, "split", closed_meanwhile)
    assert disk.read(2) == Image(BASE).read(2)
    with pytest.raises(ValueError):
        disk.read(2)


def test_a_disk_stays_where_it_was_made(tmp_path: Path, monkeypatch: pytest.MonkeyPatch) -> None:
    for folder, sample in (("one", "tool-base"), ("other", "tool-top")):
        (tmp_path / folder).mkdir()
        shutil.copy(SAMPLES / f"{sample}.vmdk", tmp_path / folder / "image")
    (tmp_path / "one/disk").write_text(TEXT + 'RW 2048 SPARSE "image"\n')
    monkeypatch.chdir(tmp_path / "one")
    disk = Disk("disk")
    monkeypatch.chdir(tmp_path / "other")
    assert disk.lookup(2).source == Stored(130)


def test_a_link_that_takes_a_file_s_place_is_not_followed(tmp_path: Path, monkeypatch: pytest.MonkeyPatch) -> None:
    (tmp_path / "disks").mkdir()
    image = tmp_path / "disks/image"
    shutil.copy(SAMPLES / "tool-top.vmdk", tmp_path / "secret")
    shutil.copy(BASE, image)
    (tmp_path / "disks/disk").write_text(TEXT + 'RW 2048 SPARSE "image"\n')
    disk, found = Disk(tmp_path / "disks/disk"), os.path.realpath

    def replaced_meanwhile(path: Any, **words: Any) -> Any:
        said = found(path, **words)
        image.unlink()
        image.symlink_to(tmp_path / "secret")
        return said

    monkeypatch.setattr(os.path, "realpath", replaced_meanwhile)
    with pytest.raises(OSError, match="is no plain file"):
        disk.lookup(2)


def test_packed_sectors_of_a_later_extent() -> None:
    packed = SAMPLES / "tool-packed.vmdk"
    disk = Disk((TEXT + 'RW 2048 SPARSE "a"\nRW 2048 SPARSE "b"\n').encode(), [BASE, packed])
    assert isinstance(disk.lookup(2048 + 130).source, Packed)
    assert disk.read(2048 + 130) == Image(packed).read(130) != b""


def test_a_refusal_lets_go_of_a_mapping(tmp_path: Path) -> None:
    path = tmp_path / "image"
    path.write_bytes(b"no image")
    with path.open("r+b") as file, pytest.raises(Refused), mmap.mmap(file.fileno(), 0) as mapped:
        mend_in(mapped, Side.PRIMARY)


def test_a_survey_takes_more_files_than_may_be_open() -> None:
    before = resource.getrlimit(resource.RLIMIT_NOFILE)
    resource.setrlimit(resource.RLIMIT_NOFILE, (64, before[1]))
    try:
        assert survey([BASE] * 200).totals.stored == 400
        assert Chain([BASE] * 16).lookup(2).layer == 15
    finally:
        resource.setrlimit(resource.RLIMIT_NOFILE, before)


def test_a_file_that_is_too_long(monkeypatch: pytest.MonkeyPatch) -> None:
    def none_left(length: int) -> Any:
        raise MemoryError

    monkeypatch.setattr(files, "own", none_left)
    for call in (lambda: Image(BASE), lambda: Chain([BASE]), lambda: survey([BASE, b""])):
        with pytest.raises(OSError, match="is too long to be read into memory") as told:
            call()
        assert told.value.errno == errno.ENOMEM and str(BASE) in str(told.value)
    with pytest.raises(MemoryError):
        Chain([b"", b""])


def test_words_needed_are_enough_and_no_more() -> None:
    assert [words_needed(512 * sectors) for sectors in (0, 1, 64, 65, 128, 129)] == [0, 1, 1, 2, 2, 3]
    assert words_needed(512 * 65 - 1) == 1


def test_a_list_of_letters_is_no_list_of_files() -> None:
    with pytest.raises(TypeError):
        Disk((TEXT + 'RW 2048 SPARSE "a"\n').encode(), str(BASE))  # type: ignore[arg-type]
