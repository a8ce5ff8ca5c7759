"""The room that the C header says is enough, on every stored image and every sample."""
import re
from collections.abc import Callable, Iterator
from typing import cast

from cases import STORED, cases
from sources import ROOT, SAMPLES

from anhkhovet import _calls as calls
from anhkhovet._lent import Memory, of_bytes, own, words

HEADER = (ROOT / "package/include/anhkhovet.h").read_text()
# Disks whose tables alone would fill memory are left out.
LARGEST = 1 << 26


def enough(name: str) -> Callable[..., int]:
    """A macro of the header, whose division is that of whole numbers."""
    found = re.search(rf"(?m)^#define ANHKHOVET_{name}\(([\w, ]+)\) (.*)$", HEADER)
    assert found is not None
    return cast(Callable[..., int], eval(f"lambda {found[1]}: {found[2].replace('/', '//')}"))


def images() -> Iterator[tuple[Memory, int]]:
    """Each with its capacity: of COWD that is the four bytes from 12 on."""
    stored = (case.data for path, _ in STORED for case in cases(path))
    samples = (path.read_bytes() for path in sorted(SAMPLES.glob("*.vmdk")))
    for data in {*stored, *samples}:
        said = calls.header(of_bytes(data))
        if said.number in (0, 43):
            yield of_bytes(data), said.capacity or int.from_bytes(data[12:16], "little")


def test_enough_for_what_is_written() -> None:
    room, answered = enough("OUT_BYTES"), {"normal": 0, "to_kdmv": 0, "to_cowd": 0, "collapse": 0}
    for image, capacity in images():
        for call in answered:
            lent = (image, image) if call == "collapse" else (image,)
            size = room(len(lent) * image.length, capacity)
            if size < LARGEST:
                said = getattr(calls, call)(*lent, own(size))
                assert said.number != 21
                answered[call] += said.number == 0
    assert min(answered.values()) > 20, answered


def test_enough_for_the_frame() -> None:
    room, answered = enough("FRAME_WORDS"), 0
    for image, capacity in images():
        said = calls.frame(image, words(room(capacity)))
        assert said.number != 21
        answered += said.number == 0
    assert answered > 300


def test_enough_for_the_tail() -> None:
    assert "5 * image_length + 2 MiB are enough" in HEADER
    answered = 0
    for path, _ in STORED:
        for data in {case.data for case in cases(path)}:
            said = calls.close(of_bytes(data), own(5 * len(data) + (2 << 20)))
            assert said.number != 21
            answered += said.number == 0
    assert answered > 20
