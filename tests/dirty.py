#!/usr/bin/env python3
"""Writes tests/cases/dirty, which the program `cases` is run on, and what it must print. dirty.py [FOLDER] writes it below
another folder than tests.

Each case has a label, an image with a dirty number, or two of them, built byte by byte, and the answers that documents 01 and
02 give: check, header and lookups as of a clean image, the number told, 27 for normal form and collapse. They are written down
by hand, both sides of each edge. Nothing here reads an image.
"""
from asked import COLLAPSE, IMAGE, case, digest, label, line, main, write_cases
from images import ALL_ONES, STREAMED, cowd, entries, image, kdmv, marker, small, stream, streamed

CASES, LINES, LABELS = [], [], []

# Of every image here.
CAPACITY, SIZE = 16, 8


def alone(name, data, dirty, normal, room=0, lookups=()):
    """One image that is accepted: the dirty number that its header tells, the normal form's number, and sectors with their
    kind and file sector, and what is read there."""
    label(LABELS, name)
    CASES.append(case(IMAGE, data, sectors=[sector for sector, _, _, _ in lookups], room=room))
    LINES.extend([line("check", 0, 0, CAPACITY, SIZE), line("header", 0, 0, CAPACITY, SIZE, 0, 0, dirty),
                  line("normal", normal, 0, 0, digest(b"\xaa" * room))])
    for _, kind, sector, bytes_there in lookups:
        LINES.extend([line("lookup", 0, 0, 0, kind, sector, 0, 0), line("read", len(bytes_there), digest(bytes_there))])


def refused(name, data, number, head):
    """One image that is refused, with what its header tells."""
    label(LABELS, name)
    CASES.append(case(IMAGE, data))
    LINES.extend([line("check", number, 0, 0, 0), line("header", *head), line("normal", number, 0, 0, digest(b""))])


def both(name, lower, upper, number, room=0):
    """Two layers whose collapse is refused."""
    label(LABELS, name)
    CASES.append(case(COLLAPSE, lower + upper, lengths=[len(lower), len(upper)], room=room))
    LINES.append(line("collapse", number, 0, 0, digest(b"\xaa" * room)))


def half(dirty=0, **fields):
    """Two grains: the first stored at sector 8, the second absent."""
    return small(8, 0, head=kdmv(dirty=dirty, **fields))


def old(dirty=0, **fields):
    """As COWD: the first grain at sector 37."""
    return image(45, (0, cowd(dirty=dirty, **fields)), (4, entries(5)), (5, entries(37, 0)))


ZEROS = bytes(512)

# ---- KDMV: byte 72, any number but 0; lookups are the clean image's
for number in (0, 1, 2, 128, 255):
    alone(f"kdmv-{number}", half(number), number, 27 if number else 21,
          lookups=[(0, 2, 8, ZEROS), (7, 2, 15, ZEROS), (8, 0, 0, b""), (15, 0, 0, b"")])
# the bytes beside it do not count: overhead's last one, and the first of the newline bytes, which flag 0x1 asks for
alone("overhead-beside", half(overhead=ALL_ONES), 0, 21)
alone("newline-beside", half(flags=0, newline=b"\xff \r\n"), 0, 21)

# COWD's place is none of KDMV's
alone("cowd-place-in-kdmv", image(16, (0, kdmv()), (1, entries(2)), (2, entries(8, 0)), (3, b"\xff" * 512)), 0, 21)

# ---- COWD is 43, after 1 and before 3, and its header tells no number (A13): tests/moves.py has where it stands
for name, data, number in (("0", old(), 43), ("1", old(1), 43), ("all-ones", old(2**32 - 1), 43), ("2047", old(1)[:2047], 1),
                           ("2048", old(1)[:2048], 43), ("version-2", old(1, version=2), 43)):
    refused(f"cowd-{name}", data, number, (number, 0, 0, 0, 0, 0, 0))

# ---- packed: 23 comes first, with a footer and without
OPEN_PACKED = image(7, (0, kdmv(flags=0x10001, compression=1, dirty=1)), (1, entries(2)), (2, entries(6)), (6, marker(0, 5)))
alone("packed", OPEN_PACKED, 1, 23)
for number in (0, 1, 255):
    alone(f"footer-{number}", streamed(dirty=number), number, 23)

# ---- the normal form: 27 before 21
alone("open-with-room", half(1), 1, 27, room=16 * 512)
# a header that is refused tells nothing; an image that is refused has its own number first
refused("open-and-version", half(1, version=4), 3, (3, 0, 0, 0, 0, 0, 0))
refused("open-and-shared", small(8, 8, head=kdmv(dirty=1)), 12, (0, 0, CAPACITY, SIZE, 0, 0, 1))
# the footer's byte is not the header's
refused("one-byte-of-two", stream(kdmv(directory=1, **STREAMED), head=kdmv(directory=ALL_ONES, dirty=1, **STREAMED)), 7,
        (7, 0, 0, 0, 0, 0, 0))

# ---- collapse: either one, before 21
both("lower-open", half(1), half(0), 27, room=16 * 512)
both("upper-open", half(0), half(2), 27, room=16 * 512)
both("both-open", half(1), half(255), 27)
both("lower-open-without-room", half(1), half(0), 27)
both("upper-open-without-room", half(0), half(1), 27)
both("neither-open", half(0), half(0), 21)
# after the checks, 23 and 22
both("open-and-refused", half(1), small(8, 8), 12)
both("refused-and-open", small(8, 8, head=kdmv(dirty=1)), half(1), 12)
both("open-below-cowd", half(1), old(1), 43)
both("cowd-below-open", old(0), half(1), 43)
both("open-below-packed", half(1), streamed(), 23)
both("open-packed", OPEN_PACKED, half(1), 23)
both("lower-open-capacities-differ", half(1), small(8, 0, head=kdmv(15)), 22)
both("upper-open-capacities-differ", half(0), small(8, 0, head=kdmv(15, dirty=1)), 22)
both("open-capacities-differ", half(1), small(8, 0, head=kdmv(15, dirty=1)), 22)
both("open-sizes-differ", half(1), image(24, (0, kdmv(16, 16, dirty=1)), (1, entries(2)), (2, entries(8))), 22)


def write(folder):
    write_cases(folder, "dirty", CASES, LINES)


if __name__ == "__main__":
    main(write)
