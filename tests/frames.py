#!/usr/bin/env python3
"""Writes tests/cases/frames, which the program `cases` is run on, and what it must print. frames.py [FOLDER] writes it below
another folder than tests.

Each case has a label, an image, built byte by byte, and the areas that document 01, with requests A2, A8 and A13, gives it
beside its grains, or the refusal, written down by hand: both sides of each edge. The list is lent as long as the areas need, or
as `room` says, and all of it is printed. Nothing here reads an image.
"""
from asked import FRAME, case, label, line, main, write_cases
from images import (ALL_ONES, FOOTER, PACKED, SECTOR, STREAM, STREAMED, cowd, entries, image, kdmv, marker, small, stream,
                    zeroed)

# The groups of areas, in the list's order.
HEADER, DESCRIPTOR, DIRECTORY, REDUNDANT, TABLE, COPY, FOOTER_SECTOR, LAST_SECTOR = range(1, 9)
# What each word of the list holds before the call, and the most words that the program lends.
HELD, MOST = 170, 96

CASES, LINES, LABELS = [], [], []


def asked(name, data, room, answer, words=()):
    assert len(words) <= room <= MOST, name
    label(LABELS, name)
    CASES.append(case(FRAME, data, room=room))
    LINES.append(line("frame", *answer, *words, *[HELD] * (room - len(words))))


def framed(name, data, *areas, room=None):
    """An image and its areas: group, first sector, sectors."""
    words = [word for area in areas for word in area]
    asked(name, data, len(words) if room is None else room, (0, 0, len(areas)), words)


def refused(name, data, number, place=0, room=9):
    asked(name, data, room, (number, place, 0))


def empty(head, sectors=6):
    """The header and nothing else."""
    return image(sectors, (0, head))


# ---- which areas there are, and their order
framed("table", small(8, 0), (HEADER, 0, 1), (DIRECTORY, 1, 1), (TABLE, 2, 4))
framed("sample-of-000", image(31, (0, kdmv(8192, 128, 26)), (26, entries(27))),
       (HEADER, 0, 1), (DIRECTORY, 26, 1), (TABLE, 27, 4))
framed("descriptor", empty(kdmv(descriptor=(2, 3))), (HEADER, 0, 1), (DESCRIPTOR, 2, 3), (DIRECTORY, 1, 1))
framed("redundant", image(11, (0, kdmv(redundant=6)), (1, entries(2)), (6, entries(7))),
       (HEADER, 0, 1), (DIRECTORY, 1, 1), (REDUNDANT, 6, 1), (TABLE, 2, 4), (COPY, 7, 4))
# every group; the later an area is in the list, the earlier it stands in the file, by entries too
ORDER = dict(capacity=4 * 4096, descriptor=(20, 2), redundant=18, **STREAMED)
framed("all-groups",
       image(24, (0, kdmv(directory=ALL_ONES, **ORDER)), (19, entries(14, 0, 10, 1, 99)), (18, entries(6, 1, 2, 0, 99)),
             (22, kdmv(directory=19, **ORDER))),
       (HEADER, 0, 1), (DESCRIPTOR, 20, 2), (DIRECTORY, 19, 1), (REDUNDANT, 18, 1), (TABLE, 14, 4), (TABLE, 10, 4),
       (COPY, 6, 4), (COPY, 2, 4), (FOOTER_SECTOR, 22, 1), (LAST_SECTOR, 23, 1))
# entry 0 names no table, nor does 1 in KDMV of version 2 or 3 with flag 0x4; elsewhere 1 is a sector
framed("entry-0", empty(kdmv()), (HEADER, 0, 1), (DIRECTORY, 1, 1))
framed("entry-1", image(6, (0, zeroed()), (1, entries(1))), (HEADER, 0, 1), (DIRECTORY, 1, 1))
framed("entry-2", image(6, (0, kdmv()), (1, entries(2))), (HEADER, 0, 1), (DIRECTORY, 1, 1), (TABLE, 2, 4))
framed("redundant-entry-1", image(6, (0, zeroed(redundant=2)), (2, entries(1))),
       (HEADER, 0, 1), (DIRECTORY, 1, 1), (REDUNDANT, 2, 1))
for version in (1, 2, 3):
    framed(f"entry-1-version-{version}", image(5, (0, kdmv(version=version)), (1, entries(1))),
           (HEADER, 0, 1), (DIRECTORY, 1, 1), (TABLE, 1, 4))
framed("entry-1-zeroed-3", image(2, (0, zeroed(version=3)), (1, entries(1))), (HEADER, 0, 1), (DIRECTORY, 1, 1))
framed("entry-1-flag-4-alone", image(2, (0, zeroed(flags=4)), (1, entries(1))), (HEADER, 0, 1), (DIRECTORY, 1, 1))
framed("entries-1-and-2", image(6, (0, kdmv(redundant=2)), (1, entries(1)), (2, entries(2))),
       (HEADER, 0, 1), (DIRECTORY, 1, 1), (REDUNDANT, 2, 1), (TABLE, 1, 4), (COPY, 2, 4))
# n entries count: 512 grains of 8 sectors have one, one sector more makes two
framed("one-entry", image(9, (0, kdmv(4096)), (1, entries(2, 5))), (HEADER, 0, 1), (DIRECTORY, 1, 1), (TABLE, 2, 4))
framed("two-entries", image(9, (0, kdmv(4097)), (1, entries(2, 5))),
       (HEADER, 0, 1), (DIRECTORY, 1, 1), (TABLE, 2, 4), (TABLE, 5, 4))
# 128 entries fill a sector
framed("128-entries", empty(kdmv(128 * 4096)), (HEADER, 0, 1), (DIRECTORY, 1, 1))
framed("129-entries", empty(kdmv(128 * 4096 + 1)), (HEADER, 0, 1), (DIRECTORY, 1, 2))
framed("129-entries-redundant", empty(kdmv(128 * 4096 + 1, redundant=3)),
       (HEADER, 0, 1), (DIRECTORY, 1, 2), (REDUNDANT, 3, 2))
framed("129th-entry", image(9, (0, kdmv(128 * 4096 + 1)), (2, entries(4, 99))),
       (HEADER, 0, 1), (DIRECTORY, 1, 2), (TABLE, 4, 4))
# the footer's directory counts, and without the all-ones number there is no footer
framed("stream", stream(), (HEADER, 0, 1), (DIRECTORY, 1, 1), (TABLE, 2, 4), (FOOTER_SECTOR, 7, 1), (LAST_SECTOR, 8, 1))
framed("stream-4-sectors", image(4, (0, STREAM), (2, FOOTER)),
       (HEADER, 0, 1), (DIRECTORY, 1, 1), (FOOTER_SECTOR, 2, 1), (LAST_SECTOR, 3, 1))
framed("stream-entry-1", image(4, (0, STREAM), (1, entries(1)), (2, FOOTER)),
       (HEADER, 0, 1), (DIRECTORY, 1, 1), (FOOTER_SECTOR, 2, 1), (LAST_SECTOR, 3, 1))
STREAM_1, FOOTER_1 = (kdmv(directory=at, flags=0x30001, compression=1) for at in (ALL_ONES, 1))
framed("stream-entry-1-version-1", image(5, (0, STREAM_1), (1, entries(1)), (3, FOOTER_1)),
       (HEADER, 0, 1), (DIRECTORY, 1, 1), (TABLE, 1, 4), (FOOTER_SECTOR, 3, 1), (LAST_SECTOR, 4, 1))
framed("markers-without-footer", stream(head=FOOTER), (HEADER, 0, 1), (DIRECTORY, 1, 1), (TABLE, 2, 4))

# ---- what is not judged: grains (9, 10), the copies (11), areas that meet (12), bytes past F
framed("grain-past", small(2**32 - 1, 0), (HEADER, 0, 1), (DIRECTORY, 1, 1), (TABLE, 2, 4))
framed("packed-other-grain", image(7, (0, PACKED), (1, entries(2)), (2, entries(0, 6)), (6, marker(0, 5))),
       (HEADER, 0, 1), (DIRECTORY, 1, 1), (TABLE, 2, 4))
framed("copies-differ", image(12, (0, zeroed(3 * 4096, redundant=6)), (1, entries(2, 0, 1)), (6, entries(0, 7, 8))),
       (HEADER, 0, 1), (DIRECTORY, 1, 1), (REDUNDANT, 6, 1), (TABLE, 2, 4), (COPY, 7, 4), (COPY, 8, 4))
framed("all-at-one-place", image(6, (0, kdmv(4097, directory=2, redundant=2, descriptor=(2, 1))), (2, entries(2, 2))),
       (HEADER, 0, 1), (DESCRIPTOR, 2, 1), (DIRECTORY, 2, 1), (REDUNDANT, 2, 1), *[(TABLE, 2, 4)] * 2, *[(COPY, 2, 4)] * 2)
framed("past-last-sector", small(8, 0) + b"\xff" * 511, (HEADER, 0, 1), (DIRECTORY, 1, 1), (TABLE, 2, 4))

# ---- 8: each area at the file's end and a sector past it; sector 0; sums that would wrap
framed("descriptor-at-end", empty(kdmv(descriptor=(3, 3))), (HEADER, 0, 1), (DESCRIPTOR, 3, 3), (DIRECTORY, 1, 1))
for name, numbers in (("past", (3, 4)), ("past-cut", (6, 1)), ("without-sectors", (3, 0)), ("without-sector", (0, 3)),
                      ("wraps", (ALL_ONES, 2)), ("wraps-by-sectors", (3, ALL_ONES))):
    refused(f"descriptor-{name}", image(6, (0, kdmv(descriptor=numbers)), extra=511), 8, 1)
framed("directory-at-end", empty(kdmv(directory=5)), (HEADER, 0, 1), (DIRECTORY, 5, 1))
framed("directory-of-two-at-end", empty(kdmv(128 * 4096 + 1, directory=4)), (HEADER, 0, 1), (DIRECTORY, 4, 2))
refused("directory-of-two-past", empty(kdmv(128 * 4096 + 1, directory=5)), 8, 2)
for number in (0, 6, ALL_ONES - 1):
    refused(f"directory-{number}", image(6, (0, kdmv(directory=number)), extra=511), 8, 2)
framed("redundant-at-end", empty(kdmv(redundant=5)), (HEADER, 0, 1), (DIRECTORY, 1, 1), (REDUNDANT, 5, 1))
for number in (6, ALL_ONES - 1, ALL_ONES):
    refused(f"redundant-{number}", image(6, (0, kdmv(redundant=number)), extra=511), 8, 3)
refused("redundant-of-two-past", empty(kdmv(128 * 4096 + 1, redundant=5)), 8, 3)
for name, at, group, place in (("table", 1, TABLE, 4), ("copy", 2, COPY, 5)):
    framed(f"{name}-at-end", image(7, (0, kdmv(redundant=2)), (at, entries(3))),
           (HEADER, 0, 1), (DIRECTORY, 1, 1), (REDUNDANT, 2, 1), (group, 3, 4))
    for number in (4, 7, 2**32 - 1):
        refused(f"{name}-{number}", image(7, (0, kdmv(redundant=2)), (at, entries(number)), extra=511), 8, place)
    framed(f"{name}-at-1", image(5, (0, kdmv(redundant=2)), (at, entries(1))),
           (HEADER, 0, 1), (DIRECTORY, 1, 1), (REDUNDANT, 2, 1), (group, 1, 4))
    refused(f"{name}-at-1-past", image(4, (0, kdmv(redundant=2)), (at, entries(1)), extra=511), 8, place)
refused("last-table-past", image(9, (0, kdmv(4097)), (1, entries(2, 6))), 8, 4)
refused("stream-directory-0", stream(footer=FOOTER[:56] + bytes(8) + FOOTER[64:]), 8, 2)

# ---- 1 to 7 and 43, one or two of each: the lookup's cases have their edges
refused("no-bytes", b"", 1)
refused("kdmv-511", kdmv()[:SECTOR - 1], 1)
refused("cowd-2047", cowd()[:4 * SECTOR - 1], 1)
refused("four-other-bytes", b"abcd", 2)
refused("version-4", empty(kdmv(version=4)), 3)
refused("cowd", image(45, (0, cowd()), (4, entries(5)), (5, entries(37, 0))), 43)
refused("cowd-2048", cowd(), 43)
refused("cowd-version-2", empty(cowd(version=2)), 43)
refused("cowd-directory-0", empty(cowd(directory=0)), 43)
refused("newline", empty(kdmv(newline=b"\n \n\n")), 4)
refused("redundant-missing", empty(kdmv(flags=3)), 5)
refused("end-without-markers", empty(kdmv(directory=ALL_ONES)), 5)
refused("flag-4-version-1", empty(zeroed(version=1), 2), 5)
framed("flag-4-version-2", empty(zeroed(), 2), (HEADER, 0, 1), (DIRECTORY, 1, 1))
refused("flag-4-version-4", zeroed(version=4), 3)
refused("newline-before-flag-4", kdmv(flags=5, newline=b"\n \n\n"), 4)
refused("flag-4-before-sizes", kdmv(0, flags=5), 5)
refused("flag-4-before-footer", kdmv(flags=0x30005, compression=1, directory=ALL_ONES), 5)
refused("grain-size-4", empty(kdmv(size=4)), 6)
refused("stream-3-sectors", image(3, (0, STREAM), (1, FOOTER)), 7)
refused("stream-again", stream(footer=STREAM), 7)
refused("stream-last-byte", stream(last=bytes(SECTOR - 1) + b"\1"), 7)
refused("stream-odd-length", stream(extra=1), 7)
refused("7-before-8", stream(footer=FOOTER[:56] + bytes(8) + FOOTER[64:], extra=1), 7)

# ---- 21: three words an area, after 1 to 8 and 43; what is not written keeps its content
framed("room-to-spare", small(8, 0), (HEADER, 0, 1), (DIRECTORY, 1, 1), (TABLE, 2, 4), room=14)
for room in (0, 1, 6, 8):
    refused(f"room-{room}", small(8, 0), 21, room=room)
framed("room-96", image(6, (0, kdmv(30 * 4096)), (1, entries(*[2] * 31))),
       (HEADER, 0, 1), (DIRECTORY, 1, 1), *[(TABLE, 2, 4)] * 30, room=96)
refused("room-95", image(6, (0, kdmv(30 * 4096)), (1, entries(*[2] * 31))), 21, room=95)
refused("room-96-of-99", image(6, (0, kdmv(31 * 4096)), (1, entries(*[2] * 31))), 21, room=96)
refused("8-before-21", small(8, 0, head=kdmv(directory=0)), 8, 2, room=0)
refused("1-before-21", b"", 1, room=0)
refused("43-before-21", cowd(), 43, room=0)


def write(folder):
    write_cases(folder, "frames", CASES, LINES)


if __name__ == "__main__":
    main(write)
