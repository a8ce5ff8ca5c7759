#!/usr/bin/env python3
"""Writes tests/cases/steps, which the program `cases` is run on, and what it must print. steps.py [FOLDER] writes it below
another folder than tests.

Each case has a label, an image, built byte by byte, and sectors with the way that document 01, with requests A2, A8 and A13,
leads to each, written down by hand: both sides of each edge. Nothing here reads an image.
"""
from asked import CLOSE, case, label, line, main, write_cases
from images import (ALL_ONES, PACKED, STREAMED, at_one, cowd, entries, image, kdmv, marker, small, stream, streamed,
                    table_at_one, zeroed)

# What the program is asked: the number after the last one that others ask.
STEPS = CLOSE + 1
NONE = 0, 0


# ---- the way: what 1 means, the grain, and of both entries the first byte and the number
def way(grain, directory=NONE, table=NONE):
    """Where an entry of 1 is a sector."""
    return 0, grain, *directory, *table


def zeros(grain, directory=NONE, table=NONE):
    """Where it means zeros."""
    return 1, grain, *directory, *table


NO_WAY = way(0)


# ---- answers: number, place, the way, kind, sector, size, offset
def refused(number, place=0, to=NO_WAY):
    return number, place, *to, 0, 0, 0, 0


def absent(to):
    return 0, 0, *to, 0, 0, 0, 0


def zero(to):
    return 0, 0, *to, 1, 0, 0, 0


def stored(to, sector):
    return 0, 0, *to, 2, sector, 0, 0


def packed(to, sector, size, offset):
    return 0, 0, *to, 3, sector, size, offset


CASES, LINES, LABELS = [], [], []


def steps(name, data, *asked):
    label(LABELS, name)
    CASES.append(case(STEPS, data, [sector for sector, _ in asked]))
    LINES.extend(line("steps", *answer) for _, answer in asked)


def refusals(name, data, number):
    """A refusal that comes before the sector is asked for: on the disk, at its end and past it."""
    steps(name, data, *((sector, refused(number)) for sector in (0, 15, 16, ALL_ONES)))


# The directory of `small`: its entry 0, at byte 512, names the table at sector 2, whose entries stand from byte 1024 on.
NAMED = 512, 2

# ---- the way to the end
# document 01's example, source 000's sample: the directory at sector 26 is byte 13,312 on, the table behind it byte 13,824 on
FIRST = 13312, 27
steps("sample-of-000", image(384, (0, kdmv(8192, 128, 26)), (26, entries(27)), (27, entries(128, 0, 256))),
      (0, stored(way(0, FIRST, (13824, 128)), 128)), (2, stored(way(0, FIRST, (13824, 128)), 130)),
      (127, stored(way(0, FIRST, (13824, 128)), 255)), (128, absent(way(1, FIRST, (13828, 0)))),
      (255, absent(way(1, FIRST, (13828, 0)))), (256, stored(way(2, FIRST, (13832, 256)), 256)),
      (383, stored(way(2, FIRST, (13832, 256)), 383)), (384, absent(way(3, FIRST, (13836, 0)))),
      (8191, absent(way(63, FIRST, (14076, 0)))), (8192, refused(20)), (ALL_ONES, refused(20)))
# grain g uses directory entry g / 512 and table entry g mod 512
steps("second-table", image(26, (0, kdmv(4104)), (1, entries(2, 6)), (2, entries(*[0] * 511, 10)), (6, entries(18))),
      (4087, absent(way(510, (512, 2), (3064, 0)))), (4088, stored(way(511, (512, 2), (3068, 10)), 10)),
      (4095, stored(way(511, (512, 2), (3068, 10)), 17)), (4096, stored(way(512, (516, 6), (3072, 18)), 18)),
      (4103, stored(way(512, (516, 6), (3072, 18)), 25)), (4104, refused(20)))
steps("tables-turned", image(10, (0, kdmv(4104)), (1, entries(6, 2)), (2, entries(0)), (6, entries(0, 1))),
      (0, absent(way(0, (512, 6), (3072, 0)))), (8, stored(way(1, (512, 6), (3076, 1)), 1)),
      (4096, absent(way(512, (516, 2), (1024, 0)))))
# a directory of 128 entries fills a sector, one of 129 has its last in the next
steps("128-entries", image(6, (0, kdmv(524288)), (1, entries(*[0] * 127, 2))),
      (0, absent(way(0, (512, 0)))), (524287, absent(way(65535, (1020, 2), (3068, 0)))), (524288, refused(20)))
steps("128-entries-alone", image(2, (0, kdmv(524288))), (524287, absent(way(65535, (1020, 0)))))
steps("129-entries", image(7, (0, kdmv(524289)), (2, entries(3))),
      (524287, absent(way(65535, (1020, 0)))), (524288, absent(way(65536, (1024, 3), (1536, 0)))), (524289, refused(20)))
steps("129-entries-cut", image(2, (0, kdmv(524289)), extra=511),
      (0, refused(8, 2, way(0))), (524288, refused(8, 2, way(65536))))
# sizes: a grain of 8 sectors and of 2,048; a capacity of 1, one that ends inside a grain, the largest
steps("grain-size-8", small(8, 0), (7, stored(way(0, NAMED, (1024, 8)), 15)), (8, absent(way(1, NAMED, (1028, 0)))))
steps("grain-size-2048", small(0, 0, 0, head=kdmv(4097, 2048), sectors=6),
      (2047, absent(way(0, NAMED, (1024, 0)))), (2048, absent(way(1, NAMED, (1028, 0)))),
      (4095, absent(way(1, NAMED, (1028, 0)))), (4096, absent(way(2, NAMED, (1032, 0)))), (4097, refused(20)))
steps("capacity-1", small(0, 0, head=kdmv(1), sectors=6), (0, absent(way(0, NAMED, (1024, 0)))), (1, refused(20)))
steps("capacity-9", small(0, 8, head=kdmv(9)), (8, stored(way(1, NAMED, (1028, 8)), 8)), (9, refused(20)))
steps("capacity-most", image(21, (0, kdmv(2**31, 2048)), (1, entries(*[0] * 2047, 17))),
      (2**31 - 1, absent(way(1048575, (8700, 17), (10748, 0)))), (2**31, refused(20)))
# entries are four bytes, the lowest first
steps("table-entry-of-four-bytes", small(0x01020304, 0), (0, refused(9, 0, way(0, NAMED, (1024, 16909060)))))
steps("directory-entry-of-four-bytes", image(6, (0, kdmv()), (1, bytes((1, 2, 3, 4)))),
      (0, refused(8, 4, way(0, (512, 67305985)))))
# the table may be the directory itself: both steps on the same four bytes
steps("table-on-directory", image(16, (0, kdmv()), (1, entries(1))),
      (0, stored(way(0, (512, 1), (512, 1)), 1)), (8, absent(way(1, (512, 1), (516, 0)))))

# ---- what an entry of 1 is: zeros with version 2 or 3 and flag 0x4, else a sector
steps("table-entry-1", small(1, 8, head=zeroed()), (0, zero(zeros(0, NAMED, (1024, 1)))), (7, zero(zeros(0, NAMED, (1024, 1)))),
      (8, stored(zeros(1, NAMED, (1028, 8)), 8)), (15, stored(zeros(1, NAMED, (1028, 8)), 15)), (16, refused(20)))
steps("table-entry-2", small(2, 0, head=zeroed()), (0, stored(zeros(0, NAMED, (1024, 2)), 2)))
steps("directory-entry-1", image(2, (0, zeroed()), (1, entries(1))),
      (0, zero(zeros(0, (512, 1)))), (15, zero(zeros(1, (512, 1)))))
steps("directory-entry-0", image(2, (0, kdmv())), (0, absent(way(0, (512, 0)))), (15, absent(way(1, (512, 0)))))
steps("directory-entry-0-zeroed", image(2, (0, zeroed())), (0, absent(zeros(0, (512, 0)))), (15, absent(zeros(1, (512, 0)))))
steps("directory-entry-1-zeroed-3", image(2, (0, zeroed(version=3)), (1, entries(1))), (0, zero(zeros(0, (512, 1)))))
steps("directory-entry-1-flag-4-alone", image(2, (0, zeroed(flags=4)), (1, entries(1))), (15, zero(zeros(1, (512, 1)))))
for version in (1, 2, 3):
    head = kdmv(version=version)
    steps(f"entry-1-version-{version}", small(1, 0, head=head, sectors=9),
          (0, stored(way(0, NAMED, (1024, 1)), 1)), (7, stored(way(0, NAMED, (1024, 1)), 8)),
          (8, absent(way(1, NAMED, (1028, 0)))))
    steps(f"directory-entry-1-version-{version}", image(2, (0, head), (1, entries(1))), (0, refused(8, 4, way(0, (512, 1)))))
steps("entry-1-zeroed-3", small(1, 0, head=zeroed(version=3), sectors=6),
      (0, zero(zeros(0, NAMED, (1024, 1)))), (8, absent(zeros(1, NAMED, (1028, 0)))))
steps("entry-1-free", at_one(b"", 1, 0),
      (0, stored(way(0, (4608, 10), (5120, 1)), 1)), (7, stored(way(0, (4608, 10), (5120, 1)), 8)),
      (8, absent(way(1, (4608, 10), (5124, 0)))))
steps("entry-1-past", small(1, 0, sectors=8),
      (0, refused(9, 0, way(0, NAMED, (1024, 1)))), (8, absent(way(1, NAMED, (1028, 0)))))
steps("table-at-1", table_at_one(6, 0, sectors=14),
      (0, stored(way(0, (2560, 1), (512, 6)), 6)), (7, stored(way(0, (2560, 1), (512, 6)), 13)),
      (8, absent(way(1, (2560, 1), (516, 0)))))
steps("table-at-1-at-end", image(5, (0, kdmv(directory=3)), (3, entries(1))), (15, absent(way(1, (1536, 1), (516, 0)))))
steps("table-at-1-past", image(4, (0, kdmv(directory=3)), (3, entries(1))), (15, refused(8, 4, way(1, (1536, 1)))))
steps("packed-at-1", at_one(marker(0, 500), 1, 0, directory=2, flags=0x10001, compression=1),
      (0, packed(way(0, (1024, 3), (1536, 1)), 1, 500, 0)), (7, packed(way(0, (1024, 3), (1536, 1)), 1, 500, 7)),
      (8, absent(way(1, (1024, 3), (1540, 0)))))

# ---- 1 to 7 and 43 tell number and place alone, whatever sector is asked for
refusals("no-bytes", b"", 1)
refusals("three-bytes", b"KDM", 1)
refusals("kdmv-511", kdmv()[:511], 1)
steps("kdmv-512", kdmv(), (0, refused(8, 2, way(0))), (15, refused(8, 2, way(1))), (16, refused(20)))
refusals("other-magic", b"VMDK" + bytes(2044), 2)
refusals("version-0", small(8, 8, head=kdmv(version=0)), 3)
refusals("version-4", small(8, 8, head=zeroed(version=4)), 3)
refusals("newline", small(8, 8, head=zeroed(newline=b"\n \n\n")), 4)
steps("newline-not-tested", small(8, 8, head=zeroed(newline=b"\n \n\n", flags=4)), (0, stored(zeros(0, NAMED, (1024, 8)), 8)))
refusals("flags-8", small(8, 8, head=zeroed(flags=13)), 5)
refusals("flag-4-version-1", small(1, 8, head=zeroed(version=1)), 5)
refusals("compression-unflagged", small(8, 8, head=zeroed(compression=1)), 5)
refusals("capacity-0", small(8, 8, head=zeroed(0)), 6)
refusals("capacity-too-large", small(8, 8, head=zeroed(2**31 + 1)), 6)
refusals("grain-size-4", small(8, 8, head=zeroed(size=4)), 6)
refusals("grain-size-4096", small(8, 8, head=zeroed(size=4096)), 6)
refusals("entries-511", small(8, 8, head=zeroed(entries=511)), 6)
refusals("stream-odd-length", stream(extra=1), 7)
refusals("stream-last-byte", stream(last=bytes(511) + b"\1"), 7)
refusals("cowd", image(45, (0, cowd()), (4, entries(5)), (5, entries(37, 38))), 43)
refusals("cowd-2048", cowd(), 43)
refusals("cowd-2047", cowd()[:2047], 1)

# ---- 20 tells as little, and comes before 8
steps("20-before-8", small(8, 8, head=kdmv(directory=0)),
      (15, refused(8, 2, way(1))), (16, refused(20)), (ALL_ONES, refused(20)))
steps("20-zeroed", small(1, 1, head=zeroed(), sectors=6), (15, zero(zeros(1, NAMED, (1028, 1)))), (16, refused(20)))

# ---- 8: with place 2 the grain and what 1 means, with place 4 the directory's entry too
steps("directory-0", small(8, 0, head=zeroed(directory=0)), (7, refused(8, 2, zeros(0))), (8, refused(8, 2, zeros(1))))
steps("directory-at-end", small(8, 0, head=kdmv(directory=15)), (7, absent(way(0, (7680, 0)))), (8, absent(way(1, (7680, 0)))))
steps("directory-past", small(8, 0, head=kdmv(directory=16)), (7, refused(8, 2, way(0))), (8, refused(8, 2, way(1))))
steps("directory-past-cut", image(16, (0, kdmv(directory=16)), extra=511), (8, refused(8, 2, way(1))))
steps("directory-wraps", small(8, 0, head=kdmv(directory=2**64 - 2)), (8, refused(8, 2, way(1))))
steps("table-at-end", image(6, (0, kdmv()), (1, entries(2))), (0, absent(way(0, NAMED, (1024, 0)))))
steps("table-past", image(5, (0, kdmv()), (1, entries(2)), (2, entries(8)), extra=511),
      (0, refused(8, 4, way(0, NAMED))), (8, refused(8, 4, way(1, NAMED))), (16, refused(20)))
steps("table-past-zeroed", image(5, (0, zeroed()), (1, entries(2)), (2, entries(1))), (0, refused(8, 4, zeros(0, NAMED))))
steps("table-far", image(16, (0, kdmv()), (1, entries(2**32 - 1))), (15, refused(8, 4, way(1, (512, 4294967295)))))
steps("other-table-past", image(6, (0, kdmv(4104)), (1, entries(2, 3))),
      (4095, absent(way(511, NAMED, (3068, 0)))), (4096, refused(8, 4, way(512, (516, 3)))))

# ---- 9 and 10: both entries
steps("grain-at-end", small(8, 0), (0, stored(way(0, NAMED, (1024, 8)), 8)), (7, stored(way(0, NAMED, (1024, 8)), 15)))
steps("grain-past", small(9, 8), (0, refused(9, 0, way(0, NAMED, (1024, 9)))), (7, refused(9, 0, way(0, NAMED, (1024, 9)))),
      (8, stored(way(1, NAMED, (1028, 8)), 8)))
steps("grain-past-zeroed", small(1, 9, head=zeroed()),
      (7, zero(zeros(0, NAMED, (1024, 1)))), (15, refused(9, 1, zeros(1, NAMED, (1028, 9)))))
steps("grain-past-cut", small(8, 8)[:-1], (0, refused(9, 0, way(0, NAMED, (1024, 8)))))
steps("grain-past-in-last", small(0, 8, head=kdmv(9), sectors=15),
      (8, refused(9, 1, way(1, NAMED, (1028, 8)))), (9, refused(20)))
steps("grain-far", small(0, 2**32 - 1), (8, refused(9, 1, way(1, NAMED, (1028, 4294967295)))))


def one_packed(*grains, mark, sectors=7):
    """As small, but packed, with a marker behind the table."""
    return image(sectors, (0, PACKED), (1, entries(2)), (2, entries(*grains)), (6, mark))


steps("packed", one_packed(6, 0, mark=marker(0, 500)),
      (0, packed(way(0, NAMED, (1024, 6)), 6, 500, 0)), (7, packed(way(0, NAMED, (1024, 6)), 6, 500, 7)),
      (8, absent(way(1, NAMED, (1028, 0)))))
steps("packed-second", one_packed(0, 6, mark=marker(8, 5)), (8, packed(way(1, NAMED, (1028, 6)), 6, 5, 0)),
      (15, packed(way(1, NAMED, (1028, 6)), 6, 5, 7)))
steps("packed-two-sectors", one_packed(6, 0, mark=marker(0, 501), sectors=8), (3, packed(way(0, NAMED, (1024, 6)), 6, 501, 3)))
steps("packed-past", one_packed(6, 0, mark=marker(0, 501)), (3, refused(9, 0, way(0, NAMED, (1024, 6)))))
steps("packed-marker-past", one_packed(7, 0, mark=marker(0, 5)), (7, refused(9, 0, way(0, NAMED, (1024, 7)))))
steps("packed-empty", one_packed(6, 0, mark=marker(0, 0)), (7, refused(10, 0, way(0, NAMED, (1024, 6)))))
steps("packed-one-byte", one_packed(6, 0, mark=marker(0, 1)), (7, packed(way(0, NAMED, (1024, 6)), 6, 1, 7)))
steps("packed-other-grain", one_packed(0, 6, mark=marker(0, 5)), (15, refused(10, 1, way(1, NAMED, (1028, 6)))))
steps("9-before-10", one_packed(6, 0, mark=marker(1, 501)), (0, refused(9, 0, way(0, NAMED, (1024, 6)))))

# ---- the footer's directory
steps("stream", stream(), (0, packed(zeros(0, NAMED, (1024, 6)), 6, 5, 0)), (7, packed(zeros(0, NAMED, (1024, 6)), 6, 5, 7)),
      (8, zero(zeros(1, NAMED, (1028, 1)))), (16, refused(20)))
steps("stream-without-flag-4", streamed(flags=0x30001),
      (0, packed(way(0, NAMED, (1024, 6)), 6, 5, 0)), (8, refused(10, 1, way(1, NAMED, (1028, 1)))))
for at, told in ((0, refused(8, 2, zeros(1))), (3, absent(zeros(1, (1536, 0)))), (8, absent(zeros(1, (4096, 0)))),
                 (9, refused(8, 2, zeros(1)))):
    steps(f"stream-directory-{at}", stream(kdmv(directory=at, **STREAMED)), (15, told))

# ---- what the way does not look at: the descriptor, the redundant directory and its tables, other grains, a dirty byte, bytes
# past F
COPIES = (1, entries(2)), (2, entries(16, 1)), (6, entries(7)), (7, entries(17, 0))
for name, flags in ("primary-directory", 5), ("primary-directory-flag-2", 7):
    steps(name, image(25, (0, zeroed(flags=flags, redundant=6)), *COPIES),
          (0, stored(zeros(0, NAMED, (1024, 16)), 16)), (8, zero(zeros(1, NAMED, (1028, 1)))))
for name, head in (("redundant-past", zeroed(flags=7, redundant=2**64 - 1)), ("descriptor-past", zeroed(descriptor=(6, 11))),
                   ("half-a-descriptor", zeroed(descriptor=(6, 0))), ("dirty", zeroed(dirty=255))):
    steps(name, small(8, 1, head=head), (0, stored(zeros(0, NAMED, (1024, 8)), 8)), (8, zero(zeros(1, NAMED, (1028, 1)))))
steps("redundant-table-past", image(16, (0, kdmv(redundant=6)), (1, entries(2)), (2, entries(8)), (6, entries(99))),
      (0, stored(way(0, NAMED, (1024, 8)), 8)))
steps("two-grains-on-one", small(8, 8), (0, stored(way(0, NAMED, (1024, 8)), 8)), (8, stored(way(1, NAMED, (1028, 8)), 8)))
steps("past-last-sector", small(8, 0) + b"\xff" * 511,
      (7, stored(way(0, NAMED, (1024, 8)), 15)), (8, absent(way(1, NAMED, (1028, 0)))))


def write(folder):
    write_cases(folder, "steps", CASES, LINES)


if __name__ == "__main__":
    main(write)
