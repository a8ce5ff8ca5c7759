#!/usr/bin/env python3
"""Writes tests/cases/moves, which the program `cases` is run on, and what it must print. moves.py [FOLDER] writes it below
another folder than tests.

Images of either kind, and what both moves make of each: the image of the other kind that documents 01 and 02 describe, built
byte by byte, or the number of the refusal, all written down by hand, both sides of each edge. Nothing here reads an image.
"""
import struct

from asked import MOVE, case, digest, label, line, main, write_cases
from images import SECTOR, at_one, cowd, entries, image, kdmv, small, stream, streamed, table_at_one, zeroed

CASES, LINES, LABELS = [], [], []
HELD, MOST = b"\xaa", 65536


def told(call, room, answer):
    """A line: the answer is the result, a refusal's number, or number and place."""
    if isinstance(answer, bytes):
        assert len(answer) <= room
        return line(call, 0, 0, len(answer), digest(answer + HELD * (room - len(answer))))
    number, place = answer if isinstance(answer, tuple) else (answer, 0)
    return line(call, number, place, 0, digest(HELD * room))


def asked(name, data, kdmv, cowd, room=MOST):
    """An image, what the move to KDMV answers, and what the move to COWD does."""
    label(LABELS, name)
    CASES.append(case(MOVE, data, room=room))
    LINES.extend([told("to_kdmv", room, kdmv), told("to_cowd", room, cowd)])


def up(name, data, answer, room=MOST):
    """A COWD image, which the other move refuses."""
    asked(name, data, answer, 23, room)


def down(name, data, answer, room=MOST):
    asked(name, data, 23, answer, room)


# ---- images: a grain is the byte that each of its sectors is filled with, and counts them
def grain(byte, sectors=8):
    return b"".join(bytes([byte + s]) * SECTOR for s in range(sectors))


def old(*parts, sectors=54, table=(46, 0, 38), unused=(), **fields):
    """COWD: three grains, of which the last has four sectors below capacity. The table stands at 5 to 36."""
    return image(sectors, (0, cowd(**{"capacity": 20, **fields})), (4, entries(5)), (5, entries(*table, *unused)),
                 (38, grain(0x30)), (46, grain(0x10)), *parts)


def young(*parts, sectors=24, table=(8, 0, 16), unused=(), **fields):
    """KDMV: the same grains. The table stands at 2 to 5."""
    return image(sectors, (0, kdmv(**{"capacity": 20, **fields})), (1, entries(2)), (2, entries(*table, *unused)),
                 (8, grain(0x10)), (16, grain(0x30)), *parts)


def as_kdmv(sectors, *parts, capacity=20, size=8, v=8):
    """A result in KDMV: version 2, flags 5, overhead V; parts from the directory on."""
    return image(sectors, (0, kdmv(capacity, size, version=2, flags=5, overhead=v)), *parts)


def as_cowd(sectors, *parts, capacity=20, size=8, count=1):
    """A result in COWD: at 28 stands the file's length in sectors."""
    head = bytearray(cowd(capacity, size, count=count))
    struct.pack_into("<I", head, 28, sectors)
    return image(sectors, (0, bytes(head)), *parts)


# Of the last grain four sectors are kept.
KDMV = as_kdmv(24, (1, entries(2)), (2, entries(8, 0, 16)), (8, grain(0x10)), (16, grain(0x30, 4)))
COWD = as_cowd(53, (4, entries(5)), (5, entries(37, 0, 45)), (37, grain(0x10)), (45, grain(0x30, 4)))

# ---- every byte of either result; there and back; the room on both sides of the edge
up("old", old(), KDMV)
down("young", young(), COWD)
down("there", KDMV, COWD)
up("and-back", COWD, KDMV)
for name, room, answer in (("exact", 24 * SECTOR, KDMV), ("one-more", 24 * SECTOR + 1, KDMV), ("one-less", 24 * SECTOR - 1, 21),
                           ("no-grain", 8 * SECTOR, 21), ("none", 0, 21)):
    up(f"old-room-{name}", old(), answer, room)
for name, room, answer in (("exact", 53 * SECTOR, COWD), ("one-more", 53 * SECTOR + 1, COWD), ("one-less", 53 * SECTOR - 1, 21),
                           ("no-grain", 37 * SECTOR, 21), ("none", 0, 21)):
    down(f"young-room-{name}", young(), answer, room)
# a table for each directory entry, whether it is needed or not
EMPTY_KDMV, EMPTY_COWD = as_kdmv(8, (1, entries(2))), as_cowd(37, (4, entries(5)))
up("old-no-table", image(5, (0, cowd(20))), EMPTY_KDMV)
up("old-no-grain", image(37, (0, cowd(20)), (4, entries(5))), EMPTY_KDMV, 8 * SECTOR)
up("old-no-grain-room", image(37, (0, cowd(20)), (4, entries(5))), 21, 8 * SECTOR - 1)
down("young-no-table", image(2, (0, kdmv(20))), EMPTY_COWD)
down("young-no-grain", image(6, (0, kdmv(20)), (1, entries(2))), EMPTY_COWD, 37 * SECTOR)
down("young-no-grain-room", image(6, (0, kdmv(20)), (1, entries(2))), 21, 37 * SECTOR - 1)

# ---- capacity ends with a grain, or inside one: sectors past it are zero, and entries past the last grain are 0
for capacity, kept in ((17, 1), (23, 7), (24, 8)):
    up(f"old-capacity-{capacity}", old(capacity=capacity),
       as_kdmv(24, (1, entries(2)), (2, entries(8, 0, 16)), (8, grain(0x10)), (16, grain(0x30, kept)), capacity=capacity))
    down(f"young-capacity-{capacity}", young(capacity=capacity),
         as_cowd(53, (4, entries(5)), (5, entries(37, 0, 45)), (37, grain(0x10)), (45, grain(0x30, kept)), capacity=capacity))
up("old-capacity-16", old(capacity=16), as_kdmv(16, (1, entries(2)), (2, entries(8)), (8, grain(0x10)), capacity=16))
down("young-capacity-16", young(capacity=16),
     as_cowd(45, (4, entries(5)), (5, entries(37)), (37, grain(0x10)), capacity=16))
up("old-unused", old((4, entries(5, 77)), unused=(99, 1)), KDMV)
down("young-unused", young((1, entries(2, 1)), unused=(99, 1)), COWD)
# a stored grain of zeros is stored
up("old-blank", old((38, bytes(8 * SECTOR))), as_kdmv(24, (1, entries(2)), (2, entries(8, 0, 16)), (8, grain(0x10))))
down("young-blank", young((16, bytes(8 * SECTOR))), as_cowd(53, (4, entries(5)), (5, entries(37, 0, 45)), (37, grain(0x10))))
# what a source has beside its grains is in neither result
up("old-flags", old(flags=2**32 - 1), KDMV)
up("old-count", old(count=128), KDMV)
up("old-header-bytes", old((1, bytes([7]) * 1136 + bytes(4) + bytes([7]) * 396)), KDMV)
up("old-bytes-past", old() + bytes([7]) * 511, KDMV)
for version, flags in ((1, 0), (1, 1), (2, 5), (3, 1), (3, 4)):
    down(f"young-version-{version}-flags-{flags}", young(version=version, flags=flags), COWD)
down("young-padding", young(overhead=2**64 - 1, padding=7), COWD)
down("young-descriptor", young((6, b"# Disk DescriptorFile"), descriptor=(6, 2)), COWD)
down("young-redundant", young((24, entries(25)), (25, entries(8, 0, 16)), sectors=29, redundant=24, flags=3), COWD)
down("young-bytes-past", young() + bytes([7]) * 511, COWD)

# ---- tables of 512 entries and of 4,096: a sector of capacity more takes one more
up("old-512-grains", image(5, (0, cowd(4096))), as_kdmv(8, (1, entries(2)), capacity=4096))
up("old-513-grains", image(5, (0, cowd(4097))), as_kdmv(16, (1, entries(2, 6)), capacity=4097, v=16))
up("old-1024-grains", image(5, (0, cowd(8192))), as_kdmv(16, (1, entries(2, 6)), capacity=8192, v=16))
up("old-1025-grains", image(5, (0, cowd(8193))), as_kdmv(16, (1, entries(2, 6, 10)), capacity=8193, v=16))
down("young-4096-grains", image(2, (0, kdmv(32768))), as_cowd(37, (4, entries(5)), capacity=32768))
down("young-4097-grains", image(2, (0, kdmv(32769))), as_cowd(69, (4, entries(5, 37)), capacity=32769, count=2))
# the second table of one kind is in the first of the other: grain 512 alone is stored
up("old-grain-512", image(45, (0, cowd(4104)), (4, entries(5)), (9, entries(37)), (37, grain(0x10))),
   as_kdmv(24, (1, entries(2, 6)), (6, entries(16)), (16, grain(0x10)), capacity=4104, v=16))
down("young-grain-512", image(14, (0, kdmv(4104)), (1, entries(0, 2)), (2, entries(6)), (6, grain(0x10))),
     as_cowd(45, (4, entries(5)), (9, entries(37)), (37, grain(0x10)), capacity=4104))
# grain 4,096 is the first of COWD's second table
down("young-grain-4096", image(14, (0, kdmv(32776)), (1, entries(*[0] * 8, 2)), (2, entries(6)), (6, grain(0x10))),
     as_cowd(77, (4, entries(5, 37)), (37, entries(69)), (69, grain(0x10)), capacity=32776, count=2))


# ---- grain sizes: under 8 KDMV has none; V is rounded up to a multiple, and COWD's grains follow at once
def sized(size):
    return image(37 + size, (0, cowd(size, size)), (4, entries(5)), (5, entries(37)), (37, grain(0x10, size)))


for size in (1, 2, 4):
    up(f"size-{size}", sized(size), 44)
    up(f"size-{size}-room-0", sized(size), 44, 0)
for size in (8, 16, 32, 64):
    result = as_kdmv(2 * size, (1, entries(2)), (2, entries(size)), (size, grain(0x10, size)), capacity=size, size=size, v=size)
    back = as_cowd(37 + size, (4, entries(5)), (5, entries(37)), (37, grain(0x10, size)), capacity=size, size=size)
    up(f"size-{size}", sized(size), result)
    down(f"size-{size}-back", result, back)
up("size-64-room", sized(64), 21, MOST - 1)

# ---- zero grains: an entry of 1 from version 2 on with flag 0x4, in table or directory; elsewhere it is a sector
for name, table in (("first", (1, 0)), ("last", (0, 1)), ("both", (1, 1)), ("beside-stored", (8, 1))):
    down(f"zero-{name}", small(*table, head=zeroed()), 44)
    down(f"zero-{name}-room-0", small(*table, head=zeroed(version=3)), 44, 0)
down("zero-by-directory", image(2, (0, zeroed()), (1, entries(1))), 44)
down("zero-by-second-directory-entry", image(2, (0, zeroed(4097)), (1, entries(0, 1))), 44)
down("zero-by-unused-directory-entry", image(2, (0, zeroed(20)), (1, entries(0, 1))), EMPTY_COWD)
down("zero-unused", small(0, 0, 1, head=zeroed()), as_cowd(37, (4, entries(5)), capacity=16))
AT_1 = as_cowd(45, (4, entries(5)), (5, entries(37)), (37, grain(0x10)), capacity=16)
for version, flags in ((1, 1), (2, 1), (3, 0)):
    down(f"grain-at-1-version-{version}-flags-{flags}", at_one(grain(0x10), 1, 0, version=version, flags=flags), AT_1)
down("zero-version-2-flag", at_one(grain(0x10), 1, 0, version=2, flags=5), 44)
down("table-at-1", table_at_one(0, 0), as_cowd(37, (4, entries(5)), capacity=16))

# ---- 23: the other kind, and flag 0x10000; before 27, 44 and 21
asked("packed", stream(), 23, 23)
asked("packed-room-0", stream(), 23, 23, 0)
asked("packed-open", streamed(dirty=1), 23, 23)
down("zero-to-kdmv", small(1, 1, head=zeroed()), 44)
for size in (4, 8):
    asked(f"size-{size}-to-cowd-room-0", sized(size), 44 if size == 4 else 21, 23, 0)

# ---- 27: any number but 0; before 44 and 21
for byte in range(4):
    up(f"old-open-{byte}", old(dirty=1 << 8 * byte), 27)
for dirty in (1, 2, 128, 255):
    down(f"young-open-{dirty}", young(dirty=dirty), 27)
up("old-open-room-0", old(dirty=1), 27, 0)
down("young-open-room-0", young(dirty=1), 27, 0)
up("old-open-size-4", image(5, (0, cowd(16, 4, dirty=1))), 27)
down("young-open-zero", small(1, 0, head=zeroed(dirty=1)), 27)

# ---- the image's own check comes first, of either kind, with room for no image
for name, data, answer in (
        ("no-bytes", b"", 1), ("kdmv-511", young()[:511], 1), ("cowd-2047", old()[:2047], 1), ("magic", b"VMDK", 2),
        ("kdmv-version-4", young(version=4), 3), ("cowd-version-2", old(version=2), 3),
        ("newline", young(newline=b"\n \n\n"), 4), ("flags", young(flags=9), 5), ("kdmv-size-4", young(size=4), 6),
        ("cowd-size-3", old(size=3), 6), ("cowd-count-0", old(count=0), 6), ("footer", stream()[:-SECTOR], 7),
        ("kdmv-directory-0", young(directory=0), (8, 2)), ("cowd-table-past", old((4, entries(23))), (8, 4)),
        ("cowd-grain-past", old(table=(46, 0, 47)), (9, 2)), ("kdmv-grain-past", young(table=(8, 17)), (9, 1)),
        ("cowd-grain-at-1", old(table=(1, 0, 38)), 12), ("kdmv-twice", young(table=(8, 8)), 12)):
    asked(f"check-{name}", data, answer, answer, SECTOR)
asked("check-open", old(version=2, dirty=1), 3, 3)
asked("check-size-4", image(5, (0, cowd(16, 4, directory=5))), (8, 2), (8, 2))


# ---- COWD's own rules, which the moves alone keep (A13), both sides of each edge. Where 44 or 21 is told the check accepted
def fault(name, data, answer):
    """An image that either move refuses by its check."""
    asked(f"cowd-{name}", data, answer, answer)


def one_sector(*grains, capacity=4, directory=(5,), sectors=69, **fields):
    """Grains of one sector each, for which KDMV has no size."""
    return image(sectors, (0, cowd(capacity, 1, **fields)), (4, entries(*directory)), (5, entries(*grains)))


def tables(n):
    """KDMV's directory of n tables."""
    return 1, entries(*range(2, 2 + 4 * n, 4))


# 1 and 3
fault("magic-alone", b"COWD", 1)
fault("2048", cowd(), (8, 2))
for version in (0, 3, 2**8 + 1, 2**24 + 1):
    fault(f"version-{version}", old(version=version), 3)
fault("3-before-6", old(version=2, capacity=0), 3)
# 6: the capacity, the grain size, and the stored count, which is n at least: 4,097 grains have two entries
for capacity in (0, 2**31 + 1, 2**32 - 1):
    fault(f"capacity-{capacity}", image(8, (0, cowd(capacity, 2048, count=512))), 6)
up("cowd-capacity-1", old(capacity=1), as_kdmv(16, tables(1), (2, entries(8)), (8, grain(0x10, 1)), capacity=1))
up("cowd-capacity-most", image(6, (0, cowd(2**31, 2048, count=256))), 21)
for size in (0, 12, 2047, 4096, 2**31):
    fault(f"size-{size}", image(64, (0, cowd(size=size))), 6)
up("cowd-size-2048", image(5, (0, cowd(size=2048))), 21)
up("cowd-4096-grains", one_sector(capacity=4096), 44)
fault("4097-grains-count-1", one_sector(capacity=4097), 6)
up("cowd-4097-grains-count-2", one_sector(capacity=4097, count=2), 44)
up("cowd-32768-sectors", image(5, (0, cowd(32768))), as_kdmv(40, tables(8), capacity=32768, v=40))
fault("32769-sectors-count-1", image(5, (0, cowd(32769))), 6)
up("cowd-32769-sectors-count-2", image(5, (0, cowd(32769, count=2))), as_kdmv(40, tables(9), capacity=32769, v=40))
fault("6-before-8", image(5, (0, cowd(0, directory=0))), 6)
# 8: the directory, as long as the count says
for directory, count, fits in ((0, 1, False), (36, 128, True), (37, 1, False), (35, 129, True), (36, 129, False),
                               (35, 256, True), (35, 257, False), (4, 2**32 - 1, False), (2**32 - 1, 1, False)):
    name, data = f"directory-{directory}-count-{count}", image(37, (0, cowd(20, directory=directory, count=count)), extra=511)
    if fits:
        up(f"cowd-{name}", data, EMPTY_KDMV)
    else:
        fault(name, data, (8, 2))
# 8: tables, of the n entries alone; an entry of 1 is a sector
up("cowd-table-at-end", image(38, (0, cowd(20)), (4, entries(6)), extra=511), EMPTY_KDMV)
for number in (7, 38, 2**32 - 1):
    fault(f"table-{number}", image(38, (0, cowd(20)), (4, entries(number)), extra=511), (8, 4))
up("cowd-second-table-at-end", one_sector(capacity=4097, count=2, directory=(5, 37)), 44)
fault("second-table-past", one_sector(capacity=4097, count=2, directory=(5, 38)), (8, 4))
up("cowd-unused-directory-entry", image(37, (0, cowd(20, count=2)), (4, entries(5, 2**32 - 1))), EMPTY_KDMV)
fault("table-at-1-past", one_sector(directory=(1,), sectors=32), (8, 4))
# 9: a grain has all its sectors, also where capacity ends in it; the lowest is told, and before 12
up("cowd-grain-at-end", old(table=(38, 0, 46)),
   as_kdmv(24, tables(1), (2, entries(8, 0, 16)), (8, grain(0x30)), (16, grain(0x10, 4))))
fault("grain-cut-in-last", old(table=(38, 0, 46))[:-1], (9, 2))
fault("grains-past-lowest", old(table=(38, 47, 2**32 - 1)), (9, 1))
fault("9-before-12", one_sector(1, 0, 68, 69), (9, 3))
# 12: header, directory and table have 4, 1 and 32 sectors; an entry of 1 is in the header, and never zeros
for at in (1, 3, 4, 5, 36):
    fault(f"grain-on-{at}", one_sector(at), 12)
up("cowd-grain-on-37", one_sector(37), 44)
fault("grains-on-one", one_sector(37, 37), 12)
up("cowd-grains-touch", one_sector(38, 37), 44)
fault("grains-overlap", old(table=(46, 0, 39)), 12)
fault("grain-in-table", old(table=(36, 0, 46)), 12)
fault("directory-on-header", image(37, (0, cowd(directory=3))), 12)
for at in (1, 3, 4):
    fault(f"table-on-{at}", image(37, (0, cowd()), (4, entries(at))), 12)
fault("tables-meet", one_sector(capacity=4097, count=2, directory=(5, 36)), 12)
up("cowd-tables-meet-past-n", one_sector(capacity=4096, count=2, directory=(5, 36)), 44)
up("cowd-count-128-table-5", image(38, (0, cowd(20, count=128)), (4, entries(5))), EMPTY_KDMV)
fault("count-129-table-5", image(38, (0, cowd(20, count=129)), (4, entries(5))), 12)
up("cowd-count-129-table-6", image(38, (0, cowd(20, count=129)), (4, entries(6))), EMPTY_KDMV)
# grain 4,095 is the last of the first table, grain 4,096 the first of the second, whose other entries are not in use
up("cowd-second-table", image(85, (0, cowd(32776, count=2)), (4, entries(5, 37)), (5, entries(*[0] * 4095, 77)),
                              (37, entries(69, 69)), (69, grain(0x10)), (77, grain(0x30))),
   as_kdmv(56, tables(9), (33, entries(*[0] * 127, 40)), (34, entries(48)), (40, grain(0x30)), (48, grain(0x10)),
           capacity=32776, v=40))
up("cowd-second-table-alone",
   image(45, (0, cowd(32769, count=2)), (4, entries(0, 5)), (5, entries(37, 37)), (37, grain(0x10))),
   as_kdmv(48, tables(9), (34, entries(40)), (40, grain(0x10, 1)), capacity=32769, v=40))
# the dirty number has four bytes from 1648 on: those beside it, and KDMV's place, do not count
up("cowd-open-all-ones", old(dirty=2**32 - 1), 27)
for at in (72, 1647, 1652):
    up(f"cowd-beside-{at}", old()[:at] + b"\xff" + old()[at + 1:], KDMV)


def write(folder):
    write_cases(folder, "moves", CASES, LINES)


if __name__ == "__main__":
    main(write)
