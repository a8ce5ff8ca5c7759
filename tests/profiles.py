#!/usr/bin/env python3
"""Images about the edges of the lab profile (request A11), and what it says of each: number, place, capacity and grain size, written
down by hand from documents 01 and 02, both sides of each edge. Nothing here reads an image."""
from asked import PROFILE, case, label, line, main, write_cases
from images import SECTOR, cowd, entries, image, kdmv, small, stream, streamed

CASES, LINES, LABELS = [], [], []
# The gap of a disk with one table goes from sector 6 to V, which is 128.
GAP, V = 6 * SECTOR, 128 * SECTOR


def asked(name, data, number, place=0, capacity=0):
    """An image and the answer; grain size 128 goes with a capacity."""
    label(LABELS, name)
    CASES.append(case(PROFILE, data))
    LINES.append(line("profile", number, place, capacity, 128 if capacity else 0))


def met(name, data, capacity=384):
    asked(name, data, 0, 0, capacity)


def differs(name, data, place):
    asked(name, data, 42, place)


def head(capacity=384, v=128, **fields):
    return kdmv(**{"capacity": capacity, "size": 128, "version": 2, "flags": 5, "overhead": v, **fields})


def bare(*table, length=12 * SECTOR, directory=(2,), parts=(), **fields):
    """Three grains, none of them stored: the directory stands at 1, the table at 2 to 5. It ends in the gap, which tells only where
    nothing before does."""
    return image(128, (0, head(**fields)), (1, entries(*directory)), (2, entries(*table)), *parts)[:length]


def form(*table, **fields):
    """The same, whole."""
    return bare(*table, length=V, **fields)


def full(*table, sectors=256, parts=(), **fields):
    """The same with room for grains from 128 on, each sector filled with its number's lowest byte."""
    grains = [(at, bytes([at % 256]) * SECTOR) for at in range(128, sectors)]
    return image(sectors, (0, head(**fields)), (1, entries(2)), (2, entries(*table)), *grains, *parts)


def byte(data, at, value):
    """The image with one byte changed."""
    assert data[at] != value
    return data[:at] + bytes([value]) + data[at + 1:]


# ---- what meets it: any mix of kinds, grains from V on in virtual order, any bytes in them
met("no-grain", form())
met("zero-grains", form(1, 0, 1))
met("one-grain", full(128))
met("last-grain", full(0, 1, 128))
met("two-grains", full(128, 1, 256, sectors=384))
met("blank-grain", full(128, parts=[(128, bytes(V))]))
met("capacity-128", form(capacity=128), 128)

# ---- each field of the header, at its first byte or where the number differs
differs("version-3", bare(version=3), 4)
asked("version-1", bare(version=1), 5)
differs("version-1-flags-1", bare(version=1, flags=1), 4)
for flags in (0, 1, 4):
    differs(f"flags-{flags}", bare(flags=flags), 8)
differs("newline-bytes-not-judged", bare(flags=4, newline=b"\n\n\n\n"), 8)
differs("descriptor", bare(descriptor=(6, 1)), 28)
differs("descriptor-256", bare(descriptor=(256, 1)) + bytes(245 * SECTOR), 29)
asked("descriptor-sectors", bare(descriptor=(0, 1)), 8, 1)
REDUNDANT = ((6, entries(7)), (7, bytes(4 * SECTOR)))
differs("redundant", bare(redundant=6, parts=REDUNDANT), 48)
differs("redundant-used", bare(redundant=6, flags=7, parts=REDUNDANT), 8)
differs("directory-6", bare(directory=(0,), parts=[(6, entries(2))]).replace(head(), head(directory=6)), 56)
for v, place in ((0, 64), (127, 64), (129, 64), (128 + 256, 65), (128 + 2**63, 71)):
    differs(f"overhead-{v}", bare(v=v), place)
differs("padding-first", byte(bare(), 79, 1), 79)
differs("padding-last", byte(bare(), 511, 255), 511)
# the first of several
differs("version-and-gap", byte(bare(version=3), GAP, 1), 4)

# ---- the directory: an entry for each table, and zeros
differs("directory-entry-0", bare(directory=(0,)), 512)
differs("directory-entry-1", bare(directory=(1,)), 512)
differs("directory-entry-6", bare(directory=(6,), parts=[(2, bytes(4 * SECTOR))]), 512)
differs("directory-unused", bare(directory=(2, 1)), 516)
differs("directory-unused-third-byte", bare(directory=(2, 0, 65536)), 522)
differs("directory-last-byte", byte(bare(), 2 * SECTOR - 1, 1), 2 * SECTOR - 1)

# ---- table entries: grains in virtual order, back to back, from V on; unused ones zero
differs("first-grain-not-at-v", full(129, sectors=257), 1024)
differs("grain-below-v", full(6, sectors=134), 1024)
differs("turned", full(256, 0, 128, sectors=384), 1024)
differs("hole-between", full(128, 0, 257, sectors=385), 1032)
differs("grain-left-out", full(0, 0, 256, sectors=384), 1032)
differs("entry-unused", bare(0, 0, 0, 1), 1036)
differs("entry-unused-fourth-byte", bare(0, 0, 0, 2**24), 1039)
differs("entry-last", byte(bare(), GAP - 1, 1), GAP - 1)
differs("entry-last-but-one", byte(bare(), GAP - 2, 1), GAP - 2)

# ---- the gap, both its ends
for at in (GAP, GAP + 1, 7 * SECTOR, V - 1):
    differs(f"gap-{at}", byte(form(), at, 1), at)
differs("gap-before-a-grain", byte(full(128), V - 1, 1), V - 1)
met("grain-first-byte", byte(full(128), V, 1))
met("grain-last-byte", byte(full(128), 2 * V - 1, 1))

# ---- the length: more bytes, fewer than a sector too; a start of the normal form; a grain that nothing names
for more in (1, 511, 512, 513):
    differs(f"longer-{more}", form() + bytes(more), V)
    differs(f"grain-longer-{more}", full(128) + bytes(more), 2 * V)
differs("longer-other-bytes", form() + bytes([7]) * SECTOR, V)
for length in (GAP, GAP + 1, GAP + SECTOR - 1, GAP + SECTOR, V - 1):
    differs(f"cut-{length}", bare(length=length), length)
asked("cut-in-the-table", bare(length=GAP - 1), 8, 4)
asked("grain-cut", full(128)[:-1], 9, 0)
differs("grain-not-named", full(), V)
differs("second-grain-not-named", full(128, sectors=384), 2 * V)

# ---- two tables, and a directory that is full, and one of two sectors
TWO = image(128, (0, head(512 * 128 + 128)), (1, entries(2, 6)))
met("513-grains", TWO, 65664)
met("512-grains", image(128, (0, head(512 * 128)), (1, entries(2))), 65536)
differs("tables-turned", image(128, (0, head(512 * 128 + 128)), (1, entries(6, 2))), 512)
differs("second-table-left-out", image(128, (0, head(512 * 128 + 128)), (1, entries(2))), 516)
differs("two-tables-gap", byte(TWO, 10 * SECTOR, 1), 10 * SECTOR)
differs("two-tables-unused-entry", byte(TWO, 6 * SECTOR + 4, 1), 6 * SECTOR + 4)
differs("512-grains-second-entry", image(128, (0, head(512 * 128)), (1, entries(2, 1))), 516)

# ---- 47: a grain size of 128 and a multiple of it, before 42
for size in (8, 64, 256, 2048):
    data = image(max(size, 8), (0, kdmv(size, size, version=2, flags=5, overhead=max(size, 8))), (1, entries(2)))
    asked(f"grain-size-{size}", data[:V], 47)
for capacity in (1, 127, 129, 383, 385):
    asked(f"capacity-{capacity}", bare(capacity=capacity), 47)
met("capacity-256", form(capacity=256), 256)
asked("capacity-127-and-42", bare(capacity=127, version=3), 47)
asked("grain-size-8-and-42", small(0, 0), 47)

# ---- COWD is 43 by its check (A13)
asked("cowd", image(37, (0, cowd(128, 128)), (4, entries(5))), 43)
asked("cowd-open", image(37, (0, cowd(128, 128, dirty=1)), (4, entries(5))), 43)
asked("cowd-sizes", image(37, (0, cowd(100, 8)), (4, entries(5))), 43)

# ---- 23, before 27 and 47; 27 before 47
asked("packed", stream(), 23)
asked("packed-open", streamed(dirty=1), 23)
asked("packed-sizes-met", bare(flags=0x10005, compression=1), 23)
for dirty in (1, 2, 128, 255):
    asked(f"open-{dirty}", bare(dirty=dirty), 27)
asked("open-sizes", bare(dirty=1, capacity=127), 27)
asked("open-42", bare(dirty=1, version=3), 27)

# ---- the image's own check comes first, with its place
for name, data, number, place in (
        ("no-bytes", b"", 1, 0), ("511", bare()[:511], 1, 0), ("magic", b"VMDK" + bare()[4:], 2, 0), ("version", bare(version=4), 3, 0),
        ("newline", bare(newline=b"\n \n\n"), 4, 0), ("flags", bare(flags=13), 5, 0), ("size", bare(size=96), 6, 0),
        ("footer", stream()[:-SECTOR], 7, 0), ("directory-0", small(0, 0, head=kdmv(directory=0)), 8, 2),
        ("table-past", bare(directory=(9,)), 8, 4), ("grain-past", full(0, 129), 9, 1),
        ("grain-twice", full(0, 128, 128), 12, 0), ("open", bare(dirty=1, version=4), 3, 0), ("cowd", cowd(version=2), 43, 0),
        ("cowd-2047", cowd()[:2047], 1, 0)):
    asked(f"check-{name}", data, number, place)


def write(folder):
    write_cases(folder, "profiles", CASES, LINES)


if __name__ == "__main__":
    main(write)
