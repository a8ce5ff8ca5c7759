#!/usr/bin/env python3
"""Writes tests/cases/mends, which the program `cases` is run on, and what it must print. mends.py [FOLDER] writes it below
another folder than tests.

Images that are mended: before and after it, both built byte by byte, and the changes that documents 01 and 02 say there are,
all written down by hand, with what is refused on the other side of an edge. Nothing here reads an image.
"""
from asked import main, write_cases
from images import entries, image, kdmv, marker, zeroed
from mending import PRIMARY, REDUNDANT, Mends, footed, sides

MENDS = Mends()
LABELS = MENDS.labels
mended, refused, refused_40 = MENDS.mended, MENDS.refused, MENDS.refused_40

# ---- each side; any number but 0 names the redundant one
mended("primary", sides((1, 0), (0, 0)), PRIMARY, sides((1, 0), (1, 0)), (0, 0, 1))
mended("redundant", sides((1, 0), (0, 0)), REDUNDANT, sides((0, 0), (0, 0)), (0, 1, 0))
for good in (2, 255, 256, 2**32, 2**63, 2**64 - 1):
    mended(f"good-{good}", sides((1, 0), (0, 0)), good, sides((0, 0), (0, 0)), (0, 1, 0))
mended("both-entries", sides((1, 0), (0, 1)), PRIMARY, sides((1, 0), (1, 0)), (0, 0, 1), (1, 1, 0))
mended("both-entries-from-redundant", sides((1, 0), (0, 1)), REDUNDANT, sides((0, 1), (0, 1)), (0, 1, 0), (1, 0, 1))
mended("second-entry", sides((0, 1), (0, 0)), PRIMARY, sides((0, 1), (0, 1)), (1, 0, 1))
mended("one-alike-between", sides((1, 0, 1), (0, 0, 0), capacity=24), PRIMARY, sides((1, 0, 1), (1, 0, 1), capacity=24),
       (0, 0, 1), (2, 0, 1))
mended("nothing-to-mend", sides((1, 0), (1, 0)), PRIMARY, sides((1, 0), (1, 0)))
mended("nothing-to-mend-from-redundant", sides((1, 0), (1, 0)), REDUNDANT, sides((1, 0), (1, 0)))
mended("nothing-to-mend-room-4", sides((1, 0), (1, 0)), PRIMARY, sides((1, 0), (1, 0)), room=4)
mended("no-table", image(3, (0, kdmv(redundant=2))), PRIMARY, image(3, (0, kdmv(redundant=2))))
# what an entry that is not good was does not count, where no grain can be too
for old in (2, 255, 256, 65535, 65536, 2**24, 2**31, 2**32 - 1):
    mended(f"old-{old}", sides((0, 0), (0, old)), PRIMARY, sides((0, 0), (0, 0)), (1, old, 0))
mended("stored", sides((11, 0), (0, 0), 19), PRIMARY, sides((11, 0), (11, 0), 19), (0, 0, 11))
mended("two-places", sides((11, 0), (19, 0), 27), PRIMARY, sides((11, 0), (11, 0), 27), (0, 19, 11))
mended("two-places-from-redundant", sides((11, 0), (19, 0), 27), REDUNDANT, sides((19, 0), (19, 0), 27), (0, 11, 19))

# ---- an entry differs behind its zero byte: 11 is 0b 00 00 00, 120 is 78 00 00 00 and ends a file of 128 sectors
for entry, sectors, bits in ((11, 19, (8, 16, 24, 31)), (120, 128, (16, 24))):
    for bit in bits:
        data, turned = sides((entry, 0), (entry + 2**bit, 0), sectors), sides((entry + 2**bit, 0), (entry, 0), sectors)
        sound = sides((entry, 0), (entry, 0), sectors)
        mended(f"{entry}-and-bit-{bit}", data, PRIMARY, sound, (0, entry + 2**bit, entry))
        mended(f"bit-{bit}-and-{entry}", turned, REDUNDANT, sound, (0, entry + 2**bit, entry))
# 128 is 80 00 00 00: in so short a file neither it nor what differs behind its zero byte can be good
refused_40("128-and-bit-16", sides((128, 0), (128 + 2**16, 0), 128))
mended("128-in-redundant", sides((120, 0), (128, 0), 128), PRIMARY, sides((120, 0), (120, 0), 128), (0, 128, 120))
mended("128-in-primary", sides((128, 0), (120, 0), 128), REDUNDANT, sides((120, 0), (120, 0), 128), (0, 128, 120))

# ---- entries past the last grain are neither compared nor written
UNUSED = (1, 0, 1, 9), (0, 0, 0, 8)
for capacity in (9, 16):
    mended(f"capacity-{capacity}", sides(*UNUSED, capacity=capacity), PRIMARY,
           sides((1, 0, 1, 9), (1, 0, 0, 8), capacity=capacity), (0, 0, 1))
for capacity in (17, 24):
    mended(f"capacity-{capacity}", sides(*UNUSED, capacity=capacity), PRIMARY,
           sides((1, 0, 1, 9), (1, 0, 1, 8), capacity=capacity), (0, 0, 1), (2, 0, 1))
mended("capacity-8", sides((0, 1), (0, 0), capacity=8), PRIMARY, sides((0, 1), (0, 0), capacity=8))


def last(number, capacity):
    """Entry 511 of the redundant table, whose other entries are 0."""
    return image(11, (0, zeroed(capacity, redundant=6)), (1, entries(2)), (6, entries(7)), (10, entries(*[0] * 127, number)))


for capacity, changes in ((4088, ()), (4089, [(511, 1, 0)]), (4096, [(511, 1, 0)])):
    mended(f"entry-511-capacity-{capacity}", last(1, capacity), PRIMARY, last(0 if changes else 1, capacity), *changes)


# ---- several directory entries: the grains' order, wherever tables stand
def two_tables(one, two, directory=(2, 11), redundant=(7, 15), capacity=4097, **fields):
    """The first entry of the tables at 2 and 7, then of those at 11 and 15."""
    return image(19, (0, zeroed(capacity, redundant=6, **fields)), (1, entries(*directory)), (6, entries(*redundant)),
                 (2, entries(one[0])), (7, entries(one[1])), (11, entries(two[0])), (15, entries(two[1])))


mended("two-tables", two_tables((1, 0), (0, 1)), PRIMARY, two_tables((1, 1), (0, 0)), (0, 0, 1), (512, 1, 0))
mended("two-tables-from-redundant", two_tables((1, 0), (0, 1)), REDUNDANT, two_tables((0, 0), (1, 1)), (0, 1, 0), (512, 0, 1))
mended("second-table", two_tables((1, 1), (0, 1)), PRIMARY, two_tables((1, 1), (0, 0)), (512, 1, 0))
TURNED = {"directory": (11, 2), "redundant": (15, 7)}
mended("turned-tables", two_tables((1, 0), (0, 1), **TURNED), PRIMARY, two_tables((1, 1), (0, 0), **TURNED),
       (0, 1, 0), (512, 0, 1))
CROSSED = {"directory": (2, 11), "redundant": (15, 7)}
mended("crossed-tables", two_tables((1, 1), (0, 0), **CROSSED), PRIMARY, two_tables((1, 0), (0, 1), **CROSSED),
       (0, 0, 1), (512, 1, 0))
# absent and zeros in both, before and behind a table
ABSENT = {"directory": (0, 2, 1), "redundant": (0, 7, 1), "capacity": 3 * 4096}
mended("absent-table-zeros", two_tables((1, 0), (0, 0), **ABSENT), PRIMARY, two_tables((1, 1), (0, 0), **ABSENT), (512, 0, 1))
# entries of the directories past n are not judged
PAST_N = {"directory": (2, 0), "redundant": (7, 1)}
mended("directory-past-n", two_tables((1, 0), (0, 0), capacity=4096, **PAST_N), PRIMARY,
       two_tables((1, 1), (0, 0), capacity=4096, **PAST_N), (0, 0, 1))
refused_40("directory-in-n", two_tables((1, 0), (0, 0), capacity=4097, **PAST_N))


def two_sectors(primary, redundant):
    """129 directory entries, the last of which have tables."""
    return image(13, (0, zeroed(128 * 4096 + 1, redundant=3)), (2, entries(5)), (4, entries(9)), (5, entries(primary)),
                 (9, entries(redundant)))


mended("directories-of-two-sectors", two_sectors(1, 0), PRIMARY, two_sectors(1, 1), (65536, 0, 1))


# ---- an entry of 1: a sector, or zeros in version 2 or 3 with flag 0x4
def at_one(primary, redundant, **fields):
    """What an entry of 1 leads to stands before directories at 9 and 14, with tables at 10 and 15."""
    return image(19, (0, kdmv(directory=9, redundant=14, **fields)), (9, entries(10)), (10, entries(*primary)),
                 (14, entries(15)), (15, entries(*redundant)))


def table_at_one(primary, redundant, **fields):
    """Tables at 1 and 7, with directories at 5 and 6."""
    return image(19, (0, kdmv(directory=5, redundant=6, **fields)), (1, entries(*primary)), (5, entries(1)), (6, entries(7)),
                 (7, entries(*redundant)))


SECTOR_1 = [{"version": version} for version in (1, 2, 3)]
ZEROS = [{"version": version, "flags": 5} for version in (2, 3)]
for fields in SECTOR_1 + ZEROS:
    name = "-".join(f"{field}-{value}" for field, value in fields.items())
    mended(f"grain-at-1-{name}", at_one((1, 0), (0, 0), **fields), PRIMARY, at_one((1, 0), (1, 0), **fields), (0, 0, 1))
    mended(f"grain-at-1-{name}-redundant", at_one((1, 0), (0, 0), **fields), REDUNDANT, at_one((0, 0), (0, 0), **fields),
           (0, 1, 0))
    # a descriptor where that grain would be, and a table at 1 against one at 7
    data, tables = at_one((1, 0), (0, 0), descriptor=(8, 1), **fields), table_at_one((0, 0), (11, 0), **fields)
    if fields in ZEROS:
        mended(f"grain-at-1-on-descriptor-{name}", data, PRIMARY, at_one((1, 0), (1, 0), descriptor=(8, 1), **fields),
               (0, 0, 1))
        refused_40(f"table-at-1-{name}", tables)
    else:
        refused(f"grain-at-1-on-descriptor-{name}", data, 40, PRIMARY)
        mended(f"table-at-1-{name}", tables, PRIMARY, table_at_one((0, 0), (0, 0), **fields), (0, 11, 0))
        mended(f"table-at-1-{name}-redundant", tables, REDUNDANT, table_at_one((11, 0), (11, 0), **fields), (0, 0, 11))


# ---- packed grains
def packed(primary, redundant, *parts, size=5):
    """Grain 0 may stand at 11, and grain 1 at 12."""
    head = kdmv(flags=0x10001, compression=1, redundant=6)
    return image(14, (0, head), (1, entries(2)), (2, entries(*primary)), (6, entries(7)), (7, entries(*redundant)),
                 (11, marker(0, 5)), (12, marker(8, size)), *parts)


mended("packed", packed((11, 12), (11, 0)), PRIMARY, packed((11, 12), (11, 12)), (1, 0, 12))
mended("packed-from-redundant", packed((11, 12), (11, 0)), REDUNDANT, packed((11, 0), (11, 0)), (1, 12, 0))
mended("packed-marker-of-another", packed((12, 0), (11, 12)), REDUNDANT, packed((11, 12), (11, 12)), (0, 12, 11), (1, 0, 12))
refused("packed-marker-of-another-from-primary", packed((12, 0), (11, 12)), 40, PRIMARY)
for size, good in ((0, False), (1, True), (1012, True), (1013, False)):
    data = packed((11, 12), (11, 0), size=size)
    if good:
        mended(f"packed-size-{size}", data, PRIMARY, packed((11, 12), (11, 12), size=size), (1, 0, 12))
    else:
        refused(f"packed-size-{size}", data, 40, PRIMARY)
# its marker in the first sector of the table that is written, in its last, and behind it
for at in (7, 10):
    refused(f"packed-at-{at}", packed((0, at), (0, 0), (at, marker(8, 5))), 40, PRIMARY)
BEHIND = 13, marker(8, 5)
mended("packed-at-13", packed((0, 13), (0, 0), BEHIND), PRIMARY, packed((0, 13), (0, 13), BEHIND), (1, 0, 13))

# ---- a footer, which says where the directory is
mended("footer", footed((1, 0), (0, 0)), PRIMARY, footed((1, 0), (1, 0)), (0, 0, 1))
mended("footer-from-redundant", footed((1, 0), (0, 0)), REDUNDANT, footed((0, 0), (0, 0)), (0, 1, 0))
# what the check does not judge, and bytes past the last sector
mended("open", sides((1, 0), (0, 0), dirty=1), PRIMARY, sides((1, 0), (1, 0), dirty=1), (0, 0, 1))
mended("flag-2-and-padding", sides((1, 0), (0, 0), flags=7, padding=9), PRIMARY, sides((1, 0), (1, 0), flags=7, padding=9),
       (0, 0, 1))
mended("past-last-sector", sides((1, 0), (0, 0)) + b"\xff" * 511, PRIMARY, sides((1, 0), (1, 0)) + b"\xff" * 511, (0, 0, 1))
mended("descriptor", sides((1, 0), (0, 0), 13, descriptor=(11, 2)), PRIMARY, sides((1, 0), (1, 0), 13, descriptor=(11, 2)),
       (0, 0, 1))

# ---- room: three words a change, and one word fewer is 21; words past the last change keep what they held
ONE, TWO = sides((1, 0), (0, 0)), sides((1, 0), (0, 1))
for room in range(3):
    refused(f"one-change-room-{room}", ONE, 21, PRIMARY, room)
for room in (3, 4, 5, 96):
    mended(f"one-change-room-{room}", ONE, PRIMARY, sides((1, 0), (1, 0)), (0, 0, 1), room=room)
for room in (0, 3, 5):
    refused(f"two-changes-room-{room}", TWO, 21, REDUNDANT, room)
mended("two-changes-room-7", TWO, REDUNDANT, sides((0, 1), (0, 1)), (0, 1, 0), (1, 0, 1), room=7)
for count, room in ((32, 96), (32, 95), (33, 96)):
    data = sides([1] * count, [0] * count, capacity=8 * count)
    if room >= 3 * count:
        after = sides([1] * count, [1] * count, capacity=8 * count)
        mended(f"{count}-changes-room-{room}", data, PRIMARY, after, *[(grain, 0, 1) for grain in range(count)])
    else:
        refused(f"{count}-changes-room-{room}", data, 21, PRIMARY, room)


def write(folder):
    write_cases(folder, "mends", MENDS.cases, MENDS.lines)


if __name__ == "__main__":
    main(write)
