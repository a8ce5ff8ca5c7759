#!/usr/bin/env python3
"""Writes tests/cases/unmended, which the program `cases` is run on, and what it must print. unmended.py [FOLDER] writes it
below another folder than tests.

Images that are not mended, built byte by byte, with the number that documents 01 and 02 give, written down by hand: each ground
of each number, and what is answered on the other side of its edge. Nothing here reads an image.
"""
from asked import main, write_cases
from images import SECTOR, cowd, entries, image, kdmv, small, stream, zeroed
from mending import PRIMARY, REDUNDANT, Mends, footed, sides

MENDS = Mends()
LABELS = MENDS.labels
mended, refused, refused_40 = MENDS.mended, MENDS.refused, MENDS.refused_40

# ---- the header's numbers come first, whatever the room
for number, place, data in (
        (1, 0, b"KDM"), (2, 0, b"VMDK"), (3, 0, sides((1, 0), (0, 0), version=4)),
        (4, 0, sides((1, 0), (0, 0), newline=b"\n \n\n")), (5, 0, sides((1, 0), (0, 0), flags=13)),
        (6, 0, sides((1, 0), (0, 0), entries=511)), (7, 0, footed((1, 0), (0, 0))[:-SECTOR]),
        (8, 1, sides((1, 0), (0, 0), descriptor=(1, 0)))):
    refused(f"number-{number}", data, number, PRIMARY, place=place)
    refused(f"number-{number}-no-list", data, number, REDUNDANT, 0, place)
refused("no-bytes", b"", 1, PRIMARY)
# COWD is 43 among them (A13): before 3 and 8, whatever the side and the room
refused("cowd-2047", cowd()[:2047], 1, PRIMARY)
refused("cowd-version-2", cowd(version=2), 43, PRIMARY)
refused("cowd-directory-0", image(5, (0, cowd(directory=0))), 43, PRIMARY)
refused("cowd-from-primary", image(5, (0, cowd())), 43, PRIMARY)
refused("cowd-from-redundant", image(5, (0, cowd())), 43, REDUNDANT, 0)
# 8, of each part, and what ends with the file
for name, place, fields in (
        ("descriptor", 1, {"descriptor": (11, 1)}), ("directory-0", 2, {"directory": 0}), ("directory", 2, {"directory": 11}),
        ("redundant-directory", 3, {"head": zeroed(redundant=11)})):
    refused(f"8-{name}", sides((1, 0), (0, 0), **fields), 8, PRIMARY, place=place)
TURNED = (0, zeroed(redundant=6)), (1, entries(7)), (6, entries(2))
refused("8-table", image(11, *TURNED, (1, entries(8))), 8, PRIMARY, place=4)
refused("8-redundant-table", image(11, *TURNED, (6, entries(8))), 8, PRIMARY, place=5)
mended("table-ends-the-file", image(11, *TURNED, (7, entries(1))), PRIMARY,
       image(11, *TURNED, (7, entries(1)), (2, entries(1))), (0, 0, 1))
ENDS = image(3, (0, kdmv(directory=2, redundant=1)))
mended("directory-ends-the-file", ENDS, PRIMARY, ENDS)
# 8 comes before 40: no redundant directory, or one that has other places
refused("8-one-directory", image(6, (0, kdmv(directory=6))), 8, PRIMARY, place=2)
refused("8-other-places", image(11, (0, zeroed(redundant=6)), (1, entries(8))), 8, PRIMARY, place=4)

# ---- 40: no redundant directory
refused_40("one-directory", small(8, 0))
refused_40("one-directory-and-footer", stream())
refused_40("one-directory-refused", small(8, 8))
# 0, 1 and tables in other places; alike they are no ground
for one, other in ((0, 7), (2, 0), (1, 7), (2, 1), (0, 1), (1, 0)):
    refused_40(f"places-{one}-and-{other}", image(11, (0, zeroed(redundant=6)), (1, entries(one)), (6, entries(other))))
for one in (0, 1):
    data = image(11, (0, zeroed(redundant=6)), (1, entries(one)), (6, entries(one)))
    mended(f"places-{one}-and-{one}", data, PRIMARY, data)
for one, other in ((0, 1), (1, 0)):
    data = image(11, (0, kdmv(directory=5, redundant=6)), (5, entries(one)), (6, entries(other)))
    refused_40(f"sectors-{one}-and-{other}", data)


# two areas meet: directories at 10 and 11, tables at 12 and 16, nothing in them
def placed(directory=10, copy=11, table=12, second=16):
    return image(24, (0, kdmv(directory=directory, redundant=copy)), (directory, entries(table)), (copy, entries(second)))


for name, fields in (
        ("table-on-directory", {"table": 7}), ("table-on-redundant-directory", {"table": 11}),
        ("table-on-redundant-table", {"table": 19}), ("table-named-twice", {"table": 16}),
        ("redundant-table-on-directory", {"second": 7}), ("redundant-table-on-both-directories", {"second": 8}),
        ("redundant-table-on-table", {"second": 15}), ("redundant-directory-on-table", {"copy": 15}),
        ("directory-on-redundant-table", {"directory": 19})):
    refused_40(name, placed(**fields))
refused_40("redundant-directory-on-directory", placed(copy=10, table=16))
for name, fields in (
        ("table-before-directory", {"table": 6}), ("table-behind-redundant-table", {"table": 20}),
        ("redundant-table-before-directory", {"second": 6}), ("redundant-directory-before-directory", {"copy": 9}),
        ("directory-behind-redundant-table", {"directory": 20})):
    mended(name, placed(**fields), PRIMARY, placed(**fields))
# the table at 7 ends before the footer, that at 8 with it
mended("table-before-footer", footed((0, 0), (0, 0), (2, 7)), PRIMARY, footed((0, 0), (0, 0), (2, 7)))
refused_40("redundant-table-on-footer", footed((), (), (2, 8)))
refused_40("table-on-footer", footed((), (), (8, 2)))


# a table on both directories, whose entries in it would come to name empty tables: the image would be accepted after it
def on_directories(table, *parts):
    return image(32, (0, kdmv(129 * 8, directory=4, redundant=5)), (4, entries(12)), (5, entries(table)), (12, entries(16)),
                 (13, entries(24)), *parts)


refused_40("table-on-directories-accepted-after", on_directories(4))
mended("table-beside-directories", on_directories(8), PRIMARY, on_directories(8, (8, entries(16)), (9, entries(24))),
       (0, 0, 16), (128, 0, 24))

# ---- 40: the image would be refused after it. A grain past F; on another one; in either table, a directory, and beside them
mended("last-sectors", sides((12, 0), (0, 0), 20), PRIMARY, sides((12, 0), (12, 0), 20), (0, 0, 12))
refused("9-after", sides((12, 0), (0, 0), 19), 40, PRIMARY)
mended("9-before", sides((12, 0), (11, 0), 19), REDUNDANT, sides((11, 0), (11, 0), 19), (0, 12, 11))
refused("grain-on-grain", sides((11, 18), (11, 0), 26), 40, PRIMARY)
mended("grain-beside-grain", sides((11, 19), (11, 0), 27), PRIMARY, sides((11, 19), (11, 19), 27), (1, 0, 19))
mended("grain-on-grain-before", sides((11, 18), (11, 0), 26), REDUNDANT, sides((11, 0), (11, 0), 26), (1, 18, 0))
for name, at in (("redundant-table", 10), ("redundant-directory", 6), ("table", 5)):
    refused(f"grain-on-{name}", sides((at, 0), (0, 0), 19), 40, PRIMARY)
    refused(f"grain-on-{name}-from-redundant", sides((0, 0), (at, 0), 19), 40, REDUNDANT)
# descriptor and last sector count here too
mended("descriptor-behind-table", sides((1, 0), (0, 0), 12, descriptor=(11, 1)), PRIMARY,
       sides((1, 0), (1, 0), 12, descriptor=(11, 1)), (0, 0, 1))
refused_40("descriptor-on-redundant-table", sides((1, 0), (0, 0), 12, descriptor=(10, 1)))
refused_40("descriptor-on-table", sides((1, 0), (0, 0), 12, descriptor=(5, 1)))
refused_40("descriptor-on-last-sector", footed((1, 0), (0, 0), descriptor=(12, 1)))
refused_40("redundant-directory-on-last-sector", footed((), (), (0, 0), copy=12))
# the footer's first four bytes are the sector of a table past F
refused("redundant-directory-on-footer", footed((), (), (0, 0), copy=11), 8, PRIMARY, place=5)
mended("redundant-directory-before-footer", footed((), (), (0, 0), copy=10), PRIMARY, footed((), (), (0, 0), copy=10))
# alike, and yet refused; a fault on each side
refused_40("alike-9", sides((12, 0), (12, 0), 19))
refused_40("alike-12", sides((11, 11), (11, 11), 19))
refused_40("fault-on-each-side", sides((12, 0), (0, 12), 19))
# 40 comes before 21
for room in (0, 2, 3):
    refused(f"9-after-room-{room}", sides((12, 0), (0, 0), 19), 40, PRIMARY, room)


def write(folder):
    write_cases(folder, "unmended", MENDS.cases, MENDS.lines)


if __name__ == "__main__":
    main(write)
