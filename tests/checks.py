#!/usr/bin/env python3
"""Writes the inputs that the program `vmdk_check` is run on, and the line that it must print for each: tests/checks/NAME and
NAME.line. checks.py [FOLDER] writes them below another folder than tests.

Each verdict is document 01's with requests A2, A8 and A13, written down by hand: a case at least for each refusal number that
the program can give, both sides of each edge.
"""
from asked import main
from images import (ALL_ONES, FOOTER, PACKED, STREAM, STREAMED, ZEROED, at_one, cowd, entries, image, kdmv, marker, outside,
                    small, stream, stream_at_one, streamed, table_at_one, zeroed)

CASES = {}


def case(name, data, line):
    assert name not in CASES
    CASES[name] = (data, line)


def accepted(name, data, capacity=16, size=8):
    case(name, data, f"accepted {capacity} {size}")


def refused(name, data, number, place=0):
    case(name, data, f"refused {number} {place}")


# ---- headers
refused("empty", b"", 1)
refused("three-bytes", b"KDM", 1)
refused("kdmv-511", kdmv()[:511], 1)
refused("other-magic", b"VMDK" + bytes(4092), 2)
refused("version-0", small(0, 0, head=kdmv(version=0)), 3)
accepted("version-3", small(0, 0, head=kdmv(version=3)))
refused("version-before-newline", small(0, 0, head=kdmv(version=0, newline=b"\r \n\n")), 3)
refused("version-4", small(0, 0, head=kdmv(version=4)), 3)
refused("newline", small(0, 0, head=kdmv(newline=b"\r \n\n")), 4)
accepted("newline-not-tested", small(0, 0, head=kdmv(newline=b"\r \n\n", flags=0)))
refused("newline-before-flags", small(0, 0, head=kdmv(newline=b"\r \n\n", flags=9)), 4)
refused("flag-8", small(0, 0, head=kdmv(flags=9)), 5)
refused("compression-unflagged", small(0, 0, head=kdmv(compression=1)), 5)
refused("markers-alone", small(0, 0, head=kdmv(flags=0x20001)), 5)
refused("redundant-missing", small(0, 0, head=kdmv(flags=3)), 5)
refused("end-without-markers", small(0, 0, head=kdmv(directory=ALL_ONES)), 5)
refused("flags-before-sizes", small(0, 0, head=kdmv(0, flags=9)), 5)
refused("capacity-0", small(0, 0, head=kdmv(0)), 6)
accepted("capacity-1", small(8, head=kdmv(1)), 1)
accepted("capacity-most", image(17, (0, kdmv(2**31, 2048))), 2**31, 2048)
refused("capacity-high", small(0, 0, head=kdmv(2**31 + 1)), 6)
for size in (4, 12, 4096):
    refused(f"grain-size-{size}", small(0, 0, head=kdmv(size=size)), 6)
refused("entries-511", small(0, 0, head=kdmv(entries=511)), 6)
accepted("not-judged", small(8, 0, head=kdmv(overhead=2**64 - 1, dirty=1, padding=255)))
accepted("stream", stream())
refused("sizes-before-footer", stream(head=kdmv(0, directory=ALL_ONES, **STREAMED)), 6)
refused("stream-cut", stream()[:-1], 7)
refused("stream-last-byte", stream(last=bytes(511) + b"\1"), 7)
refused("stream-footer-byte", stream(footer=FOOTER[:511] + b"\1"), 7)
refused("stream-again", stream(footer=STREAM), 7)
refused("footer-before-places", stream(footer=FOOTER[:56] + bytes(8) + FOOTER[64:], last=b"\1"), 7)

# ---- COWD: 43, after 1 and 2, before 3 and whatever else it has; its own rules are the moves'
refused("cowd", image(64, (0, cowd(16, 8)), (4, entries(5)), (5, entries(48, 56))), 43)
refused("cowd-magic-alone", b"COWD", 1)
refused("cowd-2047", cowd()[:2047], 1)
refused("cowd-2048", cowd(), 43)
refused("cowd-magic-but-a-bit", b"COWE" + cowd()[4:], 2)
refused("cowd-magic-and-zeros", b"COWD" + bytes(2044), 43)
refused("cowd-version-2", image(37, (0, cowd(version=2)), (4, entries(5))), 43)
refused("cowd-count-low", image(64, (0, cowd(4097, 1, count=1))), 43)
refused("cowd-directory-0", image(37, (0, cowd(directory=0))), 43)
refused("cowd-grain-past", image(64, (0, cowd()), (4, entries(5)), (5, entries(48, 57))), 43)
refused("cowd-grain-on-header", image(64, (0, cowd(4, 1)), (4, entries(5)), (5, entries(1))), 43)
refused("cowd-full-buffer", image(128, (0, cowd())), 43)
refused("cowd-over-full", image(128, (0, cowd()), extra=1), 37)

# ---- 8
refused("descriptor-no-sector", small(0, 0, head=kdmv(descriptor=(0, 1))), 8, 1)
refused("descriptor-no-size", small(0, 0, head=kdmv(descriptor=(6, 0))), 8, 1)
accepted("descriptor-at-end", small(0, 0, head=kdmv(descriptor=(6, 10))))
refused("descriptor-past", small(0, 0, head=kdmv(descriptor=(6, 11))), 8, 1)
refused("descriptor-wraps", small(0, 0, head=kdmv(descriptor=(2**64 - 1, 2))), 8, 1)
refused("directory-0", small(0, 0, head=kdmv(directory=0)), 8, 2)
refused("directory-past", small(0, 0, head=kdmv(directory=16)), 8, 2)
refused("directory-wraps", small(0, 0, head=kdmv(directory=2**64 - 2)), 8, 2)
# n is 128, 129 and 127: 128 entries fill a sector
accepted("directory-one-sector", image(2, (0, kdmv(128 * 512 * 8))), 128 * 512 * 8)
refused("directory-two-sectors", image(2, (0, kdmv(128 * 512 * 8 + 1))), 8, 2)
refused("directory-entry-127", image(2, (0, kdmv(8323072, 128)), (1, entries(*[0] * 126, 99))), 8, 4)
accepted("directory-entry-128", image(2, (0, kdmv(8323072, 128)), (1, entries(*[0] * 127, 99))), 8323072, 128)
refused("redundant-past", small(0, 0, head=kdmv(redundant=16)), 8, 3)
accepted("table-at-end", image(6, (0, kdmv()), (1, entries(2))))
refused("table-past", image(6, (0, kdmv()), (1, entries(3))), 8, 4)
refused("redundant-table-past", image(16, (0, kdmv(redundant=6)), (1, entries(2)), (6, entries(13))), 8, 5)
accepted("directory-entry-1", image(2, (0, zeroed()), (1, entries(1))))

refused("places-before-grains", small(9, 0, head=kdmv(descriptor=(6, 11))), 8, 1)

# the lowest part that applies (A8): all five, then mended one after the other
refused("places-all-five", outside(1, 2, 3, 4, 5), 8, 1)
refused("places-descriptor-mended", outside(2, 3, 4, 5), 8, 2)
refused("places-directory-mended", outside(3, 4, 5), 8, 3)
refused("places-redundant-directory-mended", outside(4, 5), 8, 4)
refused("places-table-mended", outside(5), 8, 5)
accepted("places-all-mended", outside())
# one number of the descriptor zero is the descriptor's, sector 0 the directory's
refused("places-no-sector-before-directory-0", outside(1, 2, descriptor=(0, 1), directory=0), 8, 1)
refused("places-no-size-before-directory-0", outside(1, 2, descriptor=(1, 0), directory=0), 8, 1)
accepted("places-no-descriptor", outside(1, descriptor=(0, 0)))
refused("places-directory-0-before-redundant", outside(2, 3, directory=0), 8, 2)

# ---- 9 and 10
accepted("grain-at-end", small(8, 0))
refused("grain-past", small(9, 0), 9)
refused("grain-past-second", small(8, 16), 9, 1)
refused("grains-past-lowest", small(16, 17), 9, 0)
refused("grain-past-in-last", small(0, 8, head=kdmv(capacity=9), sectors=15), 9, 1)
accepted("packed", image(7, (0, PACKED), (1, entries(2)), (2, entries(6, 0)), (6, marker(0, 500))))
refused("packed-past", image(7, (0, PACKED), (1, entries(2)), (2, entries(6, 0)), (6, marker(0, 501))), 9)
refused("packed-marker-past", image(7, (0, PACKED), (1, entries(2)), (2, entries(0, 7))), 9, 1)
refused("packed-empty", image(7, (0, PACKED), (1, entries(2)), (2, entries(6, 0)), (6, marker(0, 0))), 10)
refused("packed-other-grain", image(7, (0, PACKED), (1, entries(2)), (2, entries(0, 6)), (6, marker(0, 5))), 10, 1)
refused("markers-lowest", image(8, (0, PACKED), (1, entries(2)), (2, entries(6, 7)), (6, marker(1, 5)), (7, marker(8, 0))), 10)
refused("past-before-marker", image(7, (0, PACKED), (1, entries(2)), (2, entries(6, 7)), (6, marker(9, 5))), 9, 1)
refused("marker-before-copies",
        image(13, (0, kdmv(flags=0x10001, compression=1, redundant=6)), (1, entries(2)), (2, entries(11, 0)), (6, entries(7)),
              (7, entries(12, 0)), (11, marker(0, 0))), 10)


# ---- 11
def copied(primary, copy, directory=entries(2), redundant=entries(7)):
    return image(25, (0, zeroed(redundant=6)), (1, directory), (2, primary), (6, redundant), (7, copy))


accepted("copies", copied(entries(16, 1), entries(16, 1)))
refused("copies-differ", copied(entries(16, 1), entries(16, 0)), 11)
refused("copies-differ-past-zero", copied(entries(0, 16), entries(0, 17)), 11)
accepted("copies-differ-unused", copied(entries(16, 1, 5), entries(16, 1, 6)))
refused("copies-zero-and-absent", copied(b"", b"", entries(1), entries(0)), 11)
refused("copies-table-and-zero", copied(entries(0, 0), b"", entries(2), entries(1)), 11)
accepted("copies-both-zero", copied(b"", b"", entries(1), entries(1)))
refused("copies-before-overlap", copied(entries(16, 16), entries(16, 17)), 11)

# ---- 12
refused("two-grains-on-one", small(8, 8), 12)
refused("grains-overlap", small(8, 15, sectors=23), 12)
accepted("grains-touch", small(8, 16, sectors=24))
refused("grain-on-table", small(4, 0), 12)
refused("table-twice", image(16, (0, kdmv(8192 * 8, 8)), (1, entries(2, 2))), 12)
refused("redundant-is-primary", small(0, 0, head=kdmv(redundant=1)), 12)
refused("redundant-table-is-primary", copied(entries(16, 1), b"", redundant=entries(2)), 12)
refused("descriptor-on-directory", small(0, 0, head=kdmv(descriptor=(1, 1))), 12)
refused("descriptor-on-grain", small(8, 0, head=kdmv(descriptor=(15, 1))), 12)
refused("footer-shared", streamed(descriptor=(7, 1)), 12)
refused("last-sector-shared", streamed(descriptor=(8, 1)), 12)
accepted("unused-entry", small(8, 0, 2**32 - 1))

# ---- an entry of 1 in KDMV: zeros in version 2 and 3 with flag 0x4, else a sector like any other
# in a table: a grain of sectors 1 to 8, which end with the file, a sector past it, before the directory or in it
refused("entry-1-on-directory", small(1, 0, sectors=9), 12)
refused("entry-1-past", small(1, 0, sectors=8), 9)
accepted("entry-1-free", at_one(b"", 1, 0))
refused("entry-1-on-directory-alone", at_one(b"", 1, 0, directory=8), 12)
# in a directory: a table of sectors 1 to 4
accepted("directory-entry-1-free", table_at_one(0, 0))
refused("directory-entry-1-past", image(4, (0, kdmv(directory=3)), (3, entries(1))), 8, 4)
refused("directory-entry-1-on-directory", image(5, (0, kdmv(directory=4)), (4, entries(1))), 12)
accepted("directory-entry-1-unused", image(2, (0, kdmv(4096)), (1, entries(0, 1))), 4096)
# the directory is its own table; that begins with 1 too, and sectors 1 to 8 are a grain
refused("directory-entry-1-itself", image(9, (0, kdmv()), (1, entries(1))), 12)
# by version and flag 0x4, in files without room for a grain or a table at sector 1
for version in (2, 3):
    refused(f"entry-1-version-{version}", small(0, 1, head=kdmv(version=version), sectors=6), 9, 1)
    refused(f"directory-entry-1-version-{version}", image(2, (0, kdmv(version=version)), (1, entries(1))), 8, 4)
    accepted(f"entry-1-zeroed-{version}", small(0, 1, head=zeroed(version=version), sectors=6))
accepted("directory-entry-1-zeroed-3", image(2, (0, zeroed(version=3)), (1, entries(1))))
accepted("directory-entry-1-flag-4-alone", image(2, (0, zeroed(flags=4)), (1, entries(1))))
refused("directory-entry-1-flags-0", image(2, (0, kdmv(version=2, flags=0)), (1, entries(1))), 8, 4)

# ---- flag 0x4 in version 1: 5, after 3 and 4, before 6 and 7
refused("flag-4-version-1", small(0, 1, head=zeroed(version=1), sectors=6), 5)
refused("flag-4-alone-version-1", kdmv(flags=4), 5)
refused("flags-7-version-1", kdmv(flags=7, redundant=6), 5)
refused("flags-10005-version-1", kdmv(flags=0x10005, compression=1), 5)
refused("flag-4-version-0", zeroed(version=0), 3)
refused("flag-4-version-4", zeroed(version=4), 3)
refused("newline-before-flag-4", kdmv(flags=5, newline=b"\r \n\n"), 4)
refused("flag-4-before-sizes", kdmv(0, flags=5), 5)
refused("flag-4-before-footer", kdmv(flags=0x30005, compression=1, directory=ALL_ONES), 5)

# ---- packed grains and streams, where an entry is 1
LOW = {"directory": 2, "flags": 0x10001, "compression": 1}
accepted("packed-at-1", at_one(marker(0, 500), 1, 0, **LOW))
refused("packed-at-1-on-directory", at_one(marker(0, 501), 1, 0, **LOW), 12)
# the directory is no marker
refused("packed-entry-1", image(6, (0, PACKED), (1, entries(2)), (2, entries(0, 1))), 10, 1)
accepted("packed-entry-1-zeroed",
         image(6, (0, kdmv(version=3, flags=0x10005, compression=1)), (1, entries(2)), (2, entries(0, 1))))
refused("stream-without-flag-4", streamed(flags=0x30001), 10, 1)
accepted("stream-at-1", stream_at_one(version=1, flags=0x30001))


# ---- 11, by what an entry of 1 means
def doubled(directory, redundant, *parts, sectors=7, at=5, **fields):
    """Each directory has one entry; tables are all absent but for the parts."""
    return image(sectors, (0, kdmv(directory=at, redundant=at + 1, **fields)), (at, entries(directory)),
                 (at + 1, entries(redundant)), *parts)


accepted("copies-at-1", doubled(1, 7, sectors=11))
refused("copies-at-1-differ", doubled(1, 7, (7, entries(0, 9)), sectors=11), 11)
refused("copies-at-1-and-absent", doubled(1, 0), 11)
# two tables, alike, that share sectors; two that differ; zeros and a table
refused("copies-at-1-and-2", doubled(1, 2), 12)
refused("copies-at-1-and-2-differ", doubled(1, 2, (2, entries(0, 9))), 11)
refused("copies-zero-and-2", doubled(1, 2, **ZEROED), 11)
# one table in both; zeros in both
refused("copies-both-at-1", doubled(1, 1), 12)
accepted("copies-both-zero-flags-7", doubled(1, 1, version=3, flags=7))
# zeros, and a table of zeros
refused("copies-zero-and-zeros", doubled(1, 3, (3, entries(1, 1)), at=1, **ZEROED), 11)


# ---- entries are compared two and sixteen at a time, and blocks of zeros passed over (A3): both sides of each edge
def unlike_at(entry, used):
    """Two tables of entries that are 0, but for one entry of the redundant one. So many are in use."""
    return image(11, (0, kdmv(8 * used, redundant=6)), (1, entries(2)), (6, entries(7)), (7, entries(*[0] * entry, 9)))


for used in (1, 2, 3, 15, 16, 17, 18, 33, 512):
    refused(f"copies-last-of-{used}", unlike_at(used - 1, used), 11)
for used in (1, 2, 3, 15, 16, 17, 18, 33, 511):
    accepted(f"copies-past-{used}", unlike_at(used, used), 8 * used)
refused("copies-last-of-515", image(20, (0, kdmv(8 * 515, redundant=10)), (1, entries(2, 6)), (10, entries(11, 15)),
                                    (15, entries(0, 0, 9))), 11)
accepted("copies-past-515", image(20, (0, kdmv(8 * 515, redundant=10)), (1, entries(2, 6)), (10, entries(11, 15)),
                                  (15, entries(0, 0, 0, 9))), 8 * 515)
for grain in (0, 1, 15, 16, 17, 31, 32, 511):
    refused(f"grain-{grain}-past", image(6, (0, kdmv(4096)), (1, entries(2)), (2, entries(*[0] * grain, 6))), 9, grain)
for grain in (15, 16, 17, 32):
    tables = entries(*[0] * grain, 6, *[0] * (510 - grain), 6)
    refused(f"grains-{grain}-and-511-on-one", image(14, (0, kdmv(4096)), (1, entries(2)), (2, tables)), 12)
    accepted(f"grain-{grain}-alone", image(14, (0, kdmv(4096)), (1, entries(2)), (2, entries(*[0] * grain, 6))), 4096)

# ---- lengths
accepted("last-sector-cut", small(8, 0) + bytes(511))
accepted("past-last-sector", small(8, 0) + b"\xff" * 511)
accepted("empty-disk", image(6, (0, kdmv(200, 128)), (1, entries(2))), 200, 128)
accepted("full-buffer", small(8, 0, sectors=128))
refused("over-full", small(8, 0, sectors=128) + b"\0", 37)


def write(folder):
    folder = folder / "checks"
    folder.mkdir(exist_ok=True)
    for old in folder.iterdir():
        old.unlink()
    for name, (data, line) in CASES.items():
        (folder / name).write_bytes(data)
        (folder / f"{name}.line").write_text(line + "\n")
    print(f"{len(CASES)} inputs, {sum(len(d) for d, _ in CASES.values())} bytes")


if __name__ == "__main__":
    main(write)
