#!/usr/bin/env python3
"""Writes tests/cases/sectors, which the program `cases` is run on, and what it must print. sectors.py [FOLDER] writes it below
another folder than tests.

Each case has a label, an image or a chain, built byte by byte, and sectors with the answer that document 01, with requests A2,
A8 and A13, gives for each, written down by hand: both sides of each edge. Nothing here reads an image but for the bytes that an
answer names.
"""
import struct

from asked import CHAIN, LOOKUPS, case, digest, label, line, main, write_cases
from images import (ALL_ONES, FOOTER, PACKED, SECTOR, STREAM, at_one, cowd, entries, image, kdmv, marker, small, stream,
                    streamed, table_at_one, zeroed)


# ---- answers: number, layer, place, kind, sector, size, offset
def refused(number, place=0, layer=0):
    return (number, layer, place, 0, 0, 0, 0)


def absent(layer=0):
    return (0, layer, 0, 0, 0, 0, 0)


def zero(layer=0):
    return (0, layer, 0, 1, 0, 0, 0)


def stored(sector, layer=0):
    return (0, layer, 0, 2, sector, 0, 0)


def packed(sector, size, offset, layer=0):
    return (0, layer, 0, 3, sector, size, offset)


def bytes_read(data, answer):
    """What the grain reader hands back: a stored sector, or a packed grain's payload after the marker."""
    number, _, _, kind, sector, size, _ = answer
    start, length = {2: (0, SECTOR), 3: (12, size)}.get(kind, (0, 0))
    return b"" if number else data[sector * SECTOR + start:][:length]


CASES, LINES, LABELS = [], [], []


def lookups(name, data, *asked):
    label(LABELS, name)
    CASES.append(case(LOOKUPS, data, [sector for sector, _ in asked]))
    for _, answer in asked:
        part = bytes_read(data, answer)
        LINES.extend([line("lookup", *answer), line("read", len(part), digest(part))])


def chain(name, layers, *asked, lengths=None):
    label(LABELS, name)
    lengths = [len(s) for s in layers] if lengths is None else lengths
    CASES.append(case(CHAIN, b"".join(layers), [sector for sector, _ in asked], lengths))
    LINES.extend(line("chain", *answer) for _, answer in asked)


def numbered(sectors):
    """Sectors numbered from 1, no two alike: it shows which one was read."""
    return b"".join(struct.pack("<Q", n) * 64 for n in range(1, sectors + 1))


# ---- the lookup
# document 01's example, source 000's sample
lookups("sample-of-000",
        image(384, (0, kdmv(8192, 128, 26)), (26, entries(27)), (27, entries(128, 0, 256)), (128, numbered(256))),
        (0, stored(128)), (2, stored(130)), (127, stored(255)), (128, absent()), (255, absent()), (256, stored(256)),
        (383, stored(383)), (384, absent()), (8191, absent()), (8192, refused(20)), (ALL_ONES, refused(20)))
# entry 1 is zeros in version 2 or 3 with flag 0x4, in tables and directories
lookups("table-entry-1", small(1, 8, head=zeroed()), (0, zero()), (7, zero()), (8, stored(8)), (15, stored(15)),
        (16, refused(20)))
lookups("directory-entry-1", image(2, (0, zeroed()), (1, entries(1))), (0, zero()), (15, zero()))
lookups("directory-entry-0", image(16, (0, kdmv())), (0, absent()), (15, absent()))
# grain g uses directory entry g / 512 and table entry g mod 512; the primary directory's
lookups("second-table", image(26, (0, kdmv(4104)), (1, entries(2, 6)), (2, entries(*[0] * 511, 10)), (6, entries(18))),
        (4087, absent()), (4088, stored(10)), (4095, stored(17)), (4096, stored(18)), (4103, stored(25)), (4104, refused(20)))
lookups("primary-directory",
        image(25, (0, zeroed(redundant=6)), (1, entries(2)), (2, entries(16, 1)), (6, entries(7)), (7, entries(17, 0))),
        (0, stored(16)), (8, zero()))
# 1 and 2
lookups("no-bytes", b"", (0, refused(1)))
lookups("three-bytes", b"KDM", (0, refused(1)))
lookups("four-other-bytes", b"abcd", (0, refused(2)))
lookups("kdmv-511", kdmv()[:511], (0, refused(1)))
lookups("cowd-2047", cowd()[:2047], (0, refused(1)))
lookups("other-magic", b"VMDK" + bytes(2044), (0, refused(2)))
# 43 is COWD's: after 1, before 3, 20, 8 and 9 (A13)
OLD = image(45, (0, cowd()), (4, entries(5)), (5, entries(37, 38)))
lookups("cowd", OLD, (0, refused(43)), (7, refused(43)), (8, refused(43)), (16, refused(43)), (ALL_ONES, refused(43)))
lookups("cowd-2048", cowd(), (0, refused(43)))
lookups("cowd-version-2", image(64, (0, cowd(version=2))), (0, refused(43)))
lookups("cowd-directory-past", image(16, (0, cowd(count=1537))), (0, refused(43)), (16, refused(43)))
# 3
for version, number in ((0, 3), (1, 0), (2, 0), (3, 0), (4, 3)):
    lookups(f"version-{version}", small(0, 0, head=kdmv(version=version)), (0, refused(3) if number else absent()))
# 4: newline bytes count only with flag 0x1
lookups("newline", small(0, 0, head=kdmv(newline=b"\n \n\n")), (0, refused(4)))
lookups("newline-not-tested", small(0, 0, head=kdmv(newline=b"\n \n\n", flags=0)), (0, absent()))
# 5
for flags in (0x8, 0x8001, 0x40001, 0x80000001):
    lookups(f"flags-{flags:x}", small(0, 0, head=kdmv(flags=flags)), (0, refused(5)))
lookups("flags-30007", small(0, 0, head=kdmv(version=3, flags=0x30007, compression=1, redundant=9), sectors=6), (0, absent()))
lookups("compression-unflagged", small(0, 0, head=kdmv(compression=1)), (0, refused(5)))
lookups("compression-2", small(0, 0, head=kdmv(compression=2)), (0, refused(5)))
lookups("compressed-compression-0", small(0, 0, head=kdmv(flags=0x10001)), (0, refused(5)))
lookups("markers-alone", small(0, 0, head=kdmv(flags=0x20001)), (0, refused(5)))
lookups("redundant-missing", small(0, 0, head=kdmv(flags=3)), (0, refused(5)))
lookups("redundant-there", small(0, 0, head=kdmv(flags=3, redundant=9)), (0, absent()))
lookups("end-without-markers", small(0, 0, head=kdmv(directory=ALL_ONES)), (0, refused(5)))
lookups("redundant-past", small(0, 0, head=zeroed(flags=7, redundant=2**64 - 1), sectors=6), (0, absent()))
# 6
for capacity in (0, 2**31 + 1, 2**63):
    lookups(f"capacity-{capacity}", small(0, 0, head=kdmv(capacity)), (0, refused(6)))
for size in (0, 4, 7, 12, 2047, 4096, 2**63):
    lookups(f"grain-size-{size}", small(0, 0, head=kdmv(size=size)), (0, refused(6)))
for count in (511, 513):
    lookups(f"entries-{count}", small(0, 0, head=kdmv(entries=count)), (0, refused(6)))
# 8: directory sector 0; the directory or the table one sector past F; sums that would wrap
lookups("directory-0", small(8, 0, head=kdmv(directory=0)), (0, refused(8, 2)))
lookups("directory-at-end", small(8, 0, head=kdmv(directory=15)), (0, absent()))
lookups("directory-past", small(8, 0, head=kdmv(directory=16)), (0, refused(8, 2)))
lookups("directory-wraps", small(8, 0, head=kdmv(directory=2**64 - 2, flags=1)), (0, refused(8, 2)))
lookups("table-at-end", image(6, (0, kdmv()), (1, entries(2))), (0, absent()))
lookups("table-past-cut", image(5, (0, kdmv()), (1, entries(2)), extra=511), (0, refused(8, 4)))
lookups("table-far", image(16, (0, kdmv()), (1, entries(2**32 - 1))), (0, refused(8, 4)))
lookups("other-table-past", image(6, (0, kdmv(4104)), (1, entries(2, 3))), (0, absent()), (4096, refused(8, 4)))
# what the lookup does not judge: the descriptor, the redundant directory (above), grains that share a sector, bytes past F
lookups("descriptor-past", small(8, 0, head=kdmv(descriptor=(6, 11))), (0, stored(8)))
lookups("two-grains-on-one", small(8, 8), (0, stored(8)), (8, stored(8)))
lookups("grains-overlap", small(8, 15, sectors=23), (7, stored(15)), (8, stored(15)))
lookups("past-last-sector", small(8, 0) + b"\xff" * 511, (0, stored(8)), (7, stored(15)), (8, absent()))
# the order: 1 to 7, 20, 8, 9, 10
lookups("header-before-20", small(0, 0, head=kdmv(version=0)), (16, refused(3)))
lookups("20-before-8", small(0, 0, head=kdmv(directory=0)), (15, refused(8, 2)), (16, refused(20)))
# 9: a grain one sector past F, also where capacity ends inside it
lookups("grain-at-end", small(8, 0), (0, stored(8)), (7, stored(15)))
lookups("other-grain-past", small(9, 8), (0, refused(9, 0)), (8, stored(8)))
lookups("grain-past-second", small(8, 9), (15, refused(9, 1)))
lookups("grain-past-in-last", small(0, 8, head=kdmv(capacity=9), sectors=15), (8, refused(9, 1)), (9, refused(20)))
lookups("grain-far", small(2**32 - 1, 0), (0, refused(9, 0)))
lookups("grain-past-cut", small(8, 8)[:-1], (0, refused(9, 0)))
# 10, and packed grains
lookups("packed", image(7, (0, PACKED), (1, entries(2)), (2, entries(6, 0)), (6, marker(0, 500) + numbered(1)[:500])),
        (0, packed(6, 500, 0)), (7, packed(6, 500, 7)))
lookups("packed-past", image(7, (0, PACKED), (1, entries(2)), (2, entries(6, 0)), (6, marker(0, 501))), (0, refused(9, 0)))
lookups("packed-two-sectors", image(8, (0, PACKED), (1, entries(2)), (2, entries(6, 0)), (6, marker(0, 501))),
        (3, packed(6, 501, 3)))
lookups("packed-empty", image(7, (0, PACKED), (1, entries(2)), (2, entries(6, 0)), (6, marker(0, 0))), (0, refused(10, 0)))
lookups("packed-first-1", image(7, (0, PACKED), (1, entries(2)), (2, entries(6, 0)), (6, marker(1, 5))), (0, refused(10, 0)))
lookups("packed-second", image(7, (0, PACKED), (1, entries(2)), (2, entries(0, 6)), (6, marker(8, 5))), (8, packed(6, 5, 0)))
lookups("packed-other-grain", image(7, (0, PACKED), (1, entries(2)), (2, entries(0, 6)), (6, marker(0, 5))),
        (8, refused(10, 1)))
lookups("packed-marker-past", image(7, (0, PACKED), (1, entries(2)), (2, entries(7, 0))), (0, refused(9, 0)))
lookups("packed-marker-cut", image(7, (0, PACKED), (1, entries(2)), (2, entries(7, 0))) + marker(0, 5).ljust(511, b"\0"),
        (0, refused(9, 0)))
lookups("9-before-10", image(7, (0, PACKED), (1, entries(2)), (2, entries(6, 0)), (6, marker(1, 501))), (0, refused(9, 0)))
# 7: the footer
lookups("stream", stream(), (0, packed(6, 5, 0)), (8, zero()), (16, refused(20)))
lookups("stream-odd-length", stream(extra=1), (0, refused(7)))
lookups("stream-last-byte", stream(last=bytes(511) + b"\1"), (0, refused(7)))
lookups("stream-last-sector", stream(last=b"\1"), (0, refused(7)))
lookups("stream-again", stream(footer=STREAM), (0, refused(7)))
for at in (511, 55, 64):
    lookups(f"stream-footer-byte-{at}", stream(footer=FOOTER[:at] + b"\1" + FOOTER[at + 1:]), (0, refused(7)))
lookups("stream-directory-0", stream(footer=FOOTER[:56] + bytes(8) + FOOTER[64:]), (0, refused(8, 2)))
lookups("stream-3-sectors", image(3, (0, STREAM), (1, FOOTER)), (0, refused(7)))
lookups("stream-4-sectors", image(4, (0, STREAM), (2, FOOTER)), (0, absent()))

# ---- an entry of 1 that is a sector: version 1, or no flag 0x4
lookups("entry-1-free", at_one(numbered(8), 1, 0), (0, stored(1)), (1, stored(2)), (7, stored(8)), (8, absent()))
# the lookup does not judge that the directory stands there
lookups("entry-1-on-directory", small(0, 1, sectors=9), (7, absent()), (8, stored(1)), (15, stored(8)), (16, refused(20)))
lookups("entry-1-past", small(1, 0, sectors=8), (0, refused(9, 0)), (7, refused(9, 0)), (8, absent()))
for version in (2, 3):
    lookups(f"entry-1-version-{version}", small(1, 0, head=kdmv(version=version), sectors=9), (0, stored(1)), (8, absent()))
lookups("entry-1-zeroed-3", small(1, 0, head=zeroed(version=3), sectors=6), (0, zero()), (8, absent()))
# a directory's entry of 1 is a table's sector
lookups("table-at-1", table_at_one(6, 0, sectors=14), (0, stored(6)), (7, stored(13)), (8, absent()))
lookups("table-at-1-past", image(4, (0, kdmv(directory=3)), (3, entries(1))), (0, refused(8, 4)), (15, refused(8, 4)))
lookups("table-at-1-at-end", image(5, (0, kdmv(directory=3)), (3, entries(1))), (0, absent()), (15, absent()))
for version in (2, 3):
    lookups(f"directory-entry-1-version-{version}", image(2, (0, kdmv(version=version)), (1, entries(1))), (0, refused(8, 4)))
lookups("directory-entry-1-zeroed-3", image(2, (0, zeroed(version=3)), (1, entries(1))), (0, zero()), (15, zero()))
lookups("directory-entry-1-flag-4-alone", image(2, (0, zeroed(flags=4)), (1, entries(1))), (0, zero()), (15, zero()))
# packed: the marker stands at sector 1
lookups("packed-at-1", at_one(marker(0, 500) + numbered(1)[:500], 1, 0, directory=2, flags=0x10001, compression=1),
        (0, packed(1, 500, 0)), (7, packed(1, 500, 7)), (8, absent()))
lookups("stream-without-flag-4", streamed(flags=0x30001), (0, packed(6, 5, 0)), (8, refused(10, 1)))
# flag 0x4 in version 1: 5, after 3 and 4, before 6, 7 and 20
for version, number in ((0, 3), (1, 5), (4, 3)):
    lookups(f"flag-4-version-{version}", zeroed(version=version), (0, refused(number)), (16, refused(number)))
lookups("flag-4-version-1-entry-1", small(1, 0, head=kdmv(flags=5), sectors=6), (0, refused(5)), (8, refused(5)))
lookups("flag-4-alone-version-1", kdmv(flags=4), (0, refused(5)))
lookups("flags-7-version-1", kdmv(flags=7, redundant=9), (0, refused(5)))
lookups("newline-before-flag-4", kdmv(flags=5, newline=b"\n \n\n"), (0, refused(4)))
lookups("flag-4-before-sizes", kdmv(0, flags=5), (0, refused(5)))
lookups("flag-4-before-footer", kdmv(flags=0x30005, compression=1, directory=ALL_ONES), (0, refused(5)))

# ---- the chain
BASE, MIDDLE, TOP = small(8, 8), small(1, 8, head=zeroed()), small(0, 0)
chain("no-layer", [], (0, refused(24)))
chain("one-layer", [BASE], (0, stored(8)), (16, refused(20)))
chain("sixteen-layers", [BASE] * 16, (0, stored(8, 15)))
chain("seventeen-layers", [BASE] * 17, (0, refused(24)))
chain("absent-layer", [TOP], (0, absent()))
chain("zero-over-stored", [BASE, MIDDLE, TOP], (0, zero(1)), (8, stored(8, 1)), (16, refused(20)))
chain("base-under-absent", [BASE, TOP, TOP], (0, stored(8, 0)), (15, stored(15, 0)))
chain("absent-layers", [TOP, TOP], (0, absent(0)))
chain("top-over-absent", [TOP, BASE], (0, stored(8, 1)))
chain("middle-of-no-bytes", [BASE, b"", TOP], (0, refused(1, layer=1)))
chain("top-header-first", [b"", BASE, b"abcd"], (0, refused(2, layer=2)))
chain("middle-header-first", [b"abcd", b"", BASE], (0, refused(1, layer=1)))
chain("header-before-22", [b"abcd", small(8, 0, head=kdmv(24)), BASE], (0, refused(2)))
chain("header-before-20-in-chain", [b"abcd", BASE], (16, refused(2)))
chain("capacities-differ", [BASE, small(8, 0, head=kdmv(24))], (0, refused(22)), (24, refused(22)))
chain("grain-sizes-differ", [BASE, small(8, 0, head=kdmv(size=16))], (16, refused(22)))
chain("top-grain-past", [BASE, small(9, 9)], (0, refused(9, 0, layer=1)), (8, refused(9, 1, layer=1)))
chain("base-grain-past", [small(9, 9), TOP], (0, refused(9, 0, layer=0)))
chain("base-grain-not-asked", [small(9, 9), BASE], (0, stored(8, 1)))
chain("top-directory-0", [BASE, small(8, 8, head=kdmv(directory=0))], (0, refused(8, 2, layer=1)))
# COWD's 43 names its layer, in the order of headers: from the top down, also where no sector leads there, before 22 and 20
chain("cowd-alone", [OLD], (0, refused(43)), (16, refused(43)))
chain("cowd-under-kdmv", [OLD, BASE], (0, refused(43, layer=0)), (16, refused(43, layer=0)))
chain("cowd-over-kdmv", [BASE, OLD], (0, refused(43, layer=1)), (16, refused(43, layer=1)))
chain("cowd-between", [TOP, OLD, TOP], (0, refused(43, layer=1)))
chain("cowd-twice", [OLD, TOP, OLD], (0, refused(43, layer=2)))
chain("cowd-under-other-magic", [OLD, b"abcd"], (0, refused(2, layer=1)))
chain("cowd-over-other-magic", [b"abcd", OLD], (0, refused(43, layer=1)))
chain("cowd-under-grain-past", [OLD, small(9, 9)], (0, refused(43, layer=0)))
chain("cowd-before-22", [OLD, small(8, 0, head=kdmv(24)), BASE], (0, refused(43, layer=0)))
chain("cowd-2047-between", [TOP, OLD[:2047], TOP], (0, refused(1, layer=1)))
chain("24-before-cowd", [OLD], (0, refused(24)), lengths=[len(OLD) - 1])
chain("packed-over-stored",
      [BASE, image(7, (0, PACKED), (1, entries(2)), (2, entries(6, 0)), (6, marker(0, 500)))],
      (3, packed(6, 500, 3, 1)), (8, stored(8, 0)))
# a place is a layer's number and a file sector (A10): the same sector in two layers, and the same bytes given twice
chain("one-sector-of-two-layers", [small(8, 0), small(0, 8)], (0, stored(8, 0)), (7, stored(15, 0)), (8, stored(8, 1)))
chain("one-image-twice", [small(8, 0), small(8, 0)], (0, stored(8, 1)), (8, absent()))
chain("layers-of-odd-length", [BASE + b"\xff" * 511, MIDDLE + b"\xff"], (0, zero(1)), (8, stored(8, 1)))
# entries of 1, in each layer by its own header
chain("entry-1-over-zeros", [small(1, 1, head=zeroed(), sectors=6), small(1, 0, sectors=9)],
      (0, stored(1, 1)), (7, stored(8, 1)), (8, zero(0)))
chain("zero-over-entry-1", [small(1, 1, sectors=9), small(1, 0, head=zeroed(), sectors=6)],
      (0, zero(1)), (8, stored(1, 0)), (15, stored(8, 0)))
chain("table-at-1-over-zeros", [image(2, (0, zeroed()), (1, entries(1))), table_at_one(0, 0)], (0, zero(0)), (15, zero(0)))
chain("flag-4-version-1-above", [kdmv(), zeroed(version=1)], (0, refused(5, layer=1)), (16, refused(5, layer=1)))
chain("flag-4-version-1-below", [zeroed(version=1), kdmv()], (0, refused(5, layer=0)))
chain("24-before-headers", [b"abcd"], (0, refused(24)), lengths=[3])
chain("lengths-byte-short", [BASE], (0, refused(24)), lengths=[len(BASE) - 1])
chain("lengths-byte-long", [BASE], (0, refused(24)), lengths=[len(BASE), 1])
chain("lengths-wrap", [BASE], (0, refused(24)), lengths=[2**64 - 1, len(BASE) + 1])
chain("no-lengths", [BASE], (0, refused(24)), lengths=[])
chain("top-of-no-bytes", [BASE], (0, refused(1, layer=1)), lengths=[len(BASE), 0])


def write(folder):
    write_cases(folder, "sectors", CASES, LINES)


if __name__ == "__main__":
    main(write)
