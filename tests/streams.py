#!/usr/bin/env python3
"""Writes tests/cases/streams, which the program `cases` is run on, and what it must print. streams.py [FOLDER] writes it below
another folder than tests.

Starts of streams (request A12), and what closing says of each: kept sectors, kept grains and the tail, built byte by byte, or the
number of the refusal, all written down by hand from documents 01 and 02, both sides of each edge. Nothing here reads an image.
"""
import struct

from asked import CLOSE, case, digest, label, line, main, write_cases
from images import ALL_ONES, SECTOR, cowd, entries, image, kdmv, small, stream

CASES, LINES, LABELS = [], [], []
HELD, MOST = b"\xaa", 65536
STREAMED = {"version": 3, "flags": 0x30001, "compression": 1}


def head(directory=ALL_ONES, **fields):
    """Six grains of 8 sectors, the last with three below capacity; overhead 3."""
    return kdmv(**{**STREAMED, "capacity": 43, "overhead": 3, "directory": directory, **fields})


def sector(first, size=0, kind=0):
    """A marker's sector, or the first one of a grain of so many bytes."""
    return struct.pack("<QII", first, size, kind).ljust(SECTOR, b"\0")


def grain(first, size=9, fill=7):
    """A whole grain: its marker, so many bytes, and zeros up to a sector."""
    data = struct.pack("<QI", first, size) + bytes([fill]) * size
    return data + bytes(-len(data) % SECTOR)


TABLE = sector(4, kind=1) + bytes([1]) * 4 * SECTOR
DIRECTORY = sector(1, kind=2) + bytes([1]) * SECTOR


def started(*blocks, overhead=3, **fields):
    return head(overhead=overhead, **fields) + bytes((overhead - 1) * SECTOR) + b"".join(blocks)


def tail(kept, tables=(), n=1, **fields):
    """What closes so many sectors: a table for each (directory entry, entries), the directory of n sectors, the footer."""
    data, directory = b"", bytearray(n * SECTOR)
    for number, numbers in tables:
        directory[4 * number:4 * number + 4] = struct.pack("<I", kept + len(data) // SECTOR + 1)
        table = bytearray(4 * SECTOR)
        for at, entry in numbers.items():
            table[4 * at:4 * at + 4] = struct.pack("<I", entry)
        data += sector(4, kind=1) + table
    at = kept + len(data) // SECTOR + 1
    return data + sector(n, kind=2) + directory + sector(0, kind=3) + head(directory=at, **fields) + bytes(SECTOR)


def asked(name, data, answer, room=MOST):
    """A start, and what is answered: kept sectors, kept grains and the tail; or a refusal's number."""
    label(LABELS, name)
    CASES.append(case(CLOSE, data, room=room))
    if isinstance(answer, int):
        LINES.append(line("close", answer, 0, 0, 0, 0, digest(HELD * room)))
        return
    sectors, grains, end = answer
    assert len(end) <= room
    LINES.append(line("close", 0, 0, sectors, grains, len(end), digest(end + HELD * (room - len(end)))))


def closed(name, data, sectors, *grains, room=MOST, **fields):
    """A start of the small disk: grains are (number, its marker's sector)."""
    fields = {"overhead": 3, **fields}
    tables = [(0, dict(grains))] if grains else []
    asked(name, data, (sectors, len(grains), tail(sectors, tables, **fields)), room)


# ---- what there is before any block, and grains of every size
closed("nothing-there", started(), 3)
closed("overhead-7", started(overhead=7), 7, overhead=7)
for size, sectors in ((1, 1), (499, 1), (500, 1), (501, 2), (1012, 2), (1013, 3), (70000, 137)):
    closed(f"size-{size}", started(grain(0, size)), 3 + sectors, (0, 3))
    closed(f"size-{size}-then-1", started(grain(0, size), grain(8)), 4 + sectors, (0, 3), (1, 3 + sectors))
FOUR = started(grain(0, 600), grain(8), grain(24, 500), grain(40))
closed("four-grains", FOUR, 8, (0, 3), (1, 5), (3, 6), (5, 7))
closed("not-the-first", started(grain(32)), 4, (4, 3))
closed("all-grains", started(*(grain(8 * g) for g in range(6))), 9, *((g, 3 + g) for g in range(6)))

# ---- cuts: a grain is kept if all its sectors are there
for cut, sectors, *kept in ((1, 7, (0, 3), (1, 5), (3, 6)), (512, 7, (0, 3), (1, 5), (3, 6)), (513, 6, (0, 3), (1, 5)),
                            (1024, 6, (0, 3), (1, 5)), (1025, 5, (0, 3)), (1536, 5, (0, 3)), (1537, 3), (2048, 3), (2049, 3),
                            (2560, 3)):
    closed(f"cut-{cut}", FOUR[:-cut], sectors, *kept)
for more in (1, 511):
    closed(f"bytes-past-{more}", FOUR + b"\x01" * more, 8, (0, 3), (1, 5), (3, 6), (5, 7))
closed("payload-cut", started(grain(0), grain(8, 1013)[:-512]), 4, (0, 3))
closed("payload-cut-by-a-byte", started(grain(0), grain(8, 1013)[:-1]), 4, (0, 3))
closed("marker-cut", started(grain(0), grain(8)[:12]), 4, (0, 3))
closed("size-of-all-ones", started(grain(0), sector(8, 2**32 - 1)), 4, (0, 3))
closed("overhead-cut-behind", started(bytes(511)), 3)

# ---- tables and directories: stepped over, and kept only up to a later grain
for name, block, sectors in (("table", TABLE, 5), ("directory", DIRECTORY, 2)):
    closed(f"{name}-between", started(grain(0), block, grain(8)), 5 + sectors, (0, 3), (1, 4 + sectors))
    closed(f"{name}-first", started(block, grain(8)), 4 + sectors, (1, 3 + sectors))
    closed(f"{name}-last", started(grain(0), block), 4, (0, 3))
    closed(f"{name}-alone", started(block), 3)
    closed(f"{name}-twice", started(grain(0), block, block, grain(8)), 5 + 2 * sectors, (0, 3), (1, 4 + 2 * sectors))
    for cut in sorted({1, 512, len(block) - 512, len(block) - 16}):
        closed(f"{name}-cut-{cut}", started(grain(0), block[:-cut]), 4, (0, 3))
    closed(f"{name}-a-sector-short", started(grain(0), block[:-512], grain(8)), 4, (0, 3))
    kind = {"table": 1, "directory": 2}[name]
    for first in (0, 2, ALL_ONES):
        other = sector(first, kind=kind) + block[512:]
        closed(f"{name}-first-number-{first}", started(grain(0), other, grain(8)), 5 + sectors, (0, 3), (1, 4 + sectors))
closed("table-short-then-two", started(grain(0), TABLE[:-512], grain(8), grain(16)), 10, (0, 3), (2, 9))

# ---- types that end it; a size above 0 is a grain whatever stands at 12
for kind in (0, 3, 4, 256, 257, 258, 2**16 + 1, 2**24 + 2, 2**32 - 1):
    closed(f"type-{kind}", started(grain(0), sector(4, kind=kind), grain(8)), 4, (0, 3))
    closed(f"type-{kind}-first", started(sector(0, kind=kind), grain(8)), 3)
for kind in (0, 1, 2, 3, 4):
    closed(f"grain-of-type-{kind}", started(grain(0), sector(8, 1, kind), grain(16)), 6, (0, 3), (1, 4), (2, 5))
closed("sector-of-zeros", started(grain(0), bytes(SECTOR), grain(8)), 4, (0, 3))

# ---- first sectors that end it: no multiple, not below capacity, not above the last
for first in (1, 4, 7, 9, 12, 15, 25, 41, 42):
    closed(f"first-{first}", started(grain(0), grain(first), grain(32)), 4, (0, 3))
for first in (48, 56, 2**32, 2**32 + 8, 2**64 - 8):
    closed(f"first-{first}", started(grain(0), grain(first), grain(32)), 4, (0, 3))
closed("first-40", started(grain(0), grain(40)), 5, (0, 3), (5, 4))
for first in (16, 8, 0):
    closed(f"after-2-first-{first}", started(grain(16), grain(first), grain(32)), 4, (2, 3))
    closed(f"after-2-and-table-first-{first}", started(grain(16), TABLE, grain(first), grain(32)), 4, (2, 3))
closed("after-2-first-24", started(grain(16), grain(24)), 5, (2, 3), (3, 4))
closed("same-grain-0", started(grain(0), grain(0)), 4, (0, 3))
for capacity, kept in ((40, False), (41, True), (48, True)):
    data = started(grain(0), grain(40), capacity=capacity)
    closed(f"capacity-{capacity}", data, 5 if kept else 4, (0, 3), *([(5, 4)] if kept else []), capacity=capacity)
closed("capacity-1", started(grain(0), grain(8), capacity=1), 4, (0, 3), capacity=1)


# ---- several tables: one for each directory entry with grains
def large(name, grains, n, room=MOST, **fields):
    """Grains of one sector from 2 on: each entry's table and its place are by hand."""
    data = started(*(grain(8 * g) for g in grains), **{"overhead": 2, **fields})
    kept, tables = 2 + len(grains), {}
    for at, g in enumerate(grains, 2):
        tables.setdefault(g // 512, {})[g % 512] = at
    asked(name, data, (kept, len(grains), tail(kept, sorted(tables.items()), n, **{"overhead": 2, **fields})), room)


large("entry-511", [0, 511], 1, capacity=8192)
large("entry-512", [511, 512], 1, capacity=8192)
large("entry-passed", [0, 1024, 1535], 1, capacity=4 * 4096)
large("first-entry-empty", [512], 1, capacity=4 * 4096)
large("last-entry", [2047], 1, capacity=4 * 4096)
large("last-entry-partly", [2047, 2048], 1, capacity=4 * 4096 + 1)
# 128 entries fill a sector of the directory
for capacity, n in ((128 * 4096, 1), (128 * 4096 + 1, 2), (256 * 4096, 2), (256 * 4096 + 1, 3)):
    last = (capacity - 1) // 8
    large(f"directory-of-{capacity}", [0, last], n, capacity=capacity)
    large(f"directory-of-{capacity}-no-grain", [], n, capacity=capacity)
    step = sector(n, kind=2) + bytes([1]) * n * SECTOR
    for name, block, kept in (("between", step, 5 + n), ("short", step[:-512], 3)):
        data = started(grain(0), block, grain(8), overhead=2, capacity=capacity)
        numbers = {0: 2, 1: 4 + n} if name == "between" else {0: 2}
        answer = (kept, len(numbers), tail(kept, [(0, numbers)], n, overhead=2, capacity=capacity))
        asked(f"directory-of-{capacity}-{name}", data, answer)
for size in (16, 128, 2048):
    fields = {"overhead": 2, "size": size, "capacity": 513 * size}
    data = started(grain(512 * size), grain(512 * size + size // 2), **fields)
    asked(f"grain-size-{size}", data, (3, 1, tail(3, [(1, {0: 2})], **fields)))

# ---- the footer is sector 0, whatever stands there
for name, fields in {"dirty": {"dirty": 255}, "padding": {"padding": 9}, "version-1": {"version": 1},
                     "zeroed": {"version": 2, "flags": 0x30005}, "no-newline": {"flags": 0x30000, "newline": b"\n\n\n\n"}}.items():
    closed(f"footer-{name}", started(grain(8), **fields), 4, (1, 3), **fields)

# ---- whole streams are starts too; closed again the tail is the same
WHOLE = FOUR + tail(8, [(0, {0: 3, 1: 5, 3: 6, 5: 7})], overhead=3)
for cut in (0, 1, 512, 1024, 1536, 1537, 2048):
    closed(f"whole-cut-{cut}", WHOLE[:len(WHOLE) - cut], 8, (0, 3), (1, 5), (3, 6), (5, 7))
closed("whole-and-a-grain", WHOLE + grain(8), 8, (0, 3), (1, 5), (3, 6), (5, 7))
# 7 is never given: a wrong footer, a last sector that is not zero, a length that is no multiple
closed("footer-wrong", WHOLE[:-1024] + bytes([1]) * 1024, 8, (0, 3), (1, 5), (3, 6), (5, 7))
closed("length-odd", WHOLE + b"\0", 8, (0, 3), (1, 5), (3, 6), (5, 7))
closed("two-sectors", started(overhead=2)[:1024], 2, overhead=2)

# ---- the room: exact, one byte short, and what is past the tail keeps its bytes
ROOM = 10 * SECTOR
closed("room-exact", FOUR, 8, (0, 3), (1, 5), (3, 6), (5, 7), room=ROOM)
closed("room-a-byte-more", FOUR, 8, (0, 3), (1, 5), (3, 6), (5, 7), room=ROOM + 1)
closed("room-no-table", started(), 3, room=5 * SECTOR)
for room in (ROOM - 1, 5 * SECTOR, 512, 1, 0):
    asked(f"room-{room}", FOUR, 21, room)
asked("room-no-table-short", started(), 21, 5 * SECTOR - 1)

# ---- 41: overhead, descriptor, redundant directory, a directory that is told
GRAINS = [grain(0), grain(8)]
for overhead, answer in ((0, 41), (1, 41), (4, None), (5, None), (6, 41), (2**32 + 3, 41), (ALL_ONES, 41)):
    data = started(*GRAINS).replace(head(), head(overhead=overhead), 1)
    if answer:
        asked(f"overhead-{overhead}", data, answer)
    else:
        kept = [(1, 4)] if overhead == 4 else []
        closed(f"overhead-is-{overhead}", data, 5, *kept, overhead=overhead)
closed("overhead-2", started(*GRAINS, overhead=2), 4, (0, 2), (1, 3), overhead=2)
closed("overhead-f", started(overhead=9), 9, overhead=9)
asked("overhead-f-and-1", started(overhead=9)[:-1], 41)
for first, sectors, good in ((1, 1, True), (1, 2, True), (2, 1, True), (1, 3, False), (2, 2, False), (3, 1, False), (0, 1, False),
                             (1, 0, False), (0, 0, True), (2, ALL_ONES, False), (ALL_ONES, 1, False), (ALL_ONES, ALL_ONES, False),
                             (1, 2**32 + 1, False), (2**32 + 1, 1, False)):
    data = started(*GRAINS, descriptor=(first, sectors))
    if good:
        closed(f"descriptor-{first}-{sectors}", data, 5, (0, 3), (1, 4), descriptor=(first, sectors))
    else:
        asked(f"descriptor-{first}-{sectors}", data, 41)
for redundant in (1, 3, ALL_ONES):
    asked(f"redundant-{redundant}", started(*GRAINS, redundant=redundant), 41)
asked("redundant-used", started(*GRAINS, redundant=1, flags=0x30003), 41)
for directory in (0, 1, ALL_ONES - 1):
    asked(f"directory-at-{directory}", started(*GRAINS).replace(head(), head(directory=directory), 1), 41)
asked("not-packed", small(8), 41)
asked("no-markers", started(*GRAINS).replace(head(), head(directory=1, flags=0x10001), 1), 41)
asked("41-before-21", started(redundant=1), 41, 0)
# an accepted stream whose overhead is past its end
asked("overhead-past-a-stream", stream(), 41)

# ---- header numbers come first, and COWD's 43 among them (A13)
asked("no-bytes", b"", 1)
asked("511-bytes", started()[:511], 1)
asked("512-bytes", started()[:512], 41)
asked("cowd-short", cowd()[:2047], 1)
asked("magic", b"KDMW" + started()[4:], 2)
for version in (0, 4):
    asked(f"version-{version}", started(version=version, redundant=1), 3)
asked("cowd", image(40, (0, cowd()), (4, entries(5))), 43)
asked("cowd-room-0", cowd(), 43, 0)
asked("cowd-version", cowd(version=2), 43)
asked("newline", started(newline=b"\n \r\r", redundant=1), 4)
asked("flags", started(flags=0x30008 | 1, redundant=1), 5)
asked("at-end-without-markers", started(flags=0x10001), 5)
asked("redundant-flag-alone", started(flags=0x30003), 5)
asked("flag-4-in-version-1", started(version=1, flags=0x30005), 5)
for fields in ({"capacity": 0}, {"capacity": 2**31 + 1}, {"size": 4}, {"size": 12}, {"size": 4096}, {"entries": 511}):
    asked(f"sizes-{'-'.join(map(str, *fields.items()))}", started(redundant=1, **fields), 6)
closed("grain-size-8-capacity-43", started(), 3)


def write(folder):
    write_cases(folder, "streams", CASES, LINES)


if __name__ == "__main__":
    main(write)
