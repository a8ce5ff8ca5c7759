#!/usr/bin/env python3
"""Writes tests/cases/pairings, which the program `cases` is run on, and what it must print. pairings.py [FOLDER] writes it
below another folder than tests.

Each case has a label and one to four layers. A layer is a list of grains: None (absent), ZERO, or the bytes of a stored one.
Images are built from it in layouts of many kinds; what a collapse must give is computed from the lists and from document
01's 'The collapsed image' alone. Nothing here reads an image.
"""
import random
import struct

from asked import COLLAPSE, case, digest, label, line, main, write_cases
from images import SECTOR, at_one, cowd, entries, image, kdmv, small, table_at_one, zeroed

ZERO = "zero"
MARK = b"\xaa"
ROOM = 65536


# ---- what document 01 says
def up(a, b):
    return -(-a // b)


def merged(layers):
    """A grain is the upper's unless absent there, else the lower's: of any number of layers, base first."""
    return [next((g for g in reversed(stack) if g is not None), None) for stack in zip(*layers)]


def collapsed(capacity, size, grains):
    """The collapsed image."""
    tables = up(capacity, 512 * size)
    first_table = 1 + up(4 * tables, SECTOR)
    overhead = up(first_table + 4 * tables, size) * size
    head = b"KDMV" + struct.pack("<IIQQQQ", 2, 5, capacity, size, 0, 0) + struct.pack("<IQQQ", 512, 0, 1, overhead)
    head += b"\0" + b"\n \r\n" + struct.pack("<H", 0)
    directory = [first_table + 4 * t for t in range(tables)]
    table, data = [], b""
    for number, grain in enumerate(grains):
        if grain is None:
            table.append(0)
        elif grain is ZERO:
            table.append(1)
        else:
            table.append(overhead + len(data) // SECTOR)
            kept = SECTOR * min(size, capacity - number * size)
            data += grain[:kept].ljust(SECTOR * size, b"\0")
    return image(overhead, (0, head), (1, entries(*directory)), (first_table, entries(*table))) + data


# ---- images
def bytes_of(seed, size):
    """Bytes of a grain: no two sectors are alike, and most of each is."""
    pattern = random.Random(seed).randbytes(8)
    return b"".join(struct.pack("<Q", s) + pattern * 63 for s in range(size))


def layer(capacity, size, grains, shuffle=0, whole=True, tail=b"", redundant=False, described=False):
    """An image of these grains: its grains stand in an order of their own, all parts one sector apart. `whole`: a table that is
    all absent or all zero is told by its directory entry. Unused entries hold 7, which is no part of the image."""
    n = up(capacity, 512 * size)
    here, parts = 1 + shuffle % 3, []

    def take(sectors):
        nonlocal here
        at, here = here, here + sectors + 1
        return at

    description = (take(3), 3) if described else (0, 0)
    copies = [take(up(4 * n, SECTOR)) for _ in range(2 if redundant else 1)]
    places = list(range(len(grains)))
    random.Random(shuffle).shuffle(places)
    directories = [[], []]
    tables = []
    for t in range(n):
        used = grains[512 * t:512 * t + 512]
        same = whole and used[0] in (None, ZERO) and all(g == used[0] for g in used)
        for directory, _ in zip(directories, copies):
            if same:
                directory.append(0 if used[0] is None else 1)
            else:
                directory.append(take(4))
        tables.append(not same)
    found = {g: take(size) for g in places if isinstance(grains[g], bytes)}
    number = [0 if g is None else 1 if g is ZERO else found[i] for i, g in enumerate(grains)]
    for directory, at in zip(directories, copies):
        parts.append((at, entries(*directory)))
        for t, told in enumerate(tables):
            if told:
                parts.append((directory[t], entries(*(number[512 * t:512 * t + 512] + [7] * 512)[:512])))
    parts += [(at, grains[g]) for g, at in found.items()]
    head = zeroed(capacity, size, copies[0], descriptor=description, redundant=copies[1] if redundant else 0)
    return image(here, (0, head), *parts) + tail


# ---- cases
CASES, LINES, LABELS = [], [], []


def told(name, images, number, place, result, room=ROOM, orders=1):
    """A case, and the line for each order of pairing."""
    label(LABELS, name)
    CASES.append(case(COLLAPSE, b"".join(images), lengths=[len(i) for i in images], room=room))
    call = "collapse" if images[1:] else "normal"
    LINES.extend([line(call, number, place, len(result), digest(result + MARK * (room - len(result))))] * orders)


def chain(name, capacity, size, layers, **how):
    """A chain of layers, given as grains: each order of pairing, of four one twice, gives the same bytes."""
    images = [layer(capacity, size, grains, shuffle=i, **how) for i, grains in enumerate(layers)]
    told(name, images, 0, 0, collapsed(capacity, size, merged(layers)), orders={1: 1, 2: 1, 3: 2, 4: 6}[len(layers)])


def refused(name, number, *images, place=0, room=ROOM):
    told(name, images, number, place, b"", room)


def written(name, images, result, room):
    told(name, images, 0, 0, result, room)


# one grain of each kind over each other, capacity at a grain's end and inside one: 8 grains of 8 sectors
A, B, C, D = (bytes_of(seed, 8) for seed in "abcd")
NOTHING = bytes(8 * SECTOR)
for capacity in (57, 64):
    base = [A, A, A, ZERO, ZERO, None, None, A]
    middle = [None, ZERO, B, None, B, None, ZERO, B]
    third = [C, None, ZERO, C, None, None, C, None]
    top = [None, None, NOTHING, ZERO, None, ZERO, NOTHING, D]
    chain(f"one-layer-{capacity}", capacity, 8, [base])
    chain(f"two-layers-{capacity}", capacity, 8, [base, middle])
    chain(f"three-layers-{capacity}", capacity, 8, [base, middle, third])
    chain(f"three-redundant-{capacity}", capacity, 8, [base, third, top], redundant=True)
    chain(f"four-layers-{capacity}", capacity, 8, [base, middle, third, top])
    chain(f"four-described-{capacity}", capacity, 8, [top, third, middle, base], described=True)
    chain(f"four-redundant-{capacity}", capacity, 8, [middle, base, top, third], redundant=True, described=True)
    chain(f"zero-over-absent-{capacity}", capacity, 8, [[None] * 8, [ZERO] * 8, [None] * 8, [None] * 8])
    chain(f"stored-zeros-{capacity}", capacity, 8, [[NOTHING] * 8, [None] * 8, [None] * 8, [None] * 8], whole=False)
    chain(f"zero-over-stored-{capacity}", capacity, 8, [[A] * 8, [ZERO] * 8, [None] * 8, [None] * 7 + [D]], whole=False)
# the least capacity, and bytes past the last whole sector
chain("capacity-1", 1, 8, [[A], [None], [B]])
chain("past-last-sector", 16, 8, [[A, None], [ZERO, B], [None, ZERO], [None, None]], tail=b"past" * 100)
chain("past-last-sector-alone", 16, 8, [[A, ZERO]], tail=b"past" * 100)
# larger grains, where the gap is long
chain("grain-size-16", 40, 16, [[bytes_of(7, 16), None, ZERO], [None, bytes_of(8, 16), None], [ZERO, None, bytes_of(9, 16)]])
chain("grain-size-64", 65, 64, [[bytes_of(10, 64), None], [None, ZERO], [None, None], [None, None]])
# two tables, the second with one grain in use, and told by the directory alone
FAR = [None] * 513
chain("two-tables", 4097, 8, [FAR[:-1] + [A], FAR, [ZERO] + FAR[1:], FAR])
chain("two-tables-zero", 4097, 8, [FAR[:-1] + [A], [ZERO] * 513, FAR[:511] + [B, None]])
chain("two-tables-whole", 4104, 8, [FAR[:512] + [A], FAR[:512] + [ZERO], [None] * 511 + [C, None]], whole=False)

# random chains of three and four
for seed in range(16):
    dice = random.Random(seed)
    capacity = dice.randint(1, 64)
    layers = [[dice.choice([None, None, ZERO, NOTHING, bytes_of(dice.random(), 8)]) for _ in range(up(capacity, 8))]
              for _ in range(dice.choice([3, 4, 4]))]
    chain(f"random-{seed}", capacity, 8, layers, redundant=dice.random() < 0.3, described=dice.random() < 0.3,
          whole=dice.random() < 0.5)

# ---- refusals, and the output's edge. The lower's check, the upper's check, 23, 22, 21; COWD's 43 is of the check (A13)
LOW, HIGH = small(8, 0)[:8 * SECTOR] + A, small(0, 8)[:8 * SECTOR] + B
RESULT = collapsed(16, 8, [LOW[8 * SECTOR:], HIGH[8 * SECTOR:]])
NORMAL = collapsed(16, 8, [LOW[8 * SECTOR:], None])
ABSENT = small(0, 0)
WIDE = small(8, 0, head=kdmv(24))
PACKED = image(16, (0, kdmv(flags=0x10001, compression=1)), (1, entries(2)))
COWD = image(38, (0, cowd(16, 8)), (4, entries(5)), (5, entries(0, 37)))[:37 * SECTOR] + bytes(8 * SECTOR)
written("room-exact", [LOW, HIGH], RESULT, len(RESULT))
written("room-byte-more", [LOW, HIGH], RESULT, len(RESULT) + 1)
written("one-stored-grain", [LOW], NORMAL, 8192)
written("normal-form-again", [NORMAL], NORMAL, 8192)
written("itself", [LOW, LOW], NORMAL, 8192)
written("absent-below", [ABSENT, LOW], NORMAL, 8192)
written("absent-above", [LOW, ABSENT], NORMAL, 8192)
refused("room-byte-short", 21, LOW, HIGH, room=len(RESULT) - 1)
refused("room-8191", 21, LOW, room=8191)
refused("room-0", 21, LOW, room=0)
refused("lower-magic-first", 2, b"abcd", b"")
refused("upper-of-no-bytes", 1, LOW, b"")
refused("lower-grain-first", 9, small(9, 0), b"abcd")
refused("upper-grain-past", 9, LOW, small(8, 9), place=1)
refused("upper-overlap", 12, LOW, small(8, 8))
refused("overlap", 12, small(8, 8))
refused("directory-0", 8, small(8, 0, head=kdmv(directory=0)), place=2)
refused("upper-before-23", 1, PACKED, b"")
refused("lower-packed", 23, PACKED, WIDE)
refused("upper-packed", 23, WIDE, PACKED, room=0)
refused("packed", 23, PACKED)
refused("check-before-23", 3, image(16, (0, kdmv(version=4, flags=0x10001, compression=1))), room=0)
refused("23-before-21", 23, PACKED, room=0)
refused("cowd", 43, COWD)
refused("cowd-room-0", 43, COWD, room=0)
refused("cowd-2047", 1, COWD[:2047])
refused("cowd-version-2", 43, cowd(version=2))
refused("lower-cowd", 43, COWD, WIDE)
refused("upper-cowd", 43, WIDE, COWD, room=0)
refused("upper-cowd-2047", 1, WIDE, COWD[:2047])
refused("lower-cowd-first", 43, COWD, b"")
refused("lower-before-cowd", 9, small(9, 0), COWD)
refused("upper-cowd-before-23", 43, PACKED, COWD)
refused("both-cowd", 43, COWD, COWD)
refused("capacities-differ", 22, LOW, WIDE, room=0)
refused("grain-sizes-differ", 22, LOW, small(8, 0, head=kdmv(size=16), sectors=32))

# ---- entries of 1, in each layer by its own header: the sector of a grain or of a table, or zeros
AT_ONE, TABLE_AT_ONE = at_one(A, 1, 0), table_at_one(0, 6, version=3) + B
ZEROS, ZERO_FIRST = small(1, 1, head=zeroed(), sectors=6), small(1, 0, head=zeroed(version=3), sectors=6)
written("entry-1", [AT_ONE], collapsed(16, 8, [A, None]), 8192)
written("entry-1-over-zeros", [ZEROS, AT_ONE], collapsed(16, 8, [A, ZERO]), 8192)
told("entry-1-in-three-layers", [AT_ONE, ZERO_FIRST, TABLE_AT_ONE], 0, 0, collapsed(16, 8, [ZERO, B]), orders=2)
EMPTY = image(2, (0, kdmv()))
refused("upper-entry-1-past", 9, EMPTY, small(0, 1, sectors=6), place=1)
refused("flag-4-version-1", 5, zeroed(version=1))
refused("upper-flag-4-version-1", 5, EMPTY, zeroed(version=1))


def write(folder):
    write_cases(folder, "pairings", CASES, LINES)


if __name__ == "__main__":
    main(write)
