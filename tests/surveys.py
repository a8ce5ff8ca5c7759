#!/usr/bin/env python3
"""Writes tests/cases/surveys, which the program `cases` is run on, and what it must print. surveys.py [FOLDER] writes it below
another folder than tests.

Each case has a label, images, built byte by byte, and for each of them the row that documents 01 and 02 give it, written down
by hand: both sides of each edge. The totals and the tally are written down too where they are what is asked, and are the
rows' elsewhere. All of both lists is printed. Nothing here reads an image.
"""
from asked import SURVEY, case, label, line, main, write_cases
from images import ALL_ONES, PACKED, at_one, cowd, entries, image, kdmv, marker, small, stream, table_at_one, zeroed

# What each word of the lists holds before the call, the words of the tally's list, of the tally, and of a list that is a word
# too short for it; the program lends such a one if the room is so much more.
HELD, LENT, TALLY, SHORT, SHORT_ROOM = 170, 66, 63, 62, 1000

CASES, LINES, LABELS = [], [], []


def asked(name, images, lengths, room, answer, rows, tally):
    label(LABELS, name)
    CASES.append(case(SURVEY, b"".join(images), lengths=lengths, room=room))
    LINES.extend([line("survey", *answer, *rows), line("tally", *tally)])


def full(stored, zero, absent, packed):
    """An accepted image's row."""
    return stored, zero, absent, packed, 0, 0


def bad(number, place=0):
    """A refused image's row."""
    return 0, 0, 0, 0, number, place


def surveyed(name, *rows, totals=None, tally=None, spare=0):
    """Images with their rows, the four totals, and how many images the tally has for a number."""
    images, rows = [data for data, _ in rows], [row for _, row in rows]
    if totals is None:
        totals = [sum(row[kind] for row in rows) for kind in range(4)]
    numbers = [row[4] for row in rows]
    if tally is None:
        tally = {number: numbers.count(number) for number in numbers}
    words = [tally.get(number, 0) for number in range(1, TALLY + 1)] + [HELD] * (LENT - TALLY)
    held = [word for row in rows for word in row] + [HELD] * spare
    asked(name, images, [len(data) for data in images], len(held), (0, 0, *totals), held, words)


def refused(name, images, number, lengths=None, room=None, short=False):
    lengths = [len(data) for data in images] if lengths is None else lengths
    room = 6 * len(lengths) if room is None else room
    tally = [HELD] * (SHORT if short else LENT)
    asked(name, images, lengths, room + SHORT_ROOM * short, (number, 0, 0, 0, 0, 0), [HELD] * room, tally)


# Two grains: one stored and one absent; two stored on one sector, which is refused; one that ends past the file.
HALF, OVERLAP, PAST = small(8, 0), small(8, 8), small(8, 16)
# COWD, whose last grain ends the file: one stored and three absent.
OLD = image(38, (0, cowd(4, 1)), (4, entries(5)), (5, entries(0, 0, 0, 37)))
# Two absent grains without a table.
EMPTY = image(2, (0, kdmv()))
# A table of 512 entries: 1 packed grain, 1 zero, 510 absent.
TABLE = image(7, (0, zeroed(4096, flags=0x10005, compression=1)), (1, entries(2)), (2, entries(6, 1)), (6, marker(0, 5)))

# ---- the kinds of grains
surveyed("stored-and-absent", (HALF, full(1, 0, 1, 0)))
surveyed("zero-and-absent", (small(1, 0, head=zeroed(), sectors=6), full(0, 1, 1, 0)))
surveyed("both-stored", (small(8, 16, sectors=24), full(2, 0, 0, 0)))
surveyed("packed-and-zero", (stream(), full(0, 1, 0, 1)))
surveyed("packed-table", (TABLE, full(0, 1, 510, 1)))
surveyed("sample-of-000", (image(384, (0, kdmv(8192, 128, 26)), (26, entries(27)), (27, entries(128, 0, 256))),
                           full(2, 0, 62, 0)))
# entry 1 is zeros in version 2 or 3 with flag 0x4
surveyed("entry-1", (small(1, 8, head=zeroed()), full(1, 1, 0, 0)))
# entries past capacity do not count
surveyed("unused-entries", (small(8, 0, 1, 1, 2**32 - 1), full(1, 0, 1, 0)))

# ---- an entry of 1 that is a sector: version 1, or no flag 0x4
surveyed("entry-1-stored", (at_one(b"", 1, 0), full(1, 0, 1, 0)))
surveyed("entry-1-packed", (at_one(marker(0, 5), 1, 0, directory=2, flags=0x10001, compression=1), full(0, 0, 1, 1)))
surveyed("table-at-1", (table_at_one(capacity=4096), full(0, 0, 512, 0)),
         (table_at_one(capacity=4096, version=2, flags=5), full(0, 512, 0, 0)), totals=[0, 512, 512, 0], tally={})


# a header's image whose second grain has an entry of 1, and one whose directory has: without room for a grain or a table there
def second_at_one(version, flags):
    return small(0, 1, head=kdmv(version=version, flags=flags), sectors=6)


def both_at_one(version, flags):
    return image(2, (0, kdmv(version=version, flags=flags)), (1, entries(1)))


surveyed("entry-1-by-version", (second_at_one(2, 1), bad(9, 1)), (second_at_one(3, 1), bad(9, 1)),
         (second_at_one(3, 5), full(0, 1, 1, 0)), totals=[0, 1, 1, 0], tally={9: 2})
surveyed("directory-entry-1-by-version", (both_at_one(1, 1), bad(8, 4)), (both_at_one(2, 1), bad(8, 4)),
         (both_at_one(3, 0), bad(8, 4)), (both_at_one(0, 5), bad(3)), (both_at_one(1, 5), bad(5)), (both_at_one(1, 4), bad(5)),
         (both_at_one(2, 4), full(0, 2, 0, 0)), (both_at_one(3, 5), full(0, 2, 0, 0)), (both_at_one(4, 5), bad(3)),
         totals=[0, 4, 0, 0], tally={3: 2, 5: 2, 8: 3})

# ---- the last grain: capacity ends with it, a sector into it, and a sector before its end
surveyed("capacity-8", (small(8, 1, head=zeroed(8)), full(1, 0, 0, 0)))
surveyed("capacity-9", (small(8, 1, head=zeroed(9)), full(1, 1, 0, 0)))
surveyed("capacity-15", (small(8, 1, head=zeroed(15)), full(1, 1, 0, 0)))
surveyed("capacity-16", (small(8, 1, 1, head=zeroed()), full(1, 1, 0, 0)))
surveyed("capacity-17", (small(8, 1, 1, head=zeroed(17)), full(1, 2, 0, 0)))
surveyed("capacity-1", (small(8, head=kdmv(1)), full(1, 0, 0, 0)))

# ---- directory entries without a table stand for 512 grains each, the last one for what is left of them
surveyed("directory-entry-0", (image(2, (0, kdmv(4096))), full(0, 0, 512, 0)))
surveyed("directory-entry-1", (image(2, (0, zeroed(4096)), (1, entries(1))), full(0, 512, 0, 0)))
surveyed("directory-entries-0-and-1", (image(2, (0, zeroed(2 * 4096)), (1, entries(0, 1))), full(0, 512, 512, 0)))
surveyed("last-entry-of-one-grain", (image(2, (0, zeroed(4096 + 1)), (1, entries(0, 1))), full(0, 1, 512, 0)))
surveyed("last-entry-of-511-grains", (image(2, (0, zeroed(2 * 4096 - 8)), (1, entries(1, 0))), full(0, 512, 511, 0)))
surveyed("last-entry-of-512-grains", (image(2, (0, zeroed(2 * 4096 - 7)), (1, entries(1, 0))), full(0, 512, 512, 0)))
surveyed("table-among-none",
         (image(14, (0, zeroed(3 * 4096)), (1, entries(1, 2, 0)), (2, entries(6, 1))), full(1, 513, 1022, 0)))
surveyed("packed-without-table", (image(2, (0, kdmv(4096, flags=0x10001, compression=1))), full(0, 0, 512, 0)))
surveyed("capacity-most", (image(17, (0, zeroed(2**31, 2048)), (1, entries(1))), full(0, 512, 2**20 - 512, 0)))

# ---- a refused image's row, each number and its place; nothing of it is in the totals
surveyed("each-number",
         (b"KDM", bad(1)), (b"VMDK", bad(2)), (small(8, 0, head=kdmv(version=4)), bad(3)),
         (small(8, 0, head=kdmv(newline=b"\n \n\n")), bad(4)), (small(8, 0, head=kdmv(flags=9)), bad(5)),
         (small(8, 0, head=kdmv(0)), bad(6)), (stream(extra=1), bad(7)), (small(8, 0, head=kdmv(directory=0)), bad(8, 2)),
         (PAST, bad(9, 1)),
         (image(7, (0, PACKED), (1, entries(2)), (2, entries(0, 6)), (6, marker(0, 5))), bad(10, 1)),
         (image(12, (0, zeroed(redundant=6)), (1, entries(2)), (2, entries(1)), (6, entries(7))), bad(11)), (OVERLAP, bad(12)),
         (OLD, bad(43)), totals=[0, 0, 0, 0], tally=dict.fromkeys([*range(1, 13), 43], 1))
surveyed("refused-beside-accepted", (HALF, full(1, 0, 1, 0)), (OVERLAP, bad(12)), (HALF, full(1, 0, 1, 0)),
         totals=[2, 0, 2, 0], tally={12: 1})
surveyed("refused-alone", (OVERLAP, bad(12)), totals=[0, 0, 0, 0], tally={12: 1})
surveyed("place-of-the-grain", (PAST, bad(9, 1)), (small(9, 0), bad(9, 0)), tally={9: 2})
# COWD is 43, after 1 and before 3 and the rest, with place 0, and none of its grains counts (A13)
surveyed("cowd", (OLD, bad(43)), totals=[0, 0, 0, 0], tally={43: 1})
surveyed("cowd-by-length", (OLD[:2047], bad(1)), (OLD[:2048], bad(43)), (OLD[:2049], bad(43)), tally={1: 1, 43: 2})
surveyed("cowd-before-3-and-9", (cowd(version=2), bad(43)), (OLD[:-1], bad(43)), tally={43: 2})
surveyed("cowd-beside-accepted", (HALF, full(1, 0, 1, 0)), (OLD, bad(43)), (HALF, full(1, 0, 1, 0)), (OVERLAP, bad(12)),
         totals=[2, 0, 2, 0], tally={12: 1, 43: 1})

# ---- the tally is set: number n at word n - 1, and 0 where no image has the number
surveyed("tally-none", (HALF, full(1, 0, 1, 0)), tally={})
surveyed("tally-first", (b"", bad(1)), (b"", bad(1)), (b"KDM", bad(1)), tally={1: 3})
surveyed("tally-two-numbers", (b"abcd", bad(2)), (OVERLAP, bad(12)), (b"abcde", bad(2)), tally={2: 2, 12: 1})

# ---- images end to end: of one capacity or not, of no bytes, the most that the program takes
surveyed("totals", (HALF, full(1, 0, 1, 0)), (TABLE, full(0, 1, 510, 1)), (stream(), full(0, 1, 0, 1)),
         (image(2, (0, zeroed(4096)), (1, entries(1))), full(0, 512, 0, 0)), totals=[1, 514, 511, 2], tally={})
surveyed("same-bytes-twice", (HALF, full(1, 0, 1, 0)), (HALF, full(1, 0, 1, 0)), totals=[2, 0, 2, 0])
surveyed("length-0", (b"", bad(1)), totals=[0, 0, 0, 0], tally={1: 1})
surveyed("length-0-first", (b"", bad(1)), (HALF, full(1, 0, 1, 0)), (b"", bad(1)), tally={1: 2})
surveyed("odd-length", (HALF + b"\xff" * 511, full(1, 0, 1, 0)), (HALF, full(1, 0, 1, 0)))
surveyed("seventeen-images", *[(EMPTY, full(0, 0, 2, 0))] * 16, (b"", bad(1)), totals=[0, 0, 32, 0], tally={1: 1})
# lengths are believed: a byte from one image to the next
asked("byte-to-the-next", [HALF, HALF], [len(HALF) + 1, len(HALF) - 1], 12, (0, 0, 1, 0, 1, 0),
      [*full(1, 0, 1, 0), *bad(2)], [0, 1, *[0] * 61, HELD, HELD, HELD])

# ---- 24: no length, or a sum that is not the slice's length, exactly; before 21
refused("no-lengths", [], 24)
refused("no-lengths-for-bytes", [HALF], 24, [])
for name, length in (("short", len(HALF) - 1), ("long", len(HALF) + 1)):
    refused(f"sum-{name}", [HALF], 24, [length])
refused("sum-long-by-2-64", [HALF], 24, [2**63, 2**63, len(HALF)])
refused("sum-wraps", [HALF], 24, [ALL_ONES, len(HALF) + 1])
refused("lengths-for-no-bytes", [], 24, [1])
refused("24-before-21", [HALF], 24, [len(HALF) - 1], room=0)
refused("24-before-21-for-the-tally", [HALF], 24, [len(HALF) - 1], short=True)

# ---- 21: six words an image, and 63 for the tally; what is not written keeps its content
surveyed("room-to-spare", (HALF, full(1, 0, 1, 0)), (b"", bad(1)), spare=7)
for room in (0, 1, 5):
    refused(f"room-{room}", [HALF], 21, room=room)
refused("room-of-one-for-two", [HALF, b""], 21, room=6)
refused("room-11", [HALF, b""], 21, room=11)
refused("tally-62", [HALF], 21, short=True)
refused("both-short", [HALF], 21, room=5, short=True)
# rows that would say 1 to 12 do not come first
refused("21-before-rows", [OVERLAP, b""], 21, room=11)


def write(folder):
    write_cases(folder, "surveys", CASES, LINES)


if __name__ == "__main__":
    main(write)
