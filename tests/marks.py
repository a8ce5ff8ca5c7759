#!/usr/bin/env python3
"""Writes tests/cases/marks, which the program `cases` is run on, and what it must print. marks.py [FOLDER] writes it below
another folder than tests.

Each case has a label, an image, built byte by byte, and what documents 01 and 02 say of its check in a lent list: the answer,
the number of sectors marked, added up area by area, and the list after it. All is written down by hand, both sides of each
edge. Nothing here reads an image.
"""
from asked import CHECK_IN, case, label, line, main, write_cases
from images import (FOOTER, PACKED, SECTOR, STREAM, at_one, cowd, entries, image, kdmv, marker, small, stream, streamed,
                    table_at_one, zeroed)

# What each word of the list holds before the call, and the most words that the program lends.
HELD, MOST = 170, 96
# Sectors of the areas, with grains of 8 sectors.
HEADER, DIRECTORY, TABLE, ENDS, GRAIN = 1, 1, 4, 1, 8

CASES, LINES, LABELS = [], [], []


def asked(name, data, answer, zeros, room):
    """A list of so many words, and how many of them become 0: the others keep what they held."""
    assert zeros <= room <= MOST, name
    label(LABELS, name)
    CASES.append(case(CHECK_IN, data, room=room))
    LINES.append(line("check_in", *answer, *[0] * zeros, *[HELD] * (room - zeros)))


def accepted(name, data, marked, words=1, spare=0, sizes=(16, 8)):
    """An image that is accepted: the sectors marked, the words that it needs, and some more in the list."""
    asked(name, data, (0, 0, *sizes, marked), words, words + spare)


def meets(name, data, marked, words=1, spare=0):
    """An image that is refused 12: the sectors before the first area that meets an earlier one."""
    asked(name, data, (12, 0, 0, 0, marked), words, words + spare)


def refused(name, data, number, place=0, room=1):
    asked(name, data, (number, place, 0, 0, 0), 0, room)


# ---- accepted: the sum of all areas
accepted("no-table", image(6, (0, kdmv())), HEADER + DIRECTORY)
accepted("table", small(0, 0), HEADER + DIRECTORY + TABLE)
accepted("one-grain", small(8, 0), HEADER + DIRECTORY + TABLE + GRAIN)
accepted("two-grains", small(16, 8, sectors=24), HEADER + DIRECTORY + TABLE + 2 * GRAIN)
accepted("every-sector", small(6, 14, sectors=22), 22)
accepted("zero-and-absent", small(1, 0, head=zeroed()), HEADER + DIRECTORY + TABLE)
accepted("directory-entry-1", image(6, (0, zeroed()), (1, entries(1))), HEADER + DIRECTORY)
accepted("unused-entries", small(8, 0, 8, 2**32 - 1), HEADER + DIRECTORY + TABLE + GRAIN)
# the last grain's area is whole where capacity ends in it
accepted("capacity-9", small(8, 16, head=kdmv(9), sectors=24), HEADER + DIRECTORY + TABLE + 2 * GRAIN, sizes=(9, 8))
accepted("descriptor", small(9, 0, head=kdmv(descriptor=(6, 3)), sectors=17), HEADER + 3 + DIRECTORY + TABLE + GRAIN)
REDUNDANT = image(19, (0, kdmv(redundant=6)), (1, entries(2)), (2, entries(11)), (6, entries(7)), (7, entries(11)))
accepted("redundant", REDUNDANT, HEADER + 2 * DIRECTORY + 2 * TABLE + GRAIN)
accepted("129-entries", image(6, (0, kdmv(128 * 4096 + 1))), HEADER + 2, sizes=(128 * 4096 + 1, 8))
accepted("two-tables", image(10, (0, kdmv(4097)), (1, entries(2, 6))), HEADER + DIRECTORY + 2 * TABLE, sizes=(4097, 8))
# a packed grain takes its marker's 12 bytes and its own: 512 of them are a sector, 513 are two
accepted("stream", stream(), HEADER + DIRECTORY + TABLE + ENDS + ENDS + 1)
for size, sectors in ((500, 1), (501, 2)):
    data = image(8, (0, PACKED), (1, entries(2)), (2, entries(6)), (6, marker(0, size)))
    accepted(f"packed-{size}", data, HEADER + DIRECTORY + TABLE + sectors)
# without the all-ones number there is no footer, and so no area of it
accepted("markers-without-footer", stream(head=FOOTER), HEADER + DIRECTORY + TABLE + 1)
# an entry of 1 that is a sector
accepted("grain-at-1", at_one(b"", 1, 0), HEADER + DIRECTORY + TABLE + GRAIN)
accepted("table-at-1", table_at_one(), HEADER + DIRECTORY + TABLE)
# what is not judged: a dirty number, and bytes past the last whole sector
accepted("open", small(8, 0, head=kdmv(dirty=1)), HEADER + DIRECTORY + TABLE + GRAIN)
accepted("past-last-sector", small(8, 0) + b"\xff" * 511, HEADER + DIRECTORY + TABLE + GRAIN)

# ---- room: a word for every 64 sectors, rounded up; one word fewer is 21, and the list keeps its content
for sectors, words in ((63, 1), (64, 1), (65, 2), (128, 2), (129, 3)):
    data = small(8, 0, sectors=sectors)
    accepted(f"sectors-{sectors}", data, HEADER + DIRECTORY + TABLE + GRAIN, words)
    refused(f"sectors-{sectors}-short", data, 21, room=words - 1)
accepted("sectors-64-and-511-bytes", small(8, 0, sectors=64) + b"\xff" * 511, HEADER + DIRECTORY + TABLE + GRAIN)
# words past those are never written
accepted("word-to-spare", small(8, 0, sectors=64), HEADER + DIRECTORY + TABLE + GRAIN, spare=1)
accepted("room-96", small(8, 0, sectors=65), HEADER + DIRECTORY + TABLE + GRAIN, 2, spare=94)
meets("12-words-to-spare", small(8, 8, sectors=65), HEADER + DIRECTORY + TABLE + GRAIN, 2, spare=3)

# ---- 12: each group's first area that meets an earlier one, and beside it
accepted("descriptor-beside-directory", image(6, (0, kdmv(directory=4, descriptor=(1, 3)))), HEADER + 3 + DIRECTORY)
meets("directory-in-descriptor", image(6, (0, kdmv(directory=3, descriptor=(1, 3)))), HEADER + 3)
accepted("redundant-beside-directory", image(6, (0, kdmv(redundant=2))), HEADER + 2 * DIRECTORY)
meets("redundant-on-directory", image(6, (0, kdmv(redundant=1))), HEADER + DIRECTORY)
meets("table-on-directory", image(6, (0, kdmv(directory=2)), (2, entries(1))), HEADER + DIRECTORY)
meets("table-on-table", image(10, (0, kdmv(4097)), (1, entries(2, 5))), HEADER + DIRECTORY + TABLE)
meets("table-named-twice", image(10, (0, kdmv(4097)), (1, entries(2, 2))), HEADER + DIRECTORY + TABLE)
meets("redundant-table-on-table", image(8, (0, kdmv(redundant=6)), (1, entries(2)), (6, entries(2))),
      HEADER + 2 * DIRECTORY + TABLE)
meets("footer-on-descriptor", streamed(descriptor=(7, 1)), HEADER + 1 + DIRECTORY + TABLE)
meets("last-sector-on-descriptor", streamed(descriptor=(8, 1)), HEADER + 1 + DIRECTORY + TABLE + ENDS)
meets("grain-on-directory", small(1, 0), HEADER + DIRECTORY + TABLE)
meets("grain-on-table", small(5, 0), HEADER + DIRECTORY + TABLE)
accepted("grain-beside-table", small(6, 0), HEADER + DIRECTORY + TABLE + GRAIN)
meets("grain-on-descriptor", small(8, 0, head=kdmv(descriptor=(6, 3))), HEADER + 3 + DIRECTORY + TABLE)
for grains in ((8, 8), (8, 15), (15, 8)):
    meets("grains-{}-and-{}".format(*grains), small(*grains, sectors=24), HEADER + DIRECTORY + TABLE + GRAIN)
meets("grain-of-the-next-table", image(18, (0, kdmv(4097)), (1, entries(2, 6)), (2, entries(10)), (6, entries(10))),
      HEADER + DIRECTORY + 2 * TABLE + GRAIN)

# ---- the order of the groups, seen in the number: with another one it would be what the comment says
# 2 if directories came before the descriptor
meets("descriptor-first", image(6, (0, kdmv(directory=1, descriptor=(1, 4)))), HEADER + 4)
# 6 if tables came before the redundant directory
meets("redundant-before-tables", image(11, (0, kdmv(redundant=4)), (1, entries(2)), (4, entries(7))), HEADER + 2 * DIRECTORY)
# 7 if each redundant table came after its own one
meets("tables-before-redundant-tables",
      image(18, (0, kdmv(4097, redundant=6)), (1, entries(2, 10)), (6, entries(2, 14))), HEADER + 2 * DIRECTORY + 2 * TABLE)
# 14 if grains came before the next table
meets("tables-before-grains", image(14, (0, kdmv(4097)), (1, entries(2, 10)), (2, entries(6))), HEADER + DIRECTORY + 2 * TABLE)
# 9 if grains came before footer and last sector: the grain has three sectors
meets("ends-before-grains", image(9, (0, STREAM), (1, entries(2)), (2, entries(6)), (6, marker(0, 1013)), (7, FOOTER)),
      HEADER + DIRECTORY + TABLE + ENDS + ENDS)
# 14 if grains came as they stand in the file
meets("grains-by-entry", small(16, 8, 12, head=kdmv(24), sectors=24), HEADER + DIRECTORY + TABLE + 2 * GRAIN)
# 14 if of the grains before the one that meets only that which it meets counted
meets("grains-up-to-the-first", small(8, 16, 8, 16, head=kdmv(32), sectors=24), HEADER + DIRECTORY + TABLE + 2 * GRAIN)

# ---- every other refusal: nothing is marked, and the list keeps its content, also where it would be too short
DIFFER = image(20, (0, zeroed(redundant=6)), (1, entries(2)), (2, entries(12, 12)), (6, entries(7)))
for number, data, place in (
        (1, b"KDM", 0), (2, b"VMDK", 0), (3, small(8, 0, head=kdmv(version=4)), 0),
        (4, small(8, 0, head=kdmv(newline=b"\n \n\n")), 0), (5, small(8, 0, head=kdmv(flags=9)), 0),
        (6, small(8, 0, head=kdmv(0)), 0), (7, stream(extra=1), 0), (8, small(8, 0, head=kdmv(directory=0)), 2),
        (9, small(8, 16), 1), (10, image(7, (0, PACKED), (1, entries(2)), (2, entries(0, 6)), (6, marker(0, 5))), 1),
        (11, DIFFER, 0), (43, image(45, (0, cowd()), (4, entries(5)), (5, entries(37, 0))), 0)):
    refused(f"number-{number}", data, number, place, room=2)
    refused(f"{number}-before-21", data, number, place, room=0)
refused("no-bytes", b"", 1)
refused("cowd-2047", cowd()[:4 * SECTOR - 1], 1)
# 43 comes before 3 and 12, where nothing is marked either
refused("cowd-version-2", cowd(version=2), 43)
refused("cowd-grain-on-header", image(38, (0, cowd(4, 1)), (4, entries(5)), (5, entries(1))), 43)
# 9 comes before 12, and 11 does: the two grains of DIFFER meet
refused("9-before-12", small(8, 8, 16, head=kdmv(24)), 9, 2)
refused("21-before-12", small(8, 8), 21, room=0)
refused("12-sectors-65-short", small(8, 8, sectors=65), 21)
meets("12-sectors-64", small(8, 8, sectors=64), HEADER + DIRECTORY + TABLE + GRAIN)


def write(folder):
    write_cases(folder, "marks", CASES, LINES)


if __name__ == "__main__":
    main(write)
