#!/usr/bin/env python3
"""Writes tests/cases/places, which the program `cases` is run on, and what it must print. places.py [FOLDER] writes it below
another folder than tests.

Refusal 8 and its place, by request A8 the lowest part that sticks out: images whose parts end with the file or past it, built
byte by byte, each under a label, and what each call that judges them says, written down by hand. Nothing here reads an image.
"""
from itertools import combinations

from asked import CHAIN, CHECK_IN, COLLAPSE, FRAME, IMAGE, MEND, SPLIT, SURVEY, case, digest, label, line, main, write_cases
from images import FOOTER, cowd, entries, image, outside, stream, zeroed

# What lent lists and outputs hold before a call, and how much of either is lent.
HELD, ROOM = 170, 27
# Every image's disk: two grains.
SIZES = 16, 8

CASES, LINES, LABELS = [], [], []


def asked(name, data, *lines):
    label(LABELS, name)
    CASES.append(data)
    LINES.extend(lines)


# ---- what a lookup says: layer, place, kind, sector, size, offset after the number
def found(kind, layer=0):
    return 0, layer, 0, kind, 0, 0, 0


def refused(number, place=0, layer=0):
    return number, layer, place, 0, 0, 0, 0


ABSENT, ZERO = 0, 1
# The first grain is zero, the second absent, and two are all.
SERVED = found(ZERO), found(ABSENT), refused(20)
NO_DIRECTORY, NO_TABLE = ((refused(8, place), refused(8, place), refused(20)) for place in (2, 4))


# ---- the calls on one image
def alone(name, data, place, lookups, descriptor=(1, 1)):
    """Check, header, normal form, and lookups of the first sector of each grain and past them."""
    check, normal = (8, place, 0, 0), (8, place, 0)
    if place == 0:
        check, normal = (0, 0, *SIZES), (21, 0, 0)
    served = [told for answer in lookups for told in (line("lookup", *answer), line("read", 0, digest(b"")))]
    asked(name, case(IMAGE, data, (0, 8, 16), room=ROOM), line("check", *check), line("header", 0, 0, *SIZES, *descriptor, 0),
          line("normal", *normal, digest(bytes([HELD] * ROOM))), *served)


def in_lists(name, data, place):
    """Of an image that is refused: the frame, the check in a lent list, and mending from either side."""
    held = [HELD] * ROOM
    asked(f"{name}-frame", case(FRAME, data, room=ROOM), line("frame", 8, place, 0, *held))
    asked(f"{name}-check-in", case(CHECK_IN, data, room=ROOM), line("check_in", 8, place, 0, 0, 0, *held))
    for good, side in enumerate(("primary", "redundant")):
        asked(f"{name}-mend-from-{side}", case(MEND, data, lengths=(good, ROOM), room=len(data)),
              line("mend", 8, place, 0, digest(data), *held))


# ---- all five, and then mended one after the other
FIVE, FOUR, THREE, TWO, ONE, WHOLE = (outside(*range(first, 6)) for first in range(1, 7))
alone("all-five", FIVE, 1, NO_DIRECTORY, (12, 1))
alone("descriptor-mended", FOUR, 2, NO_DIRECTORY)
alone("directory-mended", THREE, 3, NO_TABLE)
alone("redundant-directory-mended", TWO, 4, NO_TABLE)
alone("table-mended", ONE, 5, SERVED)
alone("all-mended", WHOLE, 0, SERVED)
in_lists("all-five", FIVE, 1)
in_lists("descriptor-mended", FOUR, 2)
in_lists("directory-mended", THREE, 3)
in_lists("redundant-directory-mended", TWO, 4)
in_lists("table-mended", ONE, 5)

# ---- any others: the lowest of them, and a lookup has 2 and 4 alone
for places in (some for count in range(1, 5) for some in combinations((1, 2, 3, 4, 5), count)):
    lookups = NO_DIRECTORY if 2 in places else NO_TABLE if 4 in places else SERVED
    alone("outside-" + "-".join(map(str, places)), outside(*places), places[0], lookups, (12, 1) if 1 in places else (1, 1))

# ---- the descriptor: one number zero is 1, whatever else; both zero say that there is none
for name, numbers in (("no-sector", (0, 1)), ("no-sectors", (1, 0)), ("sector-past-no-sectors", (12, 0))):
    alone(f"descriptor-{name}", outside(1, descriptor=numbers), 1, SERVED, numbers)
    alone(f"descriptor-{name}-directory-0", outside(1, 2, descriptor=numbers, directory=0), 1, NO_DIRECTORY, numbers)
    in_lists(f"descriptor-{name}", outside(1, descriptor=numbers), 1)
alone("no-descriptor", outside(1, descriptor=(0, 0)), 0, SERVED, (0, 0))
alone("no-descriptor-directory-0", outside(1, 2, descriptor=(0, 0), directory=0), 2, NO_DIRECTORY, (0, 0))
# directory sector 0 is 2
alone("directory-0", outside(2, directory=0), 2, NO_DIRECTORY)
alone("directory-0-redundant-past", outside(2, 3, directory=0), 2, NO_DIRECTORY)
in_lists("directory-0", outside(2, directory=0), 2)


# ---- the edge: each part ends with the file, and a byte less leaves its last sector out
def ending(place):
    """As the whole image, with the part that has this place behind the others."""
    sectors = {1: 1, 2: 1, 3: 1, 4: 4, 5: 4}
    at, here = {}, 1
    for part in sorted(sectors, key=lambda part: part == place):
        at[part], here = here, here + sectors[part]
    head = zeroed(descriptor=(at[1], 1), directory=at[2], redundant=at[3])
    return image(12, (0, head), (at[2], entries(at[4])), (at[3], entries(at[5])), (at[4], entries(1)), (at[5], entries(1)))


for place, name, lookups, descriptor in (
        (1, "descriptor", SERVED, 11), (2, "directory", NO_DIRECTORY, 1), (3, "redundant-directory", SERVED, 1),
        (4, "table", NO_TABLE, 1), (5, "redundant-table", SERVED, 1)):
    alone(f"{name}-at-end", ending(place), 0, SERVED, (descriptor, 1))
    alone(f"{name}-cut", ending(place)[:-1], place, lookups, (descriptor, 1))
    in_lists(f"{name}-cut", ending(place)[:-1], place)

# ---- a footer's directory; COWD is 43 whatever sticks out, and names no part (A13)
for name, directory, place in (("0", 0, 2), ("at-end", 8, 0), ("past", 9, 2)):
    data = stream(footer=FOOTER[:56] + bytes([directory]) + FOOTER[57:])
    # the last sector is zeros: no grain, and it is in two areas
    answer = (8, place, 0, 0) if place else (12, 0, 0, 0)
    asked(f"footer-directory-{name}", case(IMAGE, data), line("check", *answer), line("header", 0, 0, *SIZES, 0, 0, 0),
          line("normal", *answer[:3], digest(b"")))
for name, data in (("directory-0", image(37, (0, cowd(directory=0)))), ("table-past", image(37, (0, cowd()), (4, entries(6))))):
    asked(f"cowd-{name}", case(IMAGE, data), line("check", 43, 0, 0, 0), line("header", 43, *[0] * 6),
          line("normal", 43, 0, 0, digest(b"")))

# ---- handed on: a survey's rows, the extents of a disk of several files
STEPS = FIVE, FOUR, THREE, TWO, ONE, WHOLE
ROWS = [word for place in (1, 2, 3, 4, 5) for word in (0, 0, 0, 0, 8, place)] + [0, 1, 1, 0, 0, 0]
asked("survey", case(SURVEY, b"".join(STEPS), lengths=[len(data) for data in STEPS], room=len(ROWS)),
      line("survey", 0, 0, 0, 1, 1, 0, *ROWS), line("tally", *[0] * 7, 5, *[0] * 55, *[HELD] * 3))
TEXT = b'# Disk DescriptorFile\nversion=1\nCID=1f\nparentCID=ffffffff\ncreateType="custom"\n' + b'RW 16 SPARSE "a"\n' * 6
asked("split", case(SPLIT, TEXT + b"".join(STEPS), (0, 16, 32, 48, 64, 79, 80, 88, 96), [len(TEXT)] + [len(WHOLE)] * 6),
      *(line("split", *refused(8, place, place - 1)) for place in (1, 2, 3, 4, 5, 5)), line("split", *found(ZERO, 5)),
      line("split", *found(ABSENT, 5)), line("split", *refused(20)))
# another number of sectors in the line comes after
OTHER = TEXT.replace(b"RW 16", b"RW 15")
asked("split-before-38", case(SPLIT, OTHER + b"".join(STEPS), (0, 15, 75), [len(OTHER)] + [len(WHOLE)] * 6),
      line("split", *refused(8, 1)), line("split", *refused(8, 2, 1)), line("split", *refused(38, 0, 5)))


# ---- a chain names the layer met and the lookup's place there; sector 0 is told zero, 8 by no layer
def chain(name, layers, *answers):
    asked(name, case(CHAIN, b"".join(layers), (0, 8, 16), [len(data) for data in layers]),
          *(line("chain", *answer) for answer in (*answers, refused(20))))


DIRECTORY, TABLE, OTHERS = outside(2), outside(4), outside(1, 3, 5)
chain("chain-top-directory", [WHOLE, DIRECTORY], refused(8, 2, 1), refused(8, 2, 1))
chain("chain-top-table", [WHOLE, TABLE], refused(8, 4, 1), refused(8, 4, 1))
chain("chain-base-directory", [DIRECTORY, WHOLE], found(ZERO, 1), refused(8, 2, 0))
chain("chain-base-table", [TABLE, WHOLE], found(ZERO, 1), refused(8, 4, 0))
chain("chain-middle-table", [DIRECTORY, TABLE, WHOLE], found(ZERO, 2), refused(8, 4, 1))
chain("chain-top-before-base", [DIRECTORY, TABLE], refused(8, 4, 1), refused(8, 4, 1))
chain("chain-top-before-base-turned", [TABLE, DIRECTORY], refused(8, 2, 1), refused(8, 2, 1))
chain("chain-all-five-above", [WHOLE, FIVE], refused(8, 2, 1), refused(8, 2, 1))
chain("chain-not-judged", [OTHERS, OTHERS], found(ZERO, 1), found(ABSENT, 0))


# ---- collapse: the lower's check, then the upper's
def collapse(name, lower, upper, place):
    asked(name, case(COLLAPSE, lower + upper, lengths=[len(lower), len(upper)], room=ROOM),
          line("collapse", 8, place, 0, digest(bytes([HELD] * ROOM))))


for place in (1, 2, 3, 4, 5):
    collapse(f"collapse-lower-{place}", outside(place), WHOLE, place)
    collapse(f"collapse-upper-{place}", WHOLE, outside(place), place)
collapse("collapse-lower-before-upper", ONE, FIVE, 5)
collapse("collapse-lower-before-upper-turned", FIVE, ONE, 1)


def write(folder):
    write_cases(folder, "places", CASES, LINES)


if __name__ == "__main__":
    main(write)
