#!/usr/bin/env python3
"""Writes tests/cases/splits, which the program `cases` is run on, and what it must print. splits.py [FOLDER] writes it below
another folder than tests.

Each case has a label, a descriptor's extent lines with their files, built byte by byte, and for each sector the answer that
documents 01 and 02 give it, written down by hand: both sides of each edge. Nothing here reads a text or an image.
"""
from asked import SPLIT, case, label, line, main, write_cases
from images import PACKED, SECTOR, cowd, entries, image, kdmv, marker, small, stream, zeroed

FIRST = "# Disk DescriptorFile\n"
KEYS = 'version=1\nCID=1f\nparentCID=ffffffff\ncreateType="custom"\n'

CASES, LINES, LABELS = [], [], []


def asked(name, text, files, lengths, answers):
    """A disk, and for each sector what the call says: number, extent, place, kind, sector, size, offset."""
    label(LABELS, name)
    CASES.append(case(SPLIT, text + b"".join(files), sectors=list(answers), lengths=[len(text), *lengths]))
    LINES.extend(line("split", *answer) for answer in answers.values())


def disk(name, *extents, lengths=None, **answers):
    """Extents, each a line and its file; the answers are given by `sectors`."""
    files = [data for _, data in extents]
    text = FIRST + KEYS + "\n".join(words for words, _ in extents)
    asked(name, text.encode(), files, [len(data) for data in files] if lengths is None else lengths, answers["sectors"])


def absent(extent):
    return 0, extent, 0, 0, 0, 0, 0


def zero(extent):
    return 0, extent, 0, 1, 0, 0, 0


def stored(extent, sector):
    return 0, extent, 0, 2, sector, 0, 0


def packed(extent, sector, size, offset):
    return 0, extent, 0, 3, sector, size, offset


def bad(number, extent=0, place=0):
    return number, extent, place, 0, 0, 0, 0


def plain(sectors, more=0):
    return b"\x07" * (sectors * SECTOR + more)


NONE = b""
# Capacity 16, two grains: the first stored at sector 8 of the file, the second absent.
HALF = small(8, 0)
# COWD with grains of one sector and capacity 4: the first at 37.
OLD = image(38, (0, cowd(4, 1)), (4, entries(5)), (5, entries(37, 0, 0, 0)))

# ---- each type's source, but for VMFSSPARSE's 43; the extent is counted from 0 by the lines, also where one has no file
disk("five-types",
     ('RW 16 SPARSE "a"', HALF), ("RW 3 ZERO", NONE), ('RDONLY 2 FLAT "b" 1', plain(3)), ('RW 4 VMFSSPARSE "c"', OLD),
     ('RW 1 VMFS "d"', plain(1)),
     sectors={0: stored(0, 8), 7: stored(0, 15), 8: absent(0), 15: absent(0), 16: zero(1), 18: zero(1), 19: stored(2, 1),
              20: stored(2, 2), 21: bad(43, 3), 22: bad(43, 3), 24: bad(43, 3), 25: stored(4, 0), 26: bad(20),
              2**64 - 1: bad(20)})
disk("packed-and-zero", ("RW 1 ZERO", NONE), ('RW 16 SPARSE "a"', stream()),
     sectors={1: packed(1, 6, 5, 0), 8: packed(1, 6, 5, 7), 9: zero(1), 16: zero(1), 17: bad(20)})
# entry 1 means zeros in the one image and a sector in the other, which has no room for it
disk("entry-1", ('RW 16 SPARSE "a"', small(1, 0, head=zeroed(), sectors=6)), ('RW 16 SPARSE "b"', small(0, 1, sectors=6)),
     sectors={0: zero(0), 16: bad(9, 1, 1), 31: bad(9, 1, 1)})
disk("only-zeros", ("RW 1 ZERO", NONE), sectors={0: zero(0), 1: bad(20)})
# a file's own first sector is served, also where it begins as an image
disk("image-as-plain-sectors", ('RW 16 FLAT "a" 0', HALF), ('RW 38 VMFS "b"', OLD), ('RW 37 FLAT "c" 1', OLD),
     sectors={0: stored(0, 0), 15: stored(0, 15), 16: stored(1, 0), 53: stored(1, 37), 54: stored(2, 1), 90: stored(2, 37),
              91: bad(20)})
# sixteen extents
disk("sixteen", *[("RW 1 ZERO", NONE)] * 15, ('RW 1 FLAT "a" 2', plain(3)),
     sectors={0: zero(0), 14: zero(14), 15: stored(15, 2), 16: bad(20)})

# ---- FLAT and VMFS: the offset in sectors, and all the line's sectors in the file, else 45
for kind in ("FLAT", "VMFS"):
    for name, data, fits in (("just-long", plain(5), True), ("longer", plain(6, 511), True),
                             ("byte-short", plain(4, 511), False), ("sector-short", plain(4), False),
                             ("no-bytes", NONE, False)):
        answers = {0: stored(0, 2), 2: stored(0, 4)} if fits else {0: bad(45), 2: bad(45)}
        disk(f"{kind}-{name}", (f'RW 3 {kind} "a" 2', data), sectors={**answers, 3: bad(20)})
    # the offset at its most, and past it: the text's number
    for name, offset, answer in (("2-31", 2**31, bad(45)), ("2-32-less-3", 2**32 - 3, bad(45)),
                                 ("2-32-less-1", 2**32 - 1, bad(45)), ("2-32", 2**32, bad(34, 0, 6))):
        disk(f"{kind}-offset-{name}", (f'RW 3 {kind} "a" {offset}', plain(5)), sectors={0: answer, 2: answer})

# ---- ZERO: any byte at all is 45
disk("zero-with-a-byte", ("RW 1 ZERO", b"\0"), ("RW 1 ZERO", NONE), sectors={0: bad(45), 1: zero(1)})
disk("zero-with-a-sector", ("RW 1 ZERO", NONE), ("RW 1 ZERO", bytes(SECTOR)), sectors={0: zero(0), 1: bad(45, 1)})
disk("zero-with-cowd", ("RW 4 ZERO", OLD), sectors={0: bad(45), 3: bad(45)})

# ---- SPARSE: COWD's magic is 45, whatever follows it; any other bytes are the image's 2, fewer than four its 1
for name, data, number in (
        ("cowd", OLD, 45), ("cowd-2047", OLD[:2047], 45), ("cowd-2048", OLD[:2048], 45), ("cowd-alone", b"COWD", 45),
        ("cowd-version-2", cowd(4, 1, version=2), 45), ("three-bytes", b"COW", 1), ("no-bytes", NONE, 1),
        ("kdmv-alone", b"KDMV", 1), ("other-case", b"cowd", 2), ("neither-magic", b"VMDK" + HALF[4:], 2)):
    disk(f"sparse-{name}", ("RW 1 ZERO", NONE), ('RW 4 SPARSE "a"', data),
         sectors={0: zero(0), 1: bad(number, 1), 4: bad(number, 1), 5: bad(20)})

# ---- VMFSSPARSE: 43 by the line alone (A13), whatever the file holds, and whether its sectors are the line's
for name, data in (
        ("cowd", OLD), ("cowd-2047", OLD[:2047]), ("cowd-alone", b"COWD"), ("cowd-version-2", cowd(4, 1, version=2)),
        ("cowd-table-on-header", image(38, (0, cowd(4, 1)), (4, entries(1)))), ("three-bytes", b"COW"), ("no-bytes", NONE),
        ("kdmv", small(8, 0, head=kdmv(4))), ("kdmv-alone", b"KDMV"), ("neither-magic", b"VMDK" + OLD[4:])):
    disk(f"vmfssparse-{name}", ("RW 1 ZERO", NONE), ('RW 4 VMFSSPARSE "a"', data), ('RDONLY 5 vmfsSparse "b"', data),
         sectors={0: zero(0), 1: bad(43, 1), 4: bad(43, 1), 5: bad(43, 2), 9: bad(43, 2), 10: bad(20)})
# it comes after the descriptor's numbers, 24 and 20, and is the sector's own extent's alone
disk("34-before-43", ('RW 4 VMFSSPARSE "a"', OLD), ("RW 0 ZERO", NONE), sectors={0: bad(34, 0, 7)})
disk("24-before-43", ('RW 4 VMFSSPARSE "a"', OLD), lengths=[len(OLD) - 1], sectors={0: bad(24)})
disk("43-of-another-extent", ('RW 4 VMFSSPARSE "a"', OLD), ('RW 16 SPARSE "b"', HALF), ('RW 4 VMFSSPARSE "c"', OLD),
     sectors={3: bad(43), 4: stored(1, 8), 19: absent(1), 20: bad(43, 2)})

# ---- the image's own numbers with their places, before 38
for name, data, number, place in (
        ("version", small(8, 0, head=kdmv(version=4)), 3, 0), ("newline", small(8, 0, head=kdmv(newline=b"\n \n\n")), 4, 0),
        ("flags", small(8, 0, head=kdmv(flags=9)), 5, 0), ("sizes", small(8, 0, head=kdmv(0)), 6, 0),
        ("footer", stream(extra=1), 7, 0), ("directory", small(8, 0, head=kdmv(directory=0)), 8, 2),
        ("grain-past", small(8, 16), 9, 1),
        ("marker", image(7, (0, PACKED), (1, entries(2)), (2, entries(0, 6)), (6, marker(0, 5))), 10, 1),
        ("copies", image(12, (0, zeroed(redundant=6)), (1, entries(2)), (2, entries(1)), (6, entries(7))), 11, 0),
        ("shared", small(8, 8), 12, 0)):
    # the second line has another number of sectors too
    disk(f"image-{name}", ("RW 1 ZERO", NONE), ('RW 16 SPARSE "a"', data), ('RW 15 SPARSE "a"', data),
         sectors={0: zero(0), 1: bad(number, 1, place), 16: bad(number, 1, place), 17: bad(number, 2, place)})

# ---- 38: the capacity is not the line's
for name, sectors in (("less", 15), ("more", 17)):
    disk(f"capacity-{name}", (f'RW {sectors} SPARSE "a"', HALF), ('RW 16 SPARSE "b"', HALF),
         sectors={0: bad(38), sectors - 1: bad(38), sectors: stored(1, 8), sectors + 8: absent(1)})

# ---- 39 comes before 43, 45 and the image's numbers, whatever the type
disk("noaccess", ("NOACCESS 1 ZERO", b"\0"), ('NOACCESS 4 SPARSE "a"', OLD), ('NOACCESS 4 FLAT "b" 0', NONE),
     ('NOACCESS 4 VMFSSPARSE "c"', OLD), ('NOACCESS 16 SPARSE "d"', HALF), ("RDONLY 1 ZERO", NONE),
     sectors={0: bad(39), 1: bad(39, 1), 5: bad(39, 2), 9: bad(39, 3), 13: bad(39, 4), 29: zero(5)})

# ---- only the sector's own file is judged, and no byte of another one is taken
disk("own-file-alone", ('RW 16 SPARSE "a"', b"abcd"), ('RW 1 FLAT "b" 0', plain(1)), ('RW 16 SPARSE "c"', small(8, 8)),
     sectors={0: bad(2), 16: stored(1, 0), 17: bad(12, 2), 32: bad(12, 2)})
# a byte from the one file to the other
disk("byte-to-the-next", ('RW 1 FLAT "a" 0', plain(1)), ('RW 1 FLAT "b" 0', plain(1)), lengths=[SECTOR + 1, SECTOR - 1],
     sectors={0: stored(0, 0), 1: bad(45, 1)})
disk("file-of-the-zero-extent", ("RW 1 ZERO", NONE), ('RW 1 FLAT "b" 0', plain(1)), lengths=[SECTOR, 0],
     sectors={0: bad(45), 1: bad(45, 1)})

# ---- 24: as many lengths as extents, and their exact sum; before 20, and naming extent 0
TWO = ("RW 1 ZERO", NONE), ('RW 1 FLAT "a" 0', plain(1))
for name, lengths in (("none", []), ("one-too-few", [SECTOR]), ("one-too-many", [0, SECTOR, 0]), ("byte-less", [0, SECTOR - 1]),
                      ("byte-more", [0, SECTOR + 1]), ("wraps", [2**64 - 1, SECTOR + 1]), ("wraps-twice", [2**63, 2**63])):
    disk(f"lengths-{name}", *TWO, lengths=lengths, sectors={0: bad(24), 1: bad(24), 2: bad(24)})
disk("lengths-right", *TWO, sectors={0: zero(0), 1: stored(1, 0), 2: bad(20)})

# ---- the descriptor's numbers come first, with the line as their place, and name extent 0
for name, text, number, place in (
        ("first-line", KEYS + "RW 1 ZERO", 30, 0), ("after-a-zero", FIRST + KEYS + "RW 1 ZERO\0x", 31, 0),
        ("line", FIRST + KEYS + "RW 1 ZERO\nx", 32, 7), ("key", FIRST + KEYS + "CID=2", 33, 6),
        ("key-missing", FIRST + "RW 1 ZERO", 33, 0), ("extent", FIRST + KEYS + "RW 1 ZERO\nRW 0 ZERO", 34, 7),
        ("no-extent", FIRST + KEYS, 35, 0), ("sum", FIRST + KEYS + "RW 2147483648 ZERO\nRW 1 ZERO", 35, 0),
        ("long", FIRST + KEYS + "RW 1 ZERO\n#" + "x" * 65536, 36, 0)):
    asked(f"text-{name}", text.encode(), [plain(1)], [], {0: bad(number, 0, place), 9: bad(number, 0, place)})
asked("no-text", b"", [], [0], {0: bad(30)})
# the most sectors that a disk has
disk("most-sectors", ("RW 2147483647 ZERO", NONE), ("RW 1 ZERO", NONE),
     sectors={0: zero(0), 2**31 - 2: zero(0), 2**31 - 1: zero(1), 2**31: bad(20)})


def write(folder):
    write_cases(folder, "splits", CASES, LINES)


if __name__ == "__main__":
    main(write)
