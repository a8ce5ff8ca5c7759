#!/usr/bin/env python3
"""Writes tests/cases/texts, which the program `cases` is run on, and what it must print. texts.py [FOLDER] writes it below
another folder than tests.

What must be printed comes from the plain reading in grammar.py. Beside each edge text stands the refusal's number and place,
written down by hand (nothing: accepted); where the two disagree, nothing is written. A label tells each text: where a text is
told by one line of it, that line is the label.
"""
import pathlib
import random
import struct

import asked
from grammar import Refused, described, found, judge

HERE = pathlib.Path(__file__).resolve().parent
CASES, LABELS = [], []


def case(name, text, number=0, place=0, sectors=()):
    asked.label(LABELS, name)
    data = text if isinstance(text, bytes) else text.encode("latin-1")
    try:
        judge(data)
        got = (0, 0)
    except Refused as r:
        got = r.answer
    if got != (number, place):
        raise SystemExit(f"{data[:300]!r}: {got} read, {(number, place)} written down")
    CASES.append((data, sectors))


FIRST = "# Disk DescriptorFile\n"
KEYS = 'version=1\nCID=1f\nparentCID=ffffffff\ncreateType="custom"\n'
ZERO = "RW 4 ZERO\n"
WHOLE = FIRST + KEYS + ZERO


def shown(text):
    """A line as it is written here."""
    return text.encode("unicode_escape").decode()


def keyed(name, *lines, number=0, place=0, sectors=()):
    """The first line, the four keys, and lines from line 6 on."""
    case(name, FIRST + KEYS + "\n".join(lines), number, place, sectors)


def line(text, number=0, place=None, name=None):
    """One line more, line 7 after an extent."""
    keyed(name or shown(text), "RW 4 ZERO", text, number=number, place=(7 if number else 0) if place is None else place)


# real texts
for name in ("monolithicFlat", "twoGbMaxExtentSparse", "twoGbMaxExtentFlat", "monolithicSparse", "streamOptimized", "delta"):
    case(name, (HERE / "texts" / (name + ".text")).read_bytes(),
         sectors=(0, 2048, 4194303, 4194304, 6291455, 6291456, 2**64 - 1))
case("VMDKstream", (HERE / "texts" / "VMDKstream.text").read_bytes(), 30)
# source 002's parts as one text, source 000's extents of a lab disk, source 001's example
DDB = ('\n# The Disk Data Base\n#DDB\n\nddb.virtualHWVersion = "4"\nddb.geometry.cylinders = "16383"\n'
       'ddb.geometry.heads = "16"\nddb.geometry.sectors = "63"\nddb.adapterType = "ide"\nddb.toolsVersion = "0"\n')
HEAD = '# Disk DescriptorFile\nversion=1\nCID=12345678\nparentCID=ffffffff\ncreateType="twoGbMaxExtentSparse"\n'
case("sparse-of-002", HEAD + '\n# Extent description\nRW 4192256 SPARSE "test-s001.vmdk"\n' + DDB,
     sectors=(0, 4192255, 4192256))
case("flat-of-002", HEAD + '\n# Extent description\nRW 1048576 FLAT "test-f001.vmdk" 0\n' + DDB)
case("lab-disk-of-000",
     HEAD + "".join(f'RW 8323072 SPARSE "disk-s{i:03}.vmdk"\n' for i in range(1, 16)) + 'RW 983040  SPARSE "disk-s016.vmdk"\n',
     sectors=(8323071, 8323072, 124846079, 124846080, 125829119, 125829120))
case("example-of-001",
     HEAD + 'RW 4194304 SPARSE "disk-s001.vmdk"\nRW 4194304 SPARSE "disk-s002.vmdk"\nRW 2097152 SPARSE "disk-s003.vmdk"\n',
     sectors=(4194304, 8388607, 8388608, 10485759, 10485760))
# 36: 65,536 bytes, zero bytes counted; it comes before 31
case("65536-bytes", WHOLE.encode().ljust(65536, b"\0"))
case("65537-bytes-of-zeros", WHOLE.encode().ljust(65537, b"\0"), 36)
case("65537-bytes", WHOLE.encode().ljust(65536, b"\0") + b"x", 36)
# 31: before 30 and every line
case("zero-byte", WHOLE + "\0")
case("zero-bytes", WHOLE + "\0\0\0")
case("line-after-zero-byte", WHOLE + "\0\n", 31)
case("byte-between-zero-bytes", WHOLE + "\0\0x\0", 31)
case("31-before-30", "x\0x", 31)
case("text-after-first-zero-byte", "\0x", 31)
case("31-before-a-line", FIRST + "word\n\0\0 ", 31)
# 30: the first line that isn't empty
for name, text in (("no-bytes", ""), ("only-a-zero-byte", "\0"), ("only-an-end", "\n"), ("only-blanks", " \t\r\n\r\n"),
                   ("keys-first", KEYS + ZERO), ("comment-first", "# note\n" + WHOLE), ("mark-first", "\xef\xbb\xbf" + WHOLE),
                   ("0b-first", "\x0b" + WHOLE), ("30-before-a-line", "word\nword\n")):
    case(name, text, 30)
for first in ("#Disk DescriptorFile", "# Disk DescriptorFil", "# Disk DescriptorFile2", "# Disk  DescriptorFile",
              "# Disk DescriptorFile x", "# Disk DescriptorFile\x0c", "# Disk Descriptor\rFile"):
    case(shown(first), first + "\n" + KEYS + ZERO, 30)
for first in ("# Disk DescriptorFile", "# disk descriptorfile", "# DISK DESCRIPTORFILE", " \t\r# Disk DescriptorFile\r\t ",
              "\n\r\n \t\n# Disk DescriptorFile", "# Disk DescriptorFile\n# Disk DescriptorFile"):
    case(shown(first), first + "\n" + KEYS + ZERO)
# lines: trimmed at both ends, ended by 0a or with the text, all of them counted
case("ended-by-0d-0a", WHOLE.replace("\n", "\r\n"))
case("trimmed-at-both-ends", WHOLE.replace("\n", " \t\r\n\t \r"))
case("ended-with-the-text", WHOLE[:-1])
case("empty-lines-at-the-end", WHOLE + "\n\n")
case("skipped-lines", FIRST + "\n# note\n\n" + KEYS + "# RW 4 ZERO\n" + ZERO)
case("skipped-lines-counted", FIRST + "\n# note\n\r\nword\n" + KEYS + ZERO, 32, 5)
case("last-line-of-no-form", WHOLE + "word", 32, 7)
case("empty-lines-counted", WHOLE + "\n\n#\nword", 32, 10)
case("ended-by-0d", WHOLE.replace("\n", "\r"), 30)
# 32: a line of no form
for text, number in (("word", 32), ("=", 32), ("==", 32), (" = x", 32), ("=x", 32), ("\t\r = x", 32), ("x=", 0), ("x==", 0), ("x", 32),
                     ("a b = c", 0), ('"=', 0), ("\x0b", 32), ("\x0b=", 0), ("\xff=\xff", 0), ("ddb.comment = \"a # b\"", 0),
                     ("encoding=\"UTF-8\"", 0), ("x\r=\ry", 0), ("RWX 4 ZERO", 32), ("XRW 4 ZERO", 32), ("RW\r4 ZERO", 32), ("4 RW ZERO", 32)):
    line(text, number)
# an access is a first word alone
for text, number in (("RW", 34), ("RW = 1", 34), ("RW=1", 0), ("rw\t=1", 34), ("RDONLY", 34), ("NOACCESS", 34), ("NOACCESS=", 0),
                     ("rdonly = x", 34), ("#RW", 0)):
    line(text, number)


# 33: a required key that is malformed, at its line
def valued(key, value, new, number=0, place=0, name=None):
    """The whole text with another value of a required key."""
    case(name or shown(key + new), WHOLE.replace("\n" + key + value, "\n" + key + new), number, place if number else 0)


for good in ("1", "2", "3", "01", "0000000003", " 3", "\t3\r"):
    valued("version=", "1", good)
for bad in ("", "0", "4", "10", "00000000003", "4294967297", "+1", "1.0", "0x1", "1 2", '"1"', "a", "1\x0b", "=1"):
    valued("version=", "1", bad, 33, 2)
for good in ("0", "f", "F", "00000001", "ABCDEFab", "ffffffff", " 9a "):
    valued("CID=", "1f", good)
    valued("parentCID=", "ffffffff", good)
for bad in ("", "g", "G", "000000001", "123456789", "0x12", '"12"', "1 2", "-1", "@", "`", "/", ":"):
    valued("CID=", "1f", bad, 33, 3)
    valued("parentCID=", "ffffffff", bad, 33, 4)
for good in ('""', '"a"', '"a=b"', '" "', '  "a b"\t', '"\xe4\r\x0b"'):
    valued("createType=", '"custom"', good)
valued("createType=", '"custom"', '"' + "x" * 300 + '"', name="createType-of-300-bytes")
for bad in ("", "custom", '"', '"a', 'a"', '"a"b"', '"a" b', 'a "b"', '"""', '""x', "'a'"):
    valued("createType=", '"custom"', bad, 33, 5)
# keys of another case, with space on both sides
case("keys-of-another-case", FIRST + ' VERSION = 2 \n\tcid\t=\t0\nParentCid\r=\r0\nCREATETYPE="x" \n' + ZERO)
# other keys are skipped, also those that look like required ones
for text in ("versions=9", "CID2=zz", "parent CID=zz", "createType2=x", "v=1", "version\x0b=9", "CI\rD=zz"):
    line(text)
# a required key twice, well formed or not
for text in ("version=1", "Version = 9", "CID=1f", "cid=zz", "PARENTCID=0", 'createType="custom"'):
    line(text, 33, name=f"{text} again")
line("createType", 32)
case("first-of-two-malformed", FIRST + "version=9\nversion=1\n", 33, 2)
# missing keys come after every line, before 35
for key in KEYS.splitlines():
    left = WHOLE.replace(key + "\n", "")
    case(f"no {key}", left, 33)
    case(f"# {key}", WHOLE.replace(key, "# " + key), 33)
    case(f"no {key} and no extent", left.replace(ZERO, ""), 33)
    case(f"no {key}, a faulty line", left + "RW", 34, 6)
case("first-line-alone", FIRST, 33)
case("no-keys", FIRST + ZERO, 33)
# the first faulty line, whatever its number
line("RW\nword\nversion=9", 34, 7)
line("word\nRW\nversion=9", 32, 7)
line("version=9\nword\nRW", 33, 7)
# 34: an extent line
for text, number in (
        # sectors
        ("RW 1 ZERO", 0), ("RW 0 ZERO", 34), ("RW 0000000001 ZERO", 0), ("RW 00000000001 ZERO", 34), ("RW 2147483649 ZERO", 34),
        ("RW 4294967297 ZERO", 34), ("RW 9999999999 ZERO", 34), ("RW -1 ZERO", 34), ("RW 0x1 ZERO", 34), ("RW a ZERO", 34), ("RW ZERO", 34),
        ("RW 1", 34), ("RW 1 ", 34), ('RW "1" ZERO', 34), ("RW 1/ ZERO", 34), ("RW 1: ZERO", 34),
        # access, type and blanks
        ("rw 1 zero", 0), ("RdOnly 1 zErO", 0), ("noaccess 1 ZERO", 0), ("RW\t \t1  \tZERO \t\r", 0), ("RW 1 ZERO\x0b", 34), ("RW 1 ZER", 34),
        ("RW 1 ZEROS", 34), ('RW 1 VMFSRDM "a"', 34), ('RW 1 "a"', 34), ("RW 1\rZERO", 34), ("RW 1\x0bZERO", 34), ("RW 1 [ERO", 34),
        # ZERO has neither name nor offset
        ("RW 1 ZERO 0", 34), ('RW 1 ZERO "a"', 34), ('RW 1 ZERO "a" 0', 34), ('RW 1 ZERO ""', 34),
        # FLAT needs name and offset
        ('RW 1 FLAT "a" 0', 0), ('RW 1 FLAT "a"', 34), ("RW 1 FLAT 0", 34), ("RW 1 FLAT", 34), ('RW 1 FLAT "" 0', 34), ('RW 1 FLAT "a"0', 34),
        ('RW 1 FLAT"a" 0', 34), ('RW 1 FLAT "a" x', 34), ('RW 1 FLAT "a" 0 0', 34), ('RW 1 FLAT "a" 0x', 34), ('RW 1 FLAT a 0', 34),
        ('RW 1 flat\t"a"\t0', 0), ('RW 1 FLAT "a"\r0', 34), ('RW 1 FLAT\r"a" 0', 34), ('RW 1 FLAT "a" 0 partitionUUID b', 34),
        # offsets
        ('RW 1 FLAT "a" 4294967295', 0), ('RW 1 FLAT "a" 4294967296', 34), ('RW 1 FLAT "a" 9999999999', 34), ('RW 1 FLAT "a" -1', 34),
        ('RW 1 FLAT "a" 0000000063', 0), ('RW 1 FLAT "a" 00000000063', 34), ('RW 1 FLAT "a" "b"', 34),
        # VMFS has maybe an offset
        ('RW 1 VMFS "a"', 0), ('RW 1 VMFS "a" 5', 0), ('RW 1 VMFS "a" 4294967295', 0), ('RW 1 VMFS "a" 4294967296', 34), ('RW 1 VMFS "a" x', 34),
        ('RW 1 VMFS "a"5', 34), ("RW 1 VMFS 5", 34), ("RW 1 VMFS", 34), ('RW 1 VMFS ""', 34), ('RW 1 VMFS "a" 5 5', 34),
        # SPARSE and VMFSSPARSE have a name only
        ('RW 1 SPARSE "a"', 0), ('RW 1 SPARSE "a" 0', 34), ("RW 1 SPARSE", 34), ("RW 1 SPARSE a", 34), ('RW 1 SPARSE "a" "b"', 34),
        ('RW 1 VMFSSPARSE "a"', 0), ('RW 1 VMFSSPARSE "a" 0', 34), ("RW 1 VMFSSPARSE", 34), ('RW 1 vmfsSparse "a"', 0),
        # names
        ('RW 1 SPARSE "a', 34), ('RW 1 SPARSE a"', 34),
        ('RW 1 SPARSE "', 34), ('RW 1 SPARSE ""', 34), ('RW 1 SPARSE """', 34), ('RW 1 SPARSE "a"b"', 34), ('RW 1 SPARSE "a"b', 34),
        ('RW 1 SPARSE " "', 0), ('RW 1 SPARSE "a = b # \t\r c"', 0), ('RW 1 SPARSE "\xe4\xff\x01"', 0), ('\t RW 1 SPARSE "a" \t', 0),
        ("RW 1 SPARSE 'a'", 34), ('RW 1 FLAT "a b" 63', 0), ('RW  1  FLAT  "=" 0', 0)):
    line(text, number)
line('RW 1 SPARSE "' + "n" * 255 + '"', name="name-of-255-bytes")
line('RW 1 SPARSE "' + "n" * 256 + '"', 34, name="name-of-256-bytes")
# 35: no extent, over 32, a sum above 2^31, after every line
keyed("no-extent", "", number=35)
keyed("32-extents", *["RW 1 ZERO"] * 32, sectors=(0, 31, 32))
keyed("33-extents", *["RW 1 ZERO"] * 33, number=35)
keyed("33-extents, a faulty line", *["RW 1 ZERO"] * 33 + ["word"], number=32, place=39)
keyed("RW 2147483648 ZERO", "RW 2147483648 ZERO", sectors=(0, 2**31 - 1, 2**31, 2**32, 2**64 - 1))
keyed("sum-of-2147483648", "RW 2147483647 ZERO", "RW 1 ZERO", sectors=(2**31 - 2, 2**31 - 1, 2**31))
keyed("sum-of-2147483649", "RW 2147483648 ZERO", "RW 1 ZERO", number=35)
keyed("sum-past-2^36", *["RW 2147483648 ZERO"] * 33, number=35)
keyed("sum-of-2147483649, a faulty line", "RW 2147483648 ZERO", "RW 1 ZERO", "RW", number=34, place=8)
# 21: a list of four
FOUR = ("RW 1 ZERO", "RW 2 ZERO", 'RDONLY 3 FLAT "a" 7', 'NOACCESS 4 VMFS "bc"')
keyed("four-extents", *FOUR, sectors=(0, 1, 2, 3, 5, 6, 9, 10))
keyed("five-extents", *FOUR, 'RW 5 VMFSSPARSE "d"', sectors=(0, 9, 10, 14, 15))
# texts made of lines picked at random
PIECES = (FIRST[:-1], "version=1", "version = 3", "CID=1f", "parentCID=0", 'createType="x"', "RW 4 ZERO", 'RW 8 FLAT "a" 1', 'rdonly 9 vmfs "b"',
          "", "# note", "key=value", " \t", "word", "version=4", "CID=", "RW 4", 'RW 4 SPARSE "c"', "\0", "\r", "x = \"y\"", "RW=1")
pick = random.Random(1)
for number in range(150):
    lines = list(PIECES[:7]) + [pick.choice(PIECES) for _ in range(pick.randrange(4))]
    head = lines[:1] if pick.random() < 0.9 else []
    tail = lines[1:]
    pick.shuffle(tail)
    text = pick.choice(("\n", "\r\n", " \n")).join(head + tail[pick.randrange(10) == 0:]).encode()
    asked.label(LABELS, f"random-{number}")
    CASES.append((text, (0, 3, 4, 12, 21)))

# ---- the search in a list of any records, with each answer written down by hand: a record's number, or nothing for 20
LISTS = []


def listed(name, records, *answers):
    """Records given by first sector and sectors; those past the last have no sectors."""
    asked.label(LABELS, name)
    numbers = [number for first, sectors in records for number in (first, sectors, 1, 5, 0, 0, 0)]
    data = struct.pack(f"<{7 * asked.SEARCHED}Q", *numbers, *[0] * (7 * asked.SEARCHED - len(numbers)))
    found = [asked.line("find", *((20, 0, 0) if record is None else (0, 0, record))) for _, record in answers]
    LISTS.append((asked.case(asked.FIND, data, [sector for sector, _ in answers]), found))


listed("first-of-two-records", [(5, 0), (5, 2), (6, 9)], (4, None), (5, 1), (6, 1), (7, 2), (14, 2), (15, None))
listed("end-past-2^64", [(0, 4), (2**64 - 1, 2)], (3, 0), (4, None), (2**64 - 2, None), (2**64 - 1, 1))
listed("no-sectors", [], (0, None), (2**64 - 1, None))
listed("last-of-32-records", [(0, 0)] * 31 + [(8, 1)], (7, None), (8, 31), (9, None))


def lines():
    for data, sectors in CASES:
        answer, held, extents = described(data, 4)
        yield asked.line("descriptor", *answer)
        yield from (asked.line("record", *record) for record in held + extents)
        yield from (asked.line("find", *found(extents, sector)) for sector in sectors if extents)


def write(folder):
    cases = [asked.case(asked.TEXT, data, sectors) for data, sectors in CASES] + [data for data, _ in LISTS]
    asked.write_cases(folder, "texts", cases, [*lines(), *(line for _, found in LISTS for line in found)])


if __name__ == "__main__":
    asked.main(write)
