"""The sentences of rust/anhkhovet/src/refusal.rs, held to it by a test."""

SENTENCES = {
    1: "the file is too short to hold a header",
    2: "the file begins with neither KDMV nor COWD, so it is no sparse image",
    3: "the header has a version that is not known",
    4: "the header's newline bytes are damaged, as by a copy in text mode",
    5: "the header's version, flags, compression and directory sector do not fit together",
    6: "the header's capacity, grain size or number of entries is not allowed",
    7: "the file needs a footer, and its last sectors are not a right one",
    8: "the descriptor, a directory or a table does not lie inside the file",
    9: "the grain runs past the end of the file",
    10: "the packed grain's marker names another sector or has size 0",
    11: "the redundant directory and its tables are not equal to the primary ones",
    12: "two areas of the file share a sector",
    20: "the sector is at or past the end of the disk",
    21: "the output or the list is too short for the result",
    22: "the images do not have the same capacity and grain size",
    23: "collapse, normal form, lab profile and moves take no compressed image, and a move takes the other kind alone",
    24: "a chain has 1 to 16 layers, a survey 1 to 1,024 images, a disk of several files one for each extent",
    27: "the disk was still open when it was copied: shut the machine down and copy it again",
    30: 'the first line is not "# Disk DescriptorFile"',
    31: "there is text after a zero byte",
    32: "the line is neither an extent nor of the form key = value",
    33: "version, CID, parentCID or createType is missing",
    34: "the extent line has a field missing, wrong or too many",
    35: "there is no extent, or more than 32, or their sectors add up to over 2^31",
    36: "the descriptor is longer than 65,536 bytes",
    38: "the image's capacity is not the number of sectors of its extent",
    39: "the extent is NOACCESS",
    40: (
        "the image cannot be mended from that side: it has one directory only, its two directories name tables in "
        "different places, header, footer, directories or tables share a sector, or it would still be refused"
    ),
    41: (
        "the file is no start of a stream that can be closed: that has its directory at the end and no redundant one, "
        "at most 2^31 sectors, grains from sector 2 on at least, and its descriptor, if any, before them"
    ),
    42: "from here on the file is not its own normal form",
    43: "it is a COWD image, or by its line an extent of one, and those are only moved to KDMV",
    44: "a grain of under 8 sectors has no place in KDMV, and a grain marked as zeros none in COWD",
    45: "the file is not of its extent's type, or is too short for its sectors",
    47: "the lab profile has grains of 128 sectors and a capacity that is a multiple of 128",
}
# Of 33 where a line is at fault.
LINE_33 = "this line's key is there twice or has a value of the wrong form"
# Of a number that is none.
BROKEN = "a rule of the format is broken"
# Of 8, by its place.
PARTS = {
    1: "the descriptor does not lie inside the file, or only one of its two numbers is zero",
    2: "the directory does not lie inside the file, or its sector is 0",
    3: "the redundant directory does not lie inside the file",
    4: "a primary table does not lie inside the file",
    5: "a redundant table does not lie inside the file",
}
