//! Refusals of what is asked, of several files and of what is lent.

use super::{Rule, NOWHERE};

const LAYER_0: &str =
    "It is 0 and points nowhere. In a chain the layer is 0 too: the refusal is of the whole chain.";

const EXTENT: &str = "It is 0 and points nowhere; beside it the extent is named, from 0.";

pub const RULES: &[Rule] = &[
    Rule {
        number: 20,
        rule: "The sector that is asked for is below the disk's capacity; of a disk of several files, below the sum \
               of its extents' sectors.",
        place: LAYER_0,
        cause: "A byte offset that was taken for a sector, counting from 1, or another disk.",
        advice: "Sectors go from 0 to capacity - 1, and byte offset B of the disk is in sector B / 512. `anhkhovet \
                 header FILE` tells the capacity.",
    },
    Rule {
        number: 21,
        rule: "What the caller lends for the result is long enough: bytes for an image or a tail, words for areas, \
               rows, changes or marks, records for extents.",
        place: NOWHERE,
        cause: "A program that calls the library with too little room. The tool never does.",
        advice: "Lend more: the documentation of each call says how much is enough.",
    },
    Rule {
        number: 22,
        rule: "All layers of a chain, and both images of a collapse, have one capacity and one grain size.",
        place: LAYER_0,
        cause: "A layer of another disk, or a disk that was made larger after its snapshot.",
        advice: "`anhkhovet check FILE..` tells both numbers of each file. Leave out what does not belong.",
    },
    Rule {
        number: 23,
        rule: "Collapse, normal form, lab profile and the two moves take no image with flag 0x10000, whose grains \
               are packed. Of the moves the one to KDMV takes COWD, and the one to COWD takes KDMV.",
        place: NOWHERE,
        cause: "An image that was made for download or export, with packed grains.",
        advice: "Have another program unpack it: `qemu-img convert -O vmdk FILE OUT` writes stored grains.",
    },
    Rule {
        number: 24,
        rule: "A chain has 1 to 16 layers, a survey 1 to 1,024 images, a disk of several files one length for each \
               extent; and the lengths add up, exactly, to the bytes that are lent.",
        place: LAYER_0,
        cause: "Over 16 files handed in as a chain, `*.vmdk` for instance; of a program, lengths that are not those \
                of its bytes.",
        advice: "Name the layers of one chain alone, base first. Of a longer chain collapse some neighbours into one \
                 image first.",
    },
    Rule {
        number: 27,
        rule: "Collapse, normal form, lab profile and the two moves take an image whose dirty number is 0: byte 72 \
               in KDMV, the four bytes from 1,648 on in COWD.",
        place: NOWHERE,
        cause: "The image was copied while its machine ran, or after it broke down. What the machine had not written \
                yet is missing.",
        advice: "Shut the machine down and copy the disk again. Where it broke down, start it once more and shut it \
                 down. Other commands answer, and say it beside the answer.",
    },
    Rule {
        number: 37,
        rule: "The small program of the repository, vmdk_check, takes at most 65,536 bytes on its standard input.",
        place: NOWHERE,
        cause: "An image that is longer.",
        advice: "`anhkhovet check FILE` takes files of any length.",
    },
    Rule {
        number: 38,
        rule: "In a disk of several files the image of a SPARSE extent has the capacity that its line gives in \
               sectors.",
        place: EXTENT,
        cause: "A file of another disk, or of another extent, under the name that the line has; a line that was \
                edited.",
        advice: "`anhkhovet describe DISK` has the lines, and `anhkhovet check FILE` the capacity of a file by \
                 itself.",
    },
    Rule {
        number: 39,
        rule: "The extent that holds the sector is not NOACCESS.",
        place: EXTENT,
        cause: "Whoever wrote the descriptor meant that nobody reads these sectors.",
        advice: "Ask for sectors of other extents: `anhkhovet describe DISK` tells which those are.",
    },
    Rule {
        number: 40,
        rule: "An image is mended where it has a redundant directory, both directories have absent, zeros and tables \
               in the same places, no two of header, footer, directories and tables share a sector, and the mended \
               image would be accepted.",
        place: NOWHERE,
        cause: "The other side is the good one, or more is wrong than tables that differ.",
        advice: "`anhkhovet mend` says in brackets which of these it is, and whether the other side would do.",
    },
    Rule {
        number: 41,
        rule: "A start of a stream is closed where its directory is at the end and there is no redundant one; it has \
               at most 2^31 sectors; overhead, where its grains begin, is at least 2 and at most F, the file's \
               length / 512 rounded down; and the descriptor's two numbers are both zero, or both not and the descriptor lies wholly between header and \
               overhead.",
        place: NOWHERE,
        cause: "The image is no stream, or a stream with its directory at the start; or so little of it came that \
                its grains do not begin yet.",
        advice: "`anhkhovet close` says in brackets which of these it is. Of an image with its directory at the \
                 start `sector`, `read` and `map` answer for what is there.",
    },
    Rule {
        number: 42,
        rule: "An image of the lab profile equals its own normal form in every byte and in length.",
        place: "The first byte of the file, from 0, that differs; where one is a start of the other, the shorter \
                length.",
        cause: "It was written by another program, with a descriptor, a redundant directory or grains in another \
                order.",
        advice: "`anhkhovet normal FILE -o OUT` writes the normal form, which meets the profile.",
    },
    Rule {
        number: 43,
        rule: "The image is KDMV, and the extent that holds the sector is not of type VMFSSPARSE, which stands for \
               COWD. Only the two moves take COWD.",
        place: "It is 0 and points nowhere; of several files the layer or the extent is named beside it.",
        cause: "An old lab, or a delta disk of an older virtual machine server.",
        advice: "`anhkhovet move FILE -o OUT` writes it as KDMV. A descriptor that names it has to say SPARSE then, \
                 where it said VMFSSPARSE.",
    },
    Rule {
        number: 44,
        rule: "A move takes grains of at least 8 sectors and, to COWD, no grain that is marked as zeros.",
        place: NOWHERE,
        cause: "COWD has no mark for zeros, which many KDMV images have; KDMV has no grains of 1, 2 or 4 sectors, \
                which some COWD images have.",
        advice: "`anhkhovet move` says in brackets which it is. Have another program write the image with larger \
                 grains, or with the zeros stored.",
    },
    Rule {
        number: 45,
        rule: "In a disk of several files the file of a SPARSE extent does not begin with COWD; that of a FLAT or \
               VMFS extent has all sectors of the line from its offset on; a ZERO extent has no bytes.",
        place: EXTENT,
        cause: "A file that was cut short, one under the name of another, or a line with a wrong type, offset or \
                number of sectors.",
        advice: "`anhkhovet describe DISK` has the lines. Compare offset + sectors with the file's length / 512.",
    },
    Rule {
        number: 47,
        rule: "Where the profile is asked for, grain size is 128 and capacity a multiple of that, so that no grain reaches \
               past the disk's end.",
        place: NOWHERE,
        cause: "A disk whose size was chosen freely, or a program that makes other grains.",
        advice: "Make the disk anew with a size of whole 64 KiB: `qemu-img create -f vmdk` makes grains of 128 \
                 sectors.",
    },
];
