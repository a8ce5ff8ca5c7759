//! Refusals of an image.

use super::{Rule, NOWHERE};

const GRAIN: &str = "The grain, from 0: the lowest one at fault or, in a lookup, the one that holds the sector. Its \
     sectors are those from its number x grain size on.";

pub const RULES: &[Rule] = &[
    Rule {
        number: 1,
        rule: "The file has at least 4 bytes. One that begins with KDMV has at least 512, which its header takes; \
               one that begins with COWD has at least 2,048.",
        place: NOWHERE,
        cause: "An empty file, or a download or a copy that ended inside the header.",
        advice: "Look at the file's length (`ls -l FILE`), and fetch or copy it again.",
    },
    Rule {
        number: 2,
        rule: "The first four bytes are 4b 44 4d 56, KDMV, or 43 4f 57 44, COWD.",
        place: NOWHERE,
        cause: "The file is something else: a descriptor (a text that names the files of a disk), a raw disk, an \
                image of another format, an archive.",
        advice: "`head -c 64 FILE | od -A d -t x1z` shows what it begins with. A descriptor is read by `anhkhovet \
                 describe`; handed in alone to `check`, `sector`, `read`, `map` or `digest` it stands for its whole \
                 disk.",
    },
    Rule {
        number: 3,
        rule: "The version, four bytes at 4, is 1, 2 or 3. In COWD, which only the moves read, it is 1.",
        place: NOWHERE,
        cause: "A damaged header, or a program that writes a version of its own.",
        advice: "`anhkhovet header FILE` shows the bytes. Fetch the image again, or have the program that made it \
                 write another version.",
    },
    Rule {
        number: 4,
        rule: "Where flag 0x1 is set, bytes 73 to 76 are 0a 20 0d 0a: newline, space, carriage return, newline.",
        place: NOWHERE,
        cause: "The file was copied as if it were a text, by FTP in text mode for instance. Line ends were changed \
                all over it, in grains too.",
        advice: "Fetch the image again, as binary. Do not put the four bytes back by hand: all other changed bytes \
                 would stay.",
    },
    Rule {
        number: 5,
        rule: "The flags are a sum of 0x1, 0x2, 0x4, 0x10000 and 0x20000, each at most once. Compression is 1 where \
               0x10000 is set, else 0. 0x20000 needs 0x10000, 0x2 a redundant directory, 0x4 version 2 or 3; a \
               directory at the end, which a directory sector of all ones says, needs 0x20000.",
        place: NOWHERE,
        cause: "A damaged header, or a program with flags of its own; in version 1, one that marks zeros by an entry \
                of 1 all the same.",
        advice: "`anhkhovet header FILE` marks the fields that do not fit together.",
    },
    Rule {
        number: 6,
        rule: "Capacity is 1 to 2^31 sectors, so at most 1 TiB. Grain size is a power of two, 8 to 2,048 sectors. A \
               table has 512 entries. In COWD, which only the moves read, grain size is 1 to 2,048, and the stored \
               number of directory entries is enough for the capacity.",
        place: NOWHERE,
        cause: "A damaged header, a disk of over 1 TiB, or a program that makes smaller or larger grains.",
        advice: "`anhkhovet header FILE` says which number it is. A program that reads the image can write it with \
                 other grains, as `qemu-img convert -O vmdk FILE OUT` does.",
    },
    Rule {
        number: 7,
        rule: "Only where the header's directory sector is all ones: the file's length is a multiple of 512 and at \
               least 4 sectors; the last sector but one, the footer, is sector 0 again but for bytes 56 to 63; the \
               last sector is all zero; and the footer's directory sector is not all ones again.",
        place: NOWHERE,
        cause: "A stream that was not downloaded to its end, or one that got bytes behind its end, as by a copy to a \
                device.",
        advice: "Fetch it again. Of what came `anhkhovet close FILE -o OUT` keeps the whole grains. `anhkhovet \
                 header FILE` says which part of the rule is broken.",
    },
    Rule {
        number: 8,
        rule: "The descriptor's two numbers are both zero or both not. The directory's sector is not 0. Descriptor, \
               directory, redundant directory and each table that an entry in use of the two names lie in the file: \
               first sector + sectors is at most F, the file's length / 512 rounded down. A lookup asks for the \
               directory and the sector's own table alone.",
        place: "The part, by the numbers above; the lowest that applies. A lookup gives 2 and 4 alone.",
        cause: "A file that was cut short, or a damaged header or directory.",
        advice: "Compare the file's length with that of the original, and copy it again. Where the part is 1, 3 or \
                 5, `sector`, `explain`, `read`, `map` and `digest` answer all the same.",
    },
    Rule {
        number: 9,
        rule: "Each grain that an entry in use names lies in the file. A stored grain takes grain-size sectors, also \
               the last one, where capacity ends inside it. A packed grain takes (12 + its size) / 512 sectors, \
               rounded up.",
        place: GRAIN,
        cause: "A file that was cut short, by a full disk or a download that ended early; a copy of a disk in use; a \
                damaged table or, of a packed grain, a damaged marker.",
        advice: "Compare the file's length with that of the original, and copy it again. Sectors of other grains can \
                 be read. Where there is a redundant directory, `anhkhovet mend --good redundant FILE` says whether \
                 its tables are sound. `anhkhovet explain FILE N` of a sector of that grain shows the entry that \
                 leads there.",
    },
    Rule {
        number: 10,
        rule: "A packed grain begins with a marker: its first virtual sector, in eight bytes, and its size, in four. \
               The first is the grain's number x grain size, and the size is at least 1.",
        place: GRAIN,
        cause: "A damaged table, which leads to the place of another grain or of none, or a damaged marker.",
        advice: "Fetch the image again. Sectors of other grains can be read. `anhkhovet explain FILE N` of a sector \
                 of that grain shows the marker, and the entry that leads to it.",
    },
    Rule {
        number: 11,
        rule: "Only where the header names a redundant directory: each of its entries in use says absent, zeros or a \
               table where the primary directory's says so, and each two tables are equal in every entry in use.",
        place: NOWHERE,
        cause: "A program that was stopped between the two writes, or one that keeps the primary tables alone up to \
                date.",
        advice: "`anhkhovet mend --good primary FILE` and `--good redundant` list the entries that differ; with `-o \
                 OUT` they write a mended copy. `sector`, `explain`, `read`, `map` and `digest` go by the primary \
                 tables, and answer all the same.",
    },
    Rule {
        number: 12,
        rule: "No sector of the file lies in two areas. Areas are header, descriptor, directory, redundant \
               directory, every table of the two, footer and last sector where there are such, and every grain. Two \
               entries that name one grain, or one table, are two areas.",
        place: NOWHERE,
        cause: "A damaged entry that leads into another area, a copy of a disk in use, or an entry of 1 where that \
                is sector 1 and not zeros: in version 1, or without flag 0x4.",
        advice: "`anhkhovet map FILE` lists where each run of sectors stands: look for two with the same file \
                 sectors, or one below the grains. Where there is a redundant directory, `anhkhovet mend --good \
                 redundant FILE` may do.",
    },
];
