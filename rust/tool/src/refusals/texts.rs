//! Refusals of a descriptor's text.

use super::{Rule, NOWHERE};

const LINE: &str = "The line, from 1; empty lines and comments count.";

pub const RULES: &[Rule] = &[
    Rule {
        number: 30,
        rule: "The first line that is not empty is `# Disk DescriptorFile`, in small letters or capitals.",
        place: NOWHERE,
        cause: "The file is no descriptor; or an editor put a byte order mark before its first line; or the line \
                says `Descriptor File`, as some programs write it.",
        advice: "`head -n 1 FILE | od -c` shows the line byte by byte. Write it as it should be.",
    },
    Rule {
        number: 31,
        rule: "The text ends at its first zero byte, and all bytes after that are zero.",
        place: NOWHERE,
        cause: "A text in UTF-16, where every other byte is zero, or a shorter text that was written over the start \
                of a longer one.",
        advice: "Save the text as ASCII or UTF-8, and remove what stands behind its end.",
    },
    Rule {
        number: 32,
        rule: "A line that is neither empty nor begins with # is an extent, which begins with RW, RDONLY or \
               NOACCESS, or has the form key = value, with a key that is not empty.",
        place: LINE,
        cause: "A line that was broken in two, a missing =, or an access word that is misspelled.",
        advice: "Put the line right, or begin it with # where it is a remark.",
    },
    Rule {
        number: 33,
        rule: "version, CID, parentCID and createType are there once each. The version is 1, 2 or 3, CID and \
               parentCID are 1 to 8 hex digits, and createType stands in quotes.",
        place: "The line, from 1, that is the second of its key or has a value of the wrong form; 0 where a key is \
                missing.",
        cause: "A text that was written by hand, or two texts that were put together.",
        advice: "Compare with a descriptor that is accepted: `anhkhovet describe FILE` tells these four of any.",
    },
    Rule {
        number: 34,
        rule: "An extent's line has access, sectors (1 to 2^31) and type; then FLAT a quoted name and an offset, \
               VMFS a quoted name and perhaps an offset, SPARSE and VMFSSPARSE a quoted name alone, ZERO nothing. \
               Names have 1 to 255 bytes, offsets are at most 2^32 - 1, decimal numbers have 1 to 10 digits; spaces \
               or tabs stand between, and nothing behind.",
        place: LINE,
        cause: "An offset that is missing or too many, a name without quotes, sectors in bytes, or a type that is \
                not among the five.",
        advice: "Put the line right: `RW 4192256 SPARSE \"disk-s001.vmdk\"` is one that is.",
    },
    Rule {
        number: 35,
        rule: "There are 1 to 32 extents, and their sectors add up to at most 2^31, so 1 TiB.",
        place: NOWHERE,
        cause: "A disk that is cut into very many files, a disk of over 1 TiB, or a text without any extent.",
        advice: "Have the program that made the disk write it in larger files.",
    },
    Rule {
        number: 36,
        rule: "The text has at most 65,536 bytes, zero bytes at its end counted.",
        place: NOWHERE,
        cause: "A file that is no descriptor, or an image whose header gives its descriptor over 128 sectors.",
        advice: "Look at the file's length and its first bytes; of an image, `anhkhovet header FILE` tells the \
                 descriptor's sectors.",
    },
];
