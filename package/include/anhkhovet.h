/*
 * anhkhovet: the proved library of sparse disk images (VMDK), as C and C++ call it.
 *
 * Every call looks at memory that is lent to it for the time of the call, keeps nothing, allocates nothing and reads no
 * file. Any bytes and any numbers may be handed in: what breaks a rule is refused. Several threads may make calls at once.
 *
 * A slice is a pointer and a count of elements: `image` and `image_length`. The pointer may be null where the count is 0.
 * What a slice without `const` lends overlaps nothing else that is lent, and nobody else writes what is lent meanwhile. Bytes
 * may stand at any address. Several images or files are one slice, end to end; their lengths add up to exactly its count (24).
 *
 * Answers are structs of 64-bit numbers. `number` is 0 for an answer, else that of the refusal (AnhkhovetRefusal). Look at it
 * first: what does not apply is 0, so a refusal has the `kind` of an absent sector. `place` says where: a part for 8
 * (AnhkhovetMisplacedPart), a grain for 9 and 10, a line for 32 to 34 (33 has 0 where a key is missing, else the line that has
 * it twice or wrong), for 42 the first byte that differs, which is the file's length where it ends too soon; else 0. A call's
 * refusals are listed in the order in which they are asked, 43 after 2, and the first that applies is given. After it lent
 * memory holds what it held, but for the list of anhkhovet_check_in after 12.
 *
 * A sector is 512 bytes. An image stores its disk in grains of some sectors each; an entry of a table says where a grain
 * is, and an entry of the directory where a table is. Everything is counted from 0, but lines are from 1.
 *
 * The library is x86-64 code. With pkg-config: cc example.c $(pkg-config --cflags --libs anhkhovet)
 */
#ifndef ANHKHOVET_H
#define ANHKHOVET_H

#include <stddef.h>
#include <stdint.h>

#ifdef __cplusplus
extern "C" {
#endif

/* Bytes of a sector. */
#define ANHKHOVET_SECTOR 512

/* Bytes of stack that are enough for any call, beside what its thread uses itself. Nine need as much: check, profile, survey,
   normal, collapse, to_kdmv, to_cowd, split and mend. Each other call does with less than 16 KiB. */
#define ANHKHOVET_STACK ((1 << 20) + (1 << 16))

/* As many as a call takes: layers of a chain, images of a survey, extents of a descriptor. */
#define ANHKHOVET_MOST_LAYERS 16
#define ANHKHOVET_MOST_IMAGES 1024
#define ANHKHOVET_MOST_EXTENTS 32

/* Words of a lent list for each area, row and change, and of a whole tally. */
#define ANHKHOVET_AREA_WORDS 3
#define ANHKHOVET_ROW_WORDS 6
#define ANHKHOVET_CHANGE_WORDS 3
#define ANHKHOVET_TALLY_WORDS 63

/* Words that anhkhovet_check_in needs for a file of so many bytes: one for every 64 sectors, rounded up. */
#define ANHKHOVET_MARK_WORDS(length) ((length) / ANHKHOVET_SECTOR / 64 + ((length) / ANHKHOVET_SECTOR % 64 != 0))

/* Bytes that are enough for what normal, collapse, to_kdmv and to_cowd write of images of so many bytes together: capacity is
   AnhkhovetHead's, and in COWD the 4 bytes from 12 on. Words that are enough for anhkhovet_frame. */
#define ANHKHOVET_OUT_BYTES(lengths, capacity) ((lengths) + (capacity) + (1 << 20))
#define ANHKHOVET_FRAME_WORDS(capacity) ((capacity) / 512 + 24)

/* Why a call refuses. share/anhkhovet/docs/REFUSALS.md has for each number its rule, its usual cause and what to try. */
enum AnhkhovetRefusal {
    ANHKHOVET_ANSWERED = 0, /* no refusal */
    /* Of an image. */
    ANHKHOVET_REFUSED_TOO_SHORT = 1, /* the file is too short to hold a header */
    ANHKHOVET_REFUSED_MAGIC = 2, /* the file begins with neither KDMV nor COWD, so it is no sparse image */
    ANHKHOVET_REFUSED_VERSION = 3, /* the header has a version that is not known */
    ANHKHOVET_REFUSED_NEWLINE = 4, /* the header's newline bytes are damaged, as by a copy in text mode */
    ANHKHOVET_REFUSED_FLAGS = 5, /* the header's version, flags, compression and directory sector do not fit together */
    ANHKHOVET_REFUSED_SIZES = 6, /* the header's capacity, grain size or number of entries is not allowed */
    ANHKHOVET_REFUSED_FOOTER = 7, /* the file needs a footer, and its last sectors are not a right one */
    ANHKHOVET_REFUSED_MISPLACED = 8, /* the descriptor, a directory or a table does not lie inside the file */
    ANHKHOVET_REFUSED_GRAIN_PAST = 9, /* the grain runs past the end of the file */
    ANHKHOVET_REFUSED_MARKER = 10, /* the packed grain's marker names another sector or has size 0 */
    ANHKHOVET_REFUSED_COPIES_DIFFER = 11, /* the redundant directory and its tables are not equal to the primary ones */
    ANHKHOVET_REFUSED_SHARED_SECTOR = 12, /* two areas of the file share a sector */
    /* Of what is asked. */
    ANHKHOVET_REFUSED_SECTOR_PAST = 20, /* the sector is at or past the end of the disk */
    ANHKHOVET_REFUSED_TOO_LITTLE_ROOM = 21, /* the output or the list is too short for the result */
    ANHKHOVET_REFUSED_LAYERS_DIFFER = 22, /* the images do not have the same capacity and grain size */
    /* collapse, normal form, lab profile and moves take no compressed image, and a move takes the other kind alone */
    ANHKHOVET_REFUSED_NOT_COLLAPSIBLE = 23,
    /* a chain has 1 to 16 layers, a survey 1 to 1,024 images, a disk of several files one for each extent */
    ANHKHOVET_REFUSED_LENGTHS = 24,
    ANHKHOVET_REFUSED_STILL_OPEN = 27, /* the disk was still open when it was copied */
    /* Of a descriptor's text. */
    ANHKHOVET_REFUSED_FIRST_LINE = 30, /* the first line is not "# Disk DescriptorFile" */
    ANHKHOVET_REFUSED_AFTER_ZERO = 31, /* there is text after a zero byte */
    ANHKHOVET_REFUSED_LINE = 32, /* the line is neither an extent nor of the form key = value */
    ANHKHOVET_REFUSED_KEY = 33, /* version, CID, parentCID or createType is missing */
    ANHKHOVET_REFUSED_EXTENT_LINE = 34, /* the extent line has a field missing, wrong or too many */
    ANHKHOVET_REFUSED_EXTENTS = 35, /* there is no extent, or more than 32, or their sectors add up to over 2^31 */
    ANHKHOVET_REFUSED_TEXT_LENGTH = 36, /* the descriptor is longer than 65,536 bytes */
    /* Of an extent's file, and of what is done to an image. */
    ANHKHOVET_REFUSED_CAPACITY = 38, /* the image's capacity is not the number of sectors of its extent */
    ANHKHOVET_REFUSED_NO_ACCESS = 39, /* the extent is NOACCESS */
    ANHKHOVET_REFUSED_NOT_MENDABLE = 40, /* the image cannot be mended from that side */
    ANHKHOVET_REFUSED_NOT_CLOSABLE = 41, /* the file is no start of a stream that can be closed */
    ANHKHOVET_REFUSED_NOT_NORMAL = 42, /* from here on the file is not its own normal form */
    ANHKHOVET_REFUSED_COWD = 43, /* it is a COWD image, or by its line an extent of one, and those are only moved to KDMV */
    /* a grain of under 8 sectors has no place in KDMV, and a grain marked as zeros none in COWD */
    ANHKHOVET_REFUSED_NOT_MOVABLE = 44,
    ANHKHOVET_REFUSED_OTHER_FILE = 45, /* the file is not of its extent's type, or is too short for its sectors */
    /* the lab profile has grains of 128 sectors and a capacity that is a multiple of 128 */
    ANHKHOVET_REFUSED_PROFILE_SIZES = 47
};

/* The place of refusal 8: what does not lie inside the file. Where several do not, the lowest. */
enum AnhkhovetMisplacedPart {
    ANHKHOVET_PART_DESCRIPTOR = 1, /* the descriptor does not lie inside the file, or only one of its two numbers is zero */
    ANHKHOVET_PART_DIRECTORY = 2, /* the directory does not lie inside the file, or its sector is 0 */
    ANHKHOVET_PART_REDUNDANT_DIRECTORY = 3, /* the redundant directory does not lie inside the file */
    ANHKHOVET_PART_PRIMARY_TABLE = 4, /* a primary table does not lie inside the file */
    ANHKHOVET_PART_REDUNDANT_TABLE = 5 /* a redundant table does not lie inside the file */
};

/* `kind` of AnhkhovetLocated and AnhkhovetSteps: where a sector comes from. */
enum AnhkhovetSource {
    ANHKHOVET_SOURCE_ABSENT = 0, /* the image says nothing: its parent is asked, and without one the sector reads as zeros */
    ANHKHOVET_SOURCE_ZERO = 1, /* it reads as zeros, whatever a parent has */
    ANHKHOVET_SOURCE_STORED = 2, /* it stands in the file, at `sector` */
    ANHKHOVET_SOURCE_PACKED = 3 /* it is in a packed grain: at `sector` a marker of 12 bytes, then `size` bytes of payload */
};

/* First word of an area of anhkhovet_frame: what it holds. Its first sector and its sectors follow. */
enum AnhkhovetGroup {
    ANHKHOVET_GROUP_HEADER = 1, ANHKHOVET_GROUP_DESCRIPTOR = 2, ANHKHOVET_GROUP_DIRECTORY = 3,
    ANHKHOVET_GROUP_REDUNDANT_DIRECTORY = 4, ANHKHOVET_GROUP_PRIMARY_TABLE = 5, ANHKHOVET_GROUP_REDUNDANT_TABLE = 6,
    ANHKHOVET_GROUP_FOOTER = 7, /* the header once more, near the end of a stream, with the directory's place */
    ANHKHOVET_GROUP_LAST_SECTOR = 8 /* the sector after the footer */
};

/* `good` of anhkhovet_mend: the side that stays. Any other number than 0 is the redundant one. */
enum AnhkhovetSide { ANHKHOVET_SIDE_PRIMARY = 0, ANHKHOVET_SIDE_REDUNDANT = 1 };
/* `access` of AnhkhovetExtent. */
enum AnhkhovetAccess { ANHKHOVET_ACCESS_RW = 1, ANHKHOVET_ACCESS_RDONLY = 2, ANHKHOVET_ACCESS_NOACCESS = 3 };

/* `kind` of AnhkhovetExtent. */
enum AnhkhovetExtentKind {
    ANHKHOVET_EXTENT_FLAT = 1, /* a file, sector by sector */
    ANHKHOVET_EXTENT_VMFS = 2, /* the same, on another file system */
    ANHKHOVET_EXTENT_SPARSE = 3, /* a KDMV image */
    ANHKHOVET_EXTENT_VMFSSPARSE = 4, /* a COWD image, which anhkhovet_split refuses */
    ANHKHOVET_EXTENT_ZERO = 5 /* nothing: it reads as zeros */
};

/* The answer of the full check and of the lab profile: the disk's sectors, and the sectors of a grain. */
typedef struct AnhkhovetVerdict { uint64_t number, place, capacity, grain_size; } AnhkhovetVerdict;

/* The answer of the check in a lent list: with the sectors of all areas or, on refusal 12, of those before the first one that
   meets an earlier one. */
typedef struct AnhkhovetMarked { uint64_t number, place, capacity, grain_size, marked; } AnhkhovetMarked;

/* What a header says: also the descriptor's first sector and its sectors, which are not judged and may lie past the file (those
   that anhkhovet_frame lists do not), and the dirty number, which is other than 0 where the disk was still open. */
typedef struct AnhkhovetHead {
    uint64_t number, place, capacity, grain_size, descriptor, descriptor_sectors, dirty;
} AnhkhovetHead;

/* Where a sector comes from: the layer of a chain, base 0, or the extent of a disk of several files, also on a refusal, but 0
   on 20, 22, 24 and 30 to 36, which are of the whole; the kind (AnhkhovetSource); the sector of that layer's or extent's own
   file; of a packed grain its payload's bytes, and the sector's number in the grain. */
typedef struct AnhkhovetLocated { uint64_t number, layer, place, kind, sector, size, offset; } AnhkhovetLocated;

/* How a lookup comes to its answer: whether an entry of 1 means zeros (else it is file sector 1), the grain, and the two
   entries with the bytes of the file at which they stand. What was not reached is 0; on 8, 9 and 10 what was is told. The
   rest is AnhkhovetLocated's. */
typedef struct AnhkhovetSteps {
    uint64_t number, place, one_is_zero, grain, directory_at, directory_entry, table_at, table_entry;
    uint64_t kind, sector, size, offset;
} AnhkhovetSteps;
/* A part of the image, in bytes: its first, and how many. Both are 0 where there is none. */
typedef struct AnhkhovetPart { uint64_t at, length; } AnhkhovetPart;
/* How many areas were listed. */
typedef struct AnhkhovetFramed { uint64_t number, place, count; } AnhkhovetFramed;
/* Grains of all accepted images, kind by kind. */
typedef struct AnhkhovetSurveyed { uint64_t number, place, stored, zero, absent, packed; } AnhkhovetSurveyed;
/* How many entries differed. */
typedef struct AnhkhovetMended { uint64_t number, place, count; } AnhkhovetMended;
/* The bytes of what was written. */
typedef struct AnhkhovetWritten { uint64_t number, place, length; } AnhkhovetWritten;
/* What is kept of a stream that broke off, its sectors and the whole grains among them, and the bytes of the tail. */
typedef struct AnhkhovetClosed { uint64_t number, place, sectors, grains, length; } AnhkhovetClosed;

/* What a descriptor says: how many extents; version, CID and parentCID (0xffffffff for no parent); where the value of
   createType stands in the text, without its quotes, and its bytes. */
typedef struct AnhkhovetDescribed {
    uint64_t number, place, extents, version, cid, parent_cid, type_at, type_length;
} AnhkhovetDescribed;

/* One extent: its first virtual sector, its sectors, access (AnhkhovetAccess), kind (AnhkhovetExtentKind), where its name
   stands in the text, without its quotes, and the name's bytes; the offset in the file, in sectors, or 0. */
typedef struct AnhkhovetExtent { uint64_t first, sectors, access, kind, name_at, name_length, offset; } AnhkhovetExtent;
/* The number, in the list, of an extent. */
typedef struct AnhkhovetFound { uint64_t number, place, extent; } AnhkhovetFound;

/* The full check of one image, every layout rule over every sector. Refusals: 1 to 12 and 43. */
AnhkhovetVerdict anhkhovet_check(const uint8_t *image, size_t image_length);

/* The same with its marks in a list of ANHKHOVET_MARK_WORDS(image_length) words at least, whatever it holds. After acceptance
   and after 12 these words are 0; any past them, and all after another refusal, are left. Refusals: 1 to 11 and 43, 21, 12. */
AnhkhovetMarked anhkhovet_check_in(const uint8_t *image, size_t image_length, uint64_t *list, size_t list_length);

/* Whether an image meets the lab profile: clean, uncompressed, grains of 128 sectors and a capacity that is a multiple of
   128, equal to its own normal form in every byte and in length. Refusals: 1 to 12 and 43, 23, 27, 47, 42. */
AnhkhovetVerdict anhkhovet_profile(const uint8_t *image, size_t image_length);

/* The header alone, and the footer where the header asks for one. Refusals: 1 to 7 and 43. */
AnhkhovetHead anhkhovet_header(const uint8_t *image, size_t image_length);

/* Where virtual sector `sector` of one image comes from. Judged is what the answer needs alone, so an image that is not
   accepted may have answers. Refusals: 1 to 7 and 43, 20, 8 to 10. */
AnhkhovetLocated anhkhovet_lookup(const uint8_t *image, size_t image_length, uint64_t sector);

/* How anhkhovet_lookup comes to its answer. Its refusals are the same. */
AnhkhovetSteps anhkhovet_steps(const uint8_t *image, size_t image_length, uint64_t sector);

/* Where virtual sector `sector` of a chain comes from: the topmost layer in which it is not absent, else layer 0 and absent.
   `layers` has 1 to 16 images end to end, base first, and `lengths` their bytes. Refusals: 24; of each header from the top
   down 1 to 7 and 43; 22; 20; 8 to 10 of each layer that is met on the way down. */
AnhkhovetLocated anhkhovet_chain(
    const uint8_t *layers, size_t layers_length, const uint64_t *lengths, size_t lengths_length, uint64_t sector);

/* The bytes behind a sector, as a part of the image: 512 of a stored sector, the payload of a packed grain, which may be 512
   too, none where it is absent, zero or refused. anhkhovet_lookup tells all five apart. */
AnhkhovetPart anhkhovet_read(const uint8_t *image, size_t image_length, uint64_t sector);

/* Lists the areas of an image but its grains over the start of `list`, ANHKHOVET_AREA_WORDS each: group (AnhkhovetGroup),
   first sector, sectors. ANHKHOVET_FRAME_WORDS are enough. They may share sectors. Refusals: 1 to 8 and 43, 21. */
AnhkhovetFramed anhkhovet_frame(const uint8_t *image, size_t image_length, uint64_t *list, size_t list_length);

/* Checks 1 to 1,024 images, end to end in `images` with their bytes in `lengths`, and counts their grains. Over the start of
   `rows` go ANHKHOVET_ROW_WORDS an image: stored, zero, absent, packed, number, place; over that of `tally`
   ANHKHOVET_TALLY_WORDS, word i being how many images number i + 1 refuses. Refusals: 24, 21; an image's is in its row. */
AnhkhovetSurveyed anhkhovet_survey(
    const uint8_t *images, size_t images_length, const uint64_t *lengths, size_t lengths_length,
    uint64_t *rows, size_t rows_length, uint64_t *tally, size_t tally_length);

/* Overwrites the entries in use of the other side's tables with those of the good side's, in the lent image, if the image so
   changed is accepted. Over the start of `changes` go ANHKHOVET_CHANGE_WORDS for each entry that differed: grain, old entry,
   new entry. As many for each grain of the disk are enough. Refusals: 1 to 8 and 43, 40, 21. */
AnhkhovetMended anhkhovet_mend(uint8_t *image, size_t image_length, uint64_t good, uint64_t *changes, size_t changes_length);

/* Writes the normal form of an image over the start of `out`: header, directory, every table, then the stored grains in their
   order, and no descriptor. ANHKHOVET_OUT_BYTES are enough, here and below. Refusals: 1 to 12 and 43, 23, 27, 21. */
AnhkhovetWritten anhkhovet_normal(const uint8_t *image, size_t image_length, uint8_t *out, size_t out_length);

/* Writes one image that reads as `upper` on top of `lower` does, in normal form, over the start of `out`. The answer does not
   say which of them is refused; anhkhovet_normal does. Refusals: 1 to 12 and 43 of `lower`, then of `upper`; 23, 22, 27, 21. */
AnhkhovetWritten anhkhovet_collapse(
    const uint8_t *lower, size_t lower_length, const uint8_t *upper, size_t upper_length, uint8_t *out, size_t out_length);

/* Writes a COWD image as a KDMV one, in normal form, over the start of `out`. Refusals: 1 to 12, 23, 27, 44, 21. */
AnhkhovetWritten anhkhovet_to_kdmv(const uint8_t *image, size_t image_length, uint8_t *out, size_t out_length);

/* Writes a KDMV image as a COWD one, in normal form, over the start of `out`. Refusals: 1 to 12, 23, 27, 44, 21. */
AnhkhovetWritten anhkhovet_to_cowd(const uint8_t *image, size_t image_length, uint8_t *out, size_t out_length);

/* Writes the tail that closes a stream that broke off over the start of `out`: the first `sectors` sectors of the image, and
   the tail behind them, are an accepted image. 5 * image_length + 2 MiB are enough. Refusals: 1 to 6 and 43, 41, 21. */
AnhkhovetClosed anhkhovet_close(const uint8_t *image, size_t image_length, uint8_t *out, size_t out_length);

/* Reads a descriptor and stores its extents over the start of `extents`; ANHKHOVET_MOST_EXTENTS are enough. Refusals: 36, 31,
   30, 32 to 35, 21. */
AnhkhovetDescribed anhkhovet_descriptor(
    const uint8_t *text, size_t text_length, AnhkhovetExtent *extents, size_t extents_length);

/* The first extent of the list that holds `sector`. Refusal: 20. */
AnhkhovetFound anhkhovet_find(const AnhkhovetExtent *extents, size_t extents_length, uint64_t sector);

/* Where virtual sector `sector` of a disk of several files comes from: its descriptor's text, the files of its extents end to
   end in the order of their lines, and the bytes of each, 0 for ZERO. The sector's own file alone is judged, and checked whole
   in each call; any other may be left out, with 0 bytes. Refusals: 36, 31, 30, 32 to 35, 24, 20; of the sector's own extent 39,
   43, 45, 1 to 12, 38. */
AnhkhovetLocated anhkhovet_split(
    const uint8_t *text, size_t text_length, const uint8_t *files, size_t files_length,
    const uint64_t *lengths, size_t lengths_length, uint64_t sector);

/* The sizes that the library's own structs have: where one differs an array has a negative length, and nothing compiles. */
#define ANHKHOVET_WORDS(type, words) typedef char type##Size[sizeof(type) == 8 * (words) ? 1 : -1]
ANHKHOVET_WORDS(AnhkhovetVerdict, 4);
ANHKHOVET_WORDS(AnhkhovetMarked, 5);
ANHKHOVET_WORDS(AnhkhovetHead, 7);
ANHKHOVET_WORDS(AnhkhovetLocated, 7);
ANHKHOVET_WORDS(AnhkhovetSteps, 12);
ANHKHOVET_WORDS(AnhkhovetPart, 2);
ANHKHOVET_WORDS(AnhkhovetFramed, 3);
ANHKHOVET_WORDS(AnhkhovetSurveyed, 6);
ANHKHOVET_WORDS(AnhkhovetMended, 3);
ANHKHOVET_WORDS(AnhkhovetWritten, 3);
ANHKHOVET_WORDS(AnhkhovetClosed, 5);
ANHKHOVET_WORDS(AnhkhovetDescribed, 8);
ANHKHOVET_WORDS(AnhkhovetExtent, 7);
ANHKHOVET_WORDS(AnhkhovetFound, 3);
#undef ANHKHOVET_WORDS
typedef char AnhkhovetCountSize[sizeof(size_t) == 8 ? 1 : -1];

#ifdef __cplusplus
}
#endif
#endif
