#include "refusal.h"

#include "anhkhovet.h"

#define NBDKIT_API_VERSION 2
#include <nbdkit-plugin.h>

#include <errno.h>
#include <inttypes.h>
#include <stdio.h>

/* What a check and a chain lookup refuse: the binding's words, which package/nbdkit/test holds them to. */
static const char *const SENTENCES[] = {
    [ANHKHOVET_REFUSED_TOO_SHORT] = "the file is too short to hold a header",
    [ANHKHOVET_REFUSED_MAGIC] = "the file begins with neither KDMV nor COWD, so it is no sparse image",
    [ANHKHOVET_REFUSED_VERSION] = "the header has a version that is not known",
    [ANHKHOVET_REFUSED_NEWLINE] = "the header's newline bytes are damaged, as by a copy in text mode",
    [ANHKHOVET_REFUSED_FLAGS] = "the header's version, flags, compression and directory sector do not fit together",
    [ANHKHOVET_REFUSED_SIZES] = "the header's capacity, grain size or number of entries is not allowed",
    [ANHKHOVET_REFUSED_FOOTER] = "the file needs a footer, and its last sectors are not a right one",
    [ANHKHOVET_REFUSED_MISPLACED] = "the descriptor, a directory or a table does not lie inside the file",
    [ANHKHOVET_REFUSED_GRAIN_PAST] = "the grain runs past the end of the file",
    [ANHKHOVET_REFUSED_MARKER] = "the packed grain's marker names another sector or has size 0",
    [ANHKHOVET_REFUSED_COPIES_DIFFER] = "the redundant directory and its tables are not equal to the primary ones",
    [ANHKHOVET_REFUSED_SHARED_SECTOR] = "two areas of the file share a sector",
    [ANHKHOVET_REFUSED_LAYERS_DIFFER] = "the images do not have the same capacity and grain size",
    [ANHKHOVET_REFUSED_LENGTHS] =
        "a chain has 1 to 16 layers, a survey 1 to 1,024 images, a disk of several files one for each extent",
    [ANHKHOVET_REFUSED_COWD] = "it is a COWD image, or by its line an extent of one, and those are only moved to KDMV",
};

static const char *const PARTS[] = {
    [ANHKHOVET_PART_DESCRIPTOR] = "the descriptor does not lie inside the file, or only one of its two numbers is zero",
    [ANHKHOVET_PART_DIRECTORY] = "the directory does not lie inside the file, or its sector is 0",
    [ANHKHOVET_PART_REDUNDANT_DIRECTORY] = "the redundant directory does not lie inside the file",
    [ANHKHOVET_PART_PRIMARY_TABLE] = "a primary table does not lie inside the file",
    [ANHKHOVET_PART_REDUNDANT_TABLE] = "a redundant table does not lie inside the file",
};

#define COUNT(list) (sizeof(list) / sizeof(*(list)))

static const char *sentence(uint64_t number, uint64_t place)
{
    if (number == ANHKHOVET_REFUSED_MISPLACED && place < COUNT(PARTS) && PARTS[place] != NULL)
        return PARTS[place];
    if (number < COUNT(SENTENCES) && SENTENCES[number] != NULL)
        return SENTENCES[number];
    return "a rule of the format is broken";
}

/* What helps on: a COWD image can be moved, a stream that broke off can be closed, and copies that differ can be mended. */
static const char *hint(uint64_t number)
{
    switch (number) {
    case ANHKHOVET_REFUSED_FOOTER:
        return " (of a download that broke off `anhkhovet close FILE -o OUT` keeps the whole grains)";
    case ANHKHOVET_REFUSED_COPIES_DIFFER:
        return " (`anhkhovet mend` lists the entries of tables that differ, and mends one side from the other in a copy)";
    case ANHKHOVET_REFUSED_COWD:
        return " (`anhkhovet move FILE -o OUT` writes it as KDMV)";
    default:
        return "";
    }
}

int refused(const char *name, uint64_t number, uint64_t place)
{
    char grain[40] = "";
    if (number == ANHKHOVET_REFUSED_GRAIN_PAST || number == ANHKHOVET_REFUSED_MARKER)
        snprintf(grain, sizeof grain, " at grain %" PRIu64, place);
    nbdkit_error("%s%srefused %" PRIu64 "%s: %s%s", name != NULL ? name : "", name != NULL ? ": " : "", number, grain,
                 sentence(number, place), hint(number));
    errno = EIO;
    return -1;
}
