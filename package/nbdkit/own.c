#include "own.h"

#include "anhkhovet.h"

#define NBDKIT_API_VERSION 2
#include <nbdkit-plugin.h>

#include <stdbool.h>
#include <stdlib.h>
#include <string.h>

/* A footer and the sector after it, and what may follow the last whole sector. */
#define LAST (3 * ANHKHOVET_SECTOR)

/* Of a file that stands still the second list has all that there is, and the third is the same. */
#define ROUNDS 4

/* Bytes of an entry, and of a packed grain's marker. */
#define ENTRY 4
#define MARKER 12

/* The areas of the frame, as the library lists them. */
typedef struct Areas {
    uint64_t *words;
    size_t room;
    size_t count; /* of words */
} Areas;

static uint64_t least(uint64_t a, uint64_t b)
{
    return a < b ? a : b;
}

/* Copies a part, as far as it lies in the file. */
static int copy(const Layer *layer, Own own, uint64_t at, uint64_t length)
{
    at = least(at, own.length);
    return layer_read(layer, at, own.bytes + at, least(length, own.length - at));
}

/* Lists the areas that own bytes tell of so far: none where the image is refused. */
static int list(Own own, Areas *areas)
{
    for (;;) {
        AnhkhovetFramed framed = anhkhovet_frame(own.bytes, own.length, areas->words, areas->room);
        if (framed.number != ANHKHOVET_REFUSED_TOO_LITTLE_ROOM) {
            areas->count = framed.number == ANHKHOVET_ANSWERED ? framed.count * ANHKHOVET_AREA_WORDS : 0;
            return 0;
        }
        size_t room = 2 * areas->room + 64 * ANHKHOVET_AREA_WORDS;
        uint64_t *words = realloc(areas->words, room * sizeof *words);
        if (words == NULL) {
            nbdkit_error("no memory for the list of an image's areas");
            return -1;
        }
        areas->words = words;
        areas->room = room;
    }
}

static bool alike(const Areas *a, const Areas *b)
{
    return a->count == b->count && memcmp(a->words, b->words, a->count * sizeof *a->words) == 0;
}

/* The descriptor's bytes decide nothing, and a header may give it a whole disk. */
static int copy_areas(const Layer *layer, Own own, const Areas *areas)
{
    for (size_t at = 0; at < areas->count; at += ANHKHOVET_AREA_WORDS) {
        const uint64_t *area = areas->words + at;
        if (area[0] == ANHKHOVET_GROUP_DESCRIPTOR)
            continue;
        if (copy(layer, own, ANHKHOVET_SECTOR * area[1], ANHKHOVET_SECTOR * area[2]) != 0)
            return -1;
    }
    return 0;
}

/* Copies what the library names, and asks again, until nothing new is named. */
static int copy_listed(const Layer *layer, Own own, Areas *areas, Areas *before)
{
    for (int round = 0; round < ROUNDS; round++) {
        if (list(own, areas) != 0)
            return -1;
        if (areas->count == 0 || alike(areas, before))
            return 0;
        if (copy_areas(layer, own, areas) != 0)
            return -1;
        Areas last = *before;
        *before = *areas;
        *areas = last;
    }
    /* Areas that overlap were copied twice, and were not the same both times. */
    return layer_changed(layer);
}

int own_frame(const Layer *layer, Own own)
{
    /* From the start of a sector on, so that no marker is there in part. */
    uint64_t last = (own.length - least(LAST, own.length)) / ANHKHOVET_SECTOR * ANHKHOVET_SECTOR;
    if (copy(layer, own, 0, ANHKHOVET_SECTOR) != 0 || copy(layer, own, last, own.length - last) != 0)
        return -1;
    Areas areas = {0}, before = {0};
    int copied = copy_listed(layer, own, &areas, &before);
    free(areas.words);
    free(before.words);
    return copied;
}

int own_directory(const Layer *layer, Own own)
{
    AnhkhovetHead head = anhkhovet_header(own.bytes, own.length);
    uint64_t first = anhkhovet_steps(own.bytes, own.length, 0).directory_at;
    uint64_t last = anhkhovet_steps(own.bytes, own.length, head.capacity - 1).directory_at;
    return copy(layer, own, first, last + ENTRY - first);
}

int own_markers(const Layer *layer, Own own)
{
    AnhkhovetHead head = anhkhovet_header(own.bytes, own.length);
    for (uint64_t sector = 0; sector < head.capacity; sector += head.grain_size) {
        AnhkhovetSteps steps = anhkhovet_steps(own.bytes, own.length, sector);
        if (steps.number != ANHKHOVET_REFUSED_GRAIN_PAST && steps.number != ANHKHOVET_REFUSED_MARKER)
            continue;
        if (copy(layer, own, ANHKHOVET_SECTOR * steps.table_entry, MARKER) != 0)
            return -1;
    }
    return 0;
}
