#include "chain.h"

#include "refusal.h"

#define NBDKIT_API_VERSION 2
#include <nbdkit-plugin.h>

#include <stdlib.h>
#include <sys/mman.h>

/* The check's marks are in a list, since nobody knows how much stack there is here. */
static int check(const Layer *layer, Own own, AnhkhovetMarked *verdict)
{
    size_t words = ANHKHOVET_MARK_WORDS(own.length);
    uint64_t *list = calloc(words + 1, sizeof *list);
    if (list == NULL) {
        nbdkit_error("%s: no memory for the check of a file of that length", layer->name);
        return -1;
    }
    *verdict = anhkhovet_check_in(own.bytes, own.length, list, words);
    free(list);
    return 0;
}

/* Copies what a verdict may lack, and says whether there may be another one then: 1 or 0. */
static int copy_more(const Layer *layer, Own own, const AnhkhovetMarked *verdict)
{
    switch (verdict->number) {
    case ANHKHOVET_REFUSED_MISPLACED:
        /* What names it may stand at the end of the file, and the directory, not yet copied, may name a primary one. */
        if (verdict->place == ANHKHOVET_PART_REDUNDANT_TABLE)
            return own_directory(layer, own) == 0 ? 1 : -1;
        return 0;
    case ANHKHOVET_REFUSED_GRAIN_PAST:
    case ANHKHOVET_REFUSED_MARKER:
        return own_markers(layer, own) == 0 ? 1 : -1;
    default:
        return 0;
    }
}

/* Copies what decides of a layer, and refuses it unless the library accepts it. */
static int judge(const Layer *layer, Own own)
{
    AnhkhovetMarked verdict;
    if (own_frame(layer, own) != 0 || check(layer, own, &verdict) != 0)
        return -1;
    int more = copy_more(layer, own, &verdict);
    if (more < 0 || (more > 0 && check(layer, own, &verdict) != 0))
        return -1;
    if (layer_same(layer) != 0)
        return -1;
    if (verdict.number != ANHKHOVET_ANSWERED)
        return refused(layer->name, verdict.number, verdict.place);
    /* As the tool tells beside every answer. */
    if (anhkhovet_header(own.bytes, own.length).dirty != 0)
        nbdkit_error("%s: the disk was still open when it was copied: it is served as it stands there", layer->name);
    return 0;
}

/* Memory as long as all files: what is never written of it takes none. */
static int own_all(Chain *chain)
{
    size_t length = 0;
    for (size_t i = 0; i < chain->count; i++) {
        chain->lengths[i] = (uint64_t)chain->layers[i].facts.st_size;
        if (__builtin_add_overflow(length, chain->lengths[i], &length)) {
            nbdkit_error("the files are too long to be mapped");
            return -1;
        }
    }
    void *bytes = MAP_FAILED;
    /* Files without a byte still need a place. */
    if (length < SIZE_MAX)
        bytes = mmap(NULL, length + 1, PROT_READ | PROT_WRITE, MAP_PRIVATE | MAP_ANONYMOUS | MAP_NORESERVE, -1, 0);
    if (bytes == MAP_FAILED) {
        nbdkit_error("the files are too long to be mapped: %m");
        return -1;
    }
    /* A large page for each table that stands alone would take 2 MiB. */
    madvise(bytes, length + 1, MADV_NOHUGEPAGE);
    chain->own = (Own){.bytes = bytes, .length = length};
    return 0;
}

static int open_layers(Chain *chain, const char *const *paths, size_t count)
{
    chain->layers = calloc(count + 1, sizeof *chain->layers);
    chain->lengths = calloc(count + 1, sizeof *chain->lengths);
    if (chain->layers == NULL || chain->lengths == NULL) {
        nbdkit_error("no memory for %zu layers", count);
        return -1;
    }
    for (; chain->count < count; chain->count++) {
        if (layer_open(&chain->layers[chain->count], paths[chain->count]) != 0) {
            layer_close(&chain->layers[chain->count]);
            return -1;
        }
    }
    return own_all(chain);
}

static int judge_layers(const Chain *chain)
{
    uint8_t *bytes = chain->own.bytes;
    for (size_t i = 0; i < chain->count; i++) {
        if (judge(&chain->layers[i], (Own){.bytes = bytes, .length = chain->lengths[i]}) != 0)
            return -1;
        bytes += chain->lengths[i];
    }
    return 0;
}

int chain_open(Chain *chain, const char *const *paths, size_t count)
{
    if (open_layers(chain, paths, count) != 0 || judge_layers(chain) != 0)
        return -1;
    AnhkhovetLocated first = chain_at(chain, 0);
    if (first.number != ANHKHOVET_ANSWERED)
        return chain_refused(chain, first);
    AnhkhovetHead head = anhkhovet_header(chain->own.bytes, chain->lengths[0]);
    chain->capacity = head.capacity;
    chain->grain_size = head.grain_size;
    /* From here on threads share it. */
    if (mprotect(chain->own.bytes, chain->own.length + 1, PROT_READ) != 0) {
        nbdkit_error("what was checked cannot be protected: %m");
        return -1;
    }
    return chain_same(chain);
}

int chain_same(const Chain *chain)
{
    for (size_t i = 0; i < chain->count; i++) {
        if (layer_same(&chain->layers[i]) != 0)
            return -1;
    }
    return 0;
}

AnhkhovetLocated chain_at(const Chain *chain, uint64_t sector)
{
    return anhkhovet_chain(chain->own.bytes, chain->own.length, chain->lengths, chain->count, sector);
}

int chain_refused(const Chain *chain, AnhkhovetLocated located)
{
    switch (located.number) {
    case ANHKHOVET_REFUSED_SECTOR_PAST:
    case ANHKHOVET_REFUSED_LAYERS_DIFFER:
    case ANHKHOVET_REFUSED_LENGTHS:
        return refused(NULL, located.number, located.place);
    default:
        return refused(chain->layers[located.layer].name, located.number, located.place);
    }
}

void chain_close(Chain *chain)
{
    for (size_t i = 0; i < chain->count; i++)
        layer_close(&chain->layers[i]);
    if (chain->own.bytes != NULL)
        munmap(chain->own.bytes, chain->own.length + 1);
    free(chain->layers);
    free(chain->lengths);
    *chain = (Chain){0};
}
