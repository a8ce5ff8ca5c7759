/* The plugin: nbdkit anhkhovet file=BASE file=DELTA .. serves the disk of a chain, read only. Where each sector comes from, the
   proved library says. docs/NBD.md is about it. */
#include "chain.h"

#define NBDKIT_API_VERSION 2
#include <nbdkit-plugin.h>

#include <errno.h>
#include <inttypes.h>
#include <stdbool.h>
#include <stdlib.h>
#include <string.h>

/* The calls keep nothing, and after get_ready nothing here is written. */
#define THREAD_MODEL NBDKIT_THREAD_MODEL_PARALLEL

static const char **paths;
static size_t path_count;
static Chain chain;

static int chain_config(const char *key, const char *value)
{
    if (strcmp(key, "file") != 0) {
        nbdkit_error("unknown parameter '%s': there is file alone, once for each layer, base first", key);
        return -1;
    }
    const char **more = realloc(paths, (path_count + 1) * sizeof *paths);
    if (more == NULL) {
        nbdkit_error("no memory for a path");
        return -1;
    }
    paths = more;
    paths[path_count++] = value;
    return 0;
}

static int chain_config_complete(void)
{
    if (path_count > 0)
        return 0;
    nbdkit_error("no file is named: file=BASE file=DELTA .., base first");
    return -1;
}

/* Before nbdkit goes to the background, so that a refusal is told where it was started. */
static int chain_get_ready(void)
{
    return chain_open(&chain, paths, path_count);
}

static void chain_unload(void)
{
    chain_close(&chain);
    free(paths);
}

/* A client that comes after a change is turned away at once. */
static void *chain_connect(int readonly)
{
    (void)readonly;
    return chain_same(&chain) == 0 ? NBDKIT_HANDLE_NOT_NEEDED : NULL;
}

static int64_t chain_get_size(void *handle)
{
    (void)handle;
    return (int64_t)(ANHKHOVET_SECTOR * chain.capacity);
}

static int chain_block_size(void *handle, uint32_t *minimum, uint32_t *preferred, uint32_t *maximum)
{
    (void)handle;
    *minimum = 1;
    *preferred = (uint32_t)(ANHKHOVET_SECTOR * chain.grain_size);
    *maximum = UINT32_MAX;
    return 0;
}

/* Nobody writes, so all connections see the same. */
static int chain_can_multi_conn(void *handle)
{
    (void)handle;
    return 1;
}

/* Bytes of the disk in a row that have one source. */
typedef struct Run {
    uint64_t at, end;
    AnhkhovetLocated source; /* of the first one's sector */
} Run;

/* Whether the source of a sector is that of the one so many sectors before it, gone on. */
static bool goes_on(const AnhkhovetLocated *source, uint64_t distance, const AnhkhovetLocated *next)
{
    if (source->number != ANHKHOVET_ANSWERED || next->number != ANHKHOVET_ANSWERED || source->kind != next->kind)
        return false;
    if (source->kind == ANHKHOVET_SOURCE_STORED)
        return source->layer == next->layer && source->sector + distance == next->sector;
    return source->kind != ANHKHOVET_SOURCE_PACKED;
}

/* The run that begins at a byte. The library is asked of each sector of it. */
static Run run_at(uint64_t at, uint64_t end)
{
    uint64_t first = at / ANHKHOVET_SECTOR, next = first + 1;
    Run run = {.at = at, .source = chain_at(&chain, first)};
    for (; ANHKHOVET_SECTOR * next < end; next++) {
        AnhkhovetLocated source = chain_at(&chain, next);
        if (!goes_on(&run.source, next - first, &source))
            break;
    }
    run.end = ANHKHOVET_SECTOR * next < end ? ANHKHOVET_SECTOR * next : end;
    return run;
}

static int packed(const Run *run)
{
    nbdkit_error("%s: sector %" PRIu64 " is in a packed grain, and those are not unpacked here, so its bytes cannot be given",
                 chain.layers[run->source.layer].name, run->at / ANHKHOVET_SECTOR);
    errno = EIO;
    return -1;
}

static int read_run(const Run *run, uint8_t *to)
{
    size_t length = run->end - run->at;
    if (run->source.number != ANHKHOVET_ANSWERED)
        return chain_refused(&chain, run->source);
    switch (run->source.kind) {
    case ANHKHOVET_SOURCE_STORED: {
        uint64_t at = ANHKHOVET_SECTOR * run->source.sector + run->at % ANHKHOVET_SECTOR;
        return layer_read(&chain.layers[run->source.layer], at, to, length);
    }
    case ANHKHOVET_SOURCE_PACKED:
        return packed(run);
    default:
        memset(to, 0, length);
        return 0;
    }
}

static int chain_pread(void *handle, void *to, uint32_t count, uint64_t offset, uint32_t flags)
{
    (void)handle;
    (void)flags;
    uint8_t *bytes = to;
    uint64_t end = offset + count;
    for (uint64_t at = offset; at < end;) {
        Run run = run_at(at, end);
        if (read_run(&run, bytes + (at - offset)) != 0)
            return -1;
        at = run.end;
    }
    return chain_same(&chain);
}

/* What is packed is data, though it cannot be read. */
static uint32_t extent_type(uint64_t kind)
{
    switch (kind) {
    case ANHKHOVET_SOURCE_ABSENT:
        return NBDKIT_EXTENT_HOLE | NBDKIT_EXTENT_ZERO;
    case ANHKHOVET_SOURCE_ZERO:
        return NBDKIT_EXTENT_ZERO;
    default:
        return 0;
    }
}

/* One question a grain, as the tool's map: a grain's sectors are of one kind. nbdkit puts neighbours together. Nothing past what
   was asked for is told: of more than 2^32 - 1 bytes in a row some nbdkits end. */
static int chain_extents(void *handle, uint32_t count, uint64_t offset, uint32_t flags, struct nbdkit_extents *extents)
{
    (void)handle;
    uint64_t grain = ANHKHOVET_SECTOR * chain.grain_size;
    uint64_t end = offset + count;
    uint32_t first = 0;
    for (uint64_t at = offset, next; at < end; at = next) {
        next = at + (grain - at % grain) < end ? at + (grain - at % grain) : end;
        AnhkhovetLocated source = chain_at(&chain, at / ANHKHOVET_SECTOR);
        if (source.number != ANHKHOVET_ANSWERED)
            return chain_refused(&chain, source);
        uint32_t type = extent_type(source.kind);
        if (at == offset)
            first = type;
        if ((flags & NBDKIT_FLAG_REQ_ONE) != 0 && type != first)
            break;
        if (nbdkit_add_extent(extents, at, next - at, type) != 0)
            return -1;
    }
    return chain_same(&chain);
}

static struct nbdkit_plugin plugin = {
    .name = "anhkhovet",
    .longname = "Anhkhovet: chains of sparse disk images (VMDK)",
    .description = "Serves the disk of a chain of VMDK sparse extents, read only. A proved library says where each sector is.",
    .version = VERSION,
    .magic_config_key = "file",
    .config_help = "file=<FILE>  (required) A layer of the chain, base first; once for each.",
    .config = chain_config,
    .config_complete = chain_config_complete,
    .get_ready = chain_get_ready,
    .unload = chain_unload,
    .open = chain_connect,
    .get_size = chain_get_size,
    .block_size = chain_block_size,
    .can_multi_conn = chain_can_multi_conn,
    .pread = chain_pread,
    .extents = chain_extents,
    .errno_is_preserved = 1,
};

NBDKIT_REGISTER_PLUGIN(plugin)
