/* The layers of a chain, base first, and what the library answers of its sectors. What goes wrong is told by nbdkit_error, and
   the answer is then -1, with errno set. After chain_open nothing here is written, so that any thread may ask. */
#ifndef CHAIN_H
#define CHAIN_H

#include "anhkhovet.h"
#include "own.h"

typedef struct Chain {
    Layer *layers;
    uint64_t *lengths;
    size_t count;
    Own own; /* of all layers, end to end */
    uint64_t capacity, grain_size; /* in sectors */
} Chain;

/* Opens and checks each layer, then the chain. What is refused is told with number, place and sentence. */
int chain_open(Chain *chain, const char *const *paths, size_t count);

/* Whether each file is what it was at its opening. */
int chain_same(const Chain *chain);

/* Where a sector comes from. */
AnhkhovetLocated chain_at(const Chain *chain, uint64_t sector);

/* Tells why a sector has no answer. */
int chain_refused(const Chain *chain, AnhkhovetLocated located);

void chain_close(Chain *chain);

#endif
