/* One opened file of a chain: what it was at its opening, and bytes read from it. What goes wrong is told by nbdkit_error, and
   the answer is then -1, with errno set. */
#ifndef LAYER_H
#define LAYER_H

#include <stddef.h>
#include <stdint.h>
#include <sys/stat.h>

typedef struct Layer {
    char *name; /* as it is shown */
    int file;
    struct stat facts; /* what shows that it was written */
} Layer;

/* Opens a plain file, and waits until a later write would show. */
int layer_open(Layer *layer, const char *path);

/* Fills `to` with the file's bytes from `at` on. */
int layer_read(const Layer *layer, uint64_t at, uint8_t *to, size_t length);

/* Whether length and times are what they were at the opening. */
int layer_same(const Layer *layer);

/* Tells that they are not. */
int layer_changed(const Layer *layer);

void layer_close(Layer *layer);

#endif
