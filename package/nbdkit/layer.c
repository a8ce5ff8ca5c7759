#include "layer.h"

#define NBDKIT_API_VERSION 2
#include <nbdkit-plugin.h>

#include <errno.h>
#include <fcntl.h>
#include <stdbool.h>
#include <stdio.h>
#include <stdlib.h>
#include <string.h>
#include <time.h>
#include <unistd.h>

static const struct timespec TICK = {.tv_nsec = 1000000};
/* Ticks, longer than the clock by which files are stamped takes to go on. */
#define STILL 20
#define PATIENCE 100

/* A path so that it acts on no terminal: bytes that are no plain ASCII are shown as \x and two hex digits. */
static char *shown(const char *path)
{
    char *name = malloc(4 * strlen(path) + 1);
    if (name == NULL)
        return NULL;
    char *to = name;
    for (; *path != '\0'; path++)
        to += sprintf(to, *path < ' ' || *path > '~' || *path == '\\' ? "\\x%02x" : "%c", (unsigned char)*path);
    *to = '\0';
    return name;
}

static int failed(const Layer *layer, const char *tried)
{
    int error = errno;
    nbdkit_error("%s: %s: %m", layer->name, tried);
    errno = error;
    return -1;
}

int layer_changed(const Layer *layer)
{
    nbdkit_error("%s: the file changed after it was opened, so there is no answer; start nbdkit anew", layer->name);
    errno = EIO;
    return -1;
}

static bool same_time(struct timespec a, struct timespec b)
{
    return a.tv_sec == b.tv_sec && a.tv_nsec == b.tv_nsec;
}

/* Its owner can put back the time of modification, but not that of the last change. */
static bool alike(const struct stat *a, const struct stat *b)
{
    return a->st_size == b->st_size && same_time(a->st_mtim, b->st_mtim) && same_time(a->st_ctim, b->st_ctim);
}

static bool before_now(struct timespec time)
{
    struct timespec now = {0};
    clock_gettime(CLOCK_REALTIME_COARSE, &now);
    return time.tv_sec < now.tv_sec || (time.tv_sec == now.tv_sec && time.tv_nsec < now.tv_nsec);
}

/* Waits until the clock has gone on since the last change: only then does the next one get another time. */
static int settle(Layer *layer)
{
    int still = 0;
    for (int ticks = 0; ticks < PATIENCE; ticks++) {
        /* A time that is ahead of the clock, which was set back then, is no other one for that. */
        if (before_now(layer->facts.st_ctim) || still >= STILL)
            return 0;
        nanosleep(&TICK, NULL);
        struct stat now;
        if (fstat(layer->file, &now) != 0)
            return failed(layer, "cannot be looked at");
        still = alike(&now, &layer->facts) ? still + 1 : 0;
        layer->facts = now;
    }
    return layer_changed(layer);
}

/* Anything but a plain file is told before it is opened: nothing is waited for, and no device is touched. */
static int plain(const Layer *layer)
{
    if (S_ISREG(layer->facts.st_mode))
        return 0;
    nbdkit_error("%s: is no plain file, and only those can be read", layer->name);
    errno = EINVAL;
    return -1;
}

int layer_open(Layer *layer, const char *path)
{
    layer->file = -1;
    layer->name = shown(path);
    if (layer->name == NULL) {
        nbdkit_error("no memory for a name");
        return -1;
    }
    if (stat(path, &layer->facts) != 0)
        return failed(layer, "cannot be opened");
    if (plain(layer) != 0)
        return -1;
    /* A name that leads elsewhere by now is not waited for either. */
    layer->file = open(path, O_RDONLY | O_CLOEXEC | O_NONBLOCK);
    if (layer->file < 0)
        return failed(layer, "cannot be opened");
    if (fstat(layer->file, &layer->facts) != 0)
        return failed(layer, "cannot be looked at");
    return plain(layer) == 0 ? settle(layer) : -1;
}

int layer_read(const Layer *layer, uint64_t at, uint8_t *to, size_t length)
{
    while (length > 0) {
        ssize_t got = pread(layer->file, to, length, (off_t)at);
        if (got < 0 && errno == EINTR)
            continue;
        if (got < 0)
            return failed(layer, "cannot be read");
        /* It was longer before. */
        if (got == 0)
            return layer_changed(layer);
        at += (uint64_t)got;
        to += got;
        length -= (size_t)got;
    }
    return 0;
}

int layer_same(const Layer *layer)
{
    struct stat now;
    if (fstat(layer->file, &now) != 0)
        return failed(layer, "cannot be looked at");
    return alike(&now, &layer->facts) ? 0 : layer_changed(layer);
}

void layer_close(Layer *layer)
{
    if (layer->file >= 0)
        close(layer->file);
    free(layer->name);
}
