/* What decides of a file, copied into memory of the plugin's own: the library is proved over bytes that stand still, and those
   of a file may be written by anyone while it reads. */
#ifndef OWN_H
#define OWN_H

#include "layer.h"

/* Bytes as long as the file, zero at first. What is never written takes no memory. */
typedef struct Own {
    uint8_t *bytes;
    size_t length;
} Own;

/* Copies header and footer, the directories and the tables; of an image that is refused, as much as tells so. */
int own_frame(const Layer *layer, Own own);

/* Copies the directory of an image with a redundant table outside the file. */
int own_directory(const Layer *layer, Own own);

/* Copies the marker of each grain that is refused without it. */
int own_markers(const Layer *layer, Own own);

#endif
