/* Says where a virtual sector of a disk image comes from: find_sector IMAGE SECTOR. */
#include <anhkhovet.h>
#include <inttypes.h>
#include <stdio.h>
#include <stdlib.h>

/* Reads a whole file into memory of its own, which stands still while a call looks at it. */
static uint8_t *read_file(const char *name, size_t *length)
{
    FILE *file = fopen(name, "rb");
    uint8_t *bytes = NULL;
    long size = -1;
    if (file && fseek(file, 0, SEEK_END) == 0)
        size = ftell(file);
    if (size >= 0 && fseek(file, 0, SEEK_SET) == 0)
        bytes = (uint8_t *)malloc((size_t)size + 1);
    if (bytes && fread(bytes, 1, (size_t)size, file) != (size_t)size) {
        free(bytes);
        bytes = NULL;
    }
    if (file)
        fclose(file);
    *length = bytes ? (size_t)size : 0;
    return bytes;
}

static int tell(uint64_t sector, AnhkhovetLocated found)
{
    if (found.number != ANHKHOVET_ANSWERED) {
        printf("refused %" PRIu64 ", place %" PRIu64 "\n", found.number, found.place);
        return 1;
    }
    printf("sector %" PRIu64 ": ", sector);
    switch (found.kind) {
    case ANHKHOVET_SOURCE_ABSENT:
        printf("absent\n");
        break;
    case ANHKHOVET_SOURCE_ZERO:
        printf("zero\n");
        break;
    case ANHKHOVET_SOURCE_STORED:
        printf("stored, file sector %" PRIu64 ", byte offset %" PRIu64 "\n", found.sector, found.sector * ANHKHOVET_SECTOR);
        break;
    default:
        printf("packed, file sector %" PRIu64 ", %" PRIu64 " bytes, sector %" PRIu64 " of its grain\n",
               found.sector, found.size, found.offset);
    }
    return 0;
}

int main(int count, char **words)
{
    size_t length;
    uint8_t *image;
    uint64_t sector = 0;
    char *end = NULL;
    int status;
    if (count == 3)
        sector = strtoull(words[2], &end, 10);
    if (count != 3 || end == words[2] || *end != '\0') {
        fprintf(stderr, "use: find_sector IMAGE SECTOR\n");
        return 2;
    }
    image = read_file(words[1], &length);
    if (!image) {
        perror(words[1]);
        return 4;
    }
    status = tell(sector, anhkhovet_lookup(image, length, sector));
    free(image);
    return status;
}
