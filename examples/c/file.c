#include <stdio.h>
#include <stdlib.h>

#include "file.h"

/* All bytes up to the end of a file that is open. */
static uint8_t *read_open(FILE *file, size_t *length)
{
    size_t room = 4096, used = 0, got;
    uint8_t *bytes = malloc(room);
    while (bytes != NULL && (got = fread(bytes + used, 1, room - used, file)) > 0) {
        used += got;
        if (used == room) {
            room *= 2;
            uint8_t *more = realloc(bytes, room);
            if (more == NULL)
                free(bytes);
            bytes = more;
        }
    }
    if (bytes != NULL && ferror(file)) {
        free(bytes);
        bytes = NULL;
    }
    *length = used;
    return bytes;
}

uint8_t *read_file(const char *path, size_t *length)
{
    FILE *file = fopen(path, "rb");
    if (file == NULL)
        return NULL;
    uint8_t *bytes = read_open(file, length);
    fclose(file);
    return bytes;
}
