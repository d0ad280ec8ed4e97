/* Reads a whole file into memory that the caller frees. */
#ifndef READ_FILE_H
#define READ_FILE_H

#include <stdint.h>
#include <stdio.h>
#include <stdlib.h>

/* The bytes and their number, or a null pointer. The memory is never empty: the library wants pointers that are not null. */
static uint8_t *read_file(const char *path, size_t *length) {
    FILE *file = fopen(path, "rb");
    if (file == NULL) return NULL;
    uint8_t *bytes = NULL;
    size_t room = 0, n = 0;
    for (;;) {
        if (n == room) {
            room = room == 0 ? 4096 : 2 * room;
            uint8_t *more = realloc(bytes, room);
            if (more == NULL) break;
            bytes = more;
        }
        size_t got = fread(bytes + n, 1, room - n, file);
        if (got == 0) {
            if (ferror(file)) break;
            fclose(file);
            *length = n;
            return bytes;
        }
        n += got;
    }
    free(bytes);
    fclose(file);
    return NULL;
}

#endif
