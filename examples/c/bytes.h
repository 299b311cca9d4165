/* Bytes in memory, for the programs beside it. */
#ifndef BYTES_H
#define BYTES_H

#include <stdint.h>
#include <stdio.h>
#include <stdlib.h>

/* Bytes, and for how many there is room. */
struct bytes {
    uint8_t *at;
    size_t length;
    size_t room;
};

/* Makes room for so many bytes in all. */
static int grow(struct bytes *bytes, size_t room)
{
    uint8_t *at = realloc(bytes->at, room);
    if (at == NULL)
        return 0;
    bytes->at = at;
    bytes->room = room;
    return 1;
}

/* Reads a stream to its end, behind what is there. */
static int read_all(FILE *stream, struct bytes *bytes)
{
    while (!feof(stream)) {
        if (bytes->length == bytes->room && !grow(bytes, 2 * bytes->room))
            return 0;
        bytes->length += fread(bytes->at + bytes->length, 1, bytes->room - bytes->length, stream);
        if (ferror(stream))
            return 0;
    }
    return 1;
}

#endif
