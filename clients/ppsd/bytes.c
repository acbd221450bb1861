#include "bytes.h"

#include <stdlib.h>
#include <string.h>

enum { LEAST = 4096, KEPT = 65536 };

unsigned char *bytes_reserve(struct bytes *bytes, size_t length) {
    if (bytes->room - bytes->end >= length && bytes->memory) return bytes->memory + bytes->end;
    size_t held = bytes_length(bytes);
    if (bytes->room - held >= length && bytes->begin >= held) {
        memmove(bytes->memory, bytes_first(bytes), held);
    } else {
        size_t room = bytes->room < LEAST ? LEAST : bytes->room;
        while (room - held < length) room *= 2;
        unsigned char *grown = malloc(room);
        if (!grown) return NULL;
        if (held > 0) memcpy(grown, bytes_first(bytes), held);
        free(bytes->memory);
        bytes->memory = grown;
        bytes->room = room;
    }
    bytes->begin = 0;
    bytes->end = held;
    return bytes->memory + held;
}

bool bytes_append(struct bytes *bytes, const void *from, size_t length) {
    unsigned char *at = bytes_reserve(bytes, length);
    if (!at) return false;
    if (length > 0) memcpy(at, from, length);
    bytes_added(bytes, length);
    return true;
}

void bytes_take(struct bytes *bytes, size_t length) {
    bytes->begin += length;
    if (bytes->begin < bytes->end) return;
    bytes->begin = bytes->end = 0;
    if (bytes->room > KEPT) bytes_free(bytes);
}

void bytes_free(struct bytes *bytes) {
    free(bytes->memory);
    *bytes = (struct bytes){0};
}
