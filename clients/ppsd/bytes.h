/* Bytes that are put in at the end and taken from the front. */
#ifndef BYTES_H
#define BYTES_H

#include <stdbool.h>
#include <stddef.h>

struct bytes {
    unsigned char *memory;
    size_t begin, end, room;
};

static inline size_t bytes_length(const struct bytes *bytes) { return bytes->end - bytes->begin; }

static inline unsigned char *bytes_first(const struct bytes *bytes) {
    return bytes->memory ? bytes->memory + bytes->begin : NULL;
}

/* Room for so many more bytes at the end, which bytes_added then counts in; NULL if out of memory. */
unsigned char *bytes_reserve(struct bytes *bytes, size_t length);

static inline void bytes_added(struct bytes *bytes, size_t length) { bytes->end += length; }

/* Puts bytes in; false if out of memory, and then nothing has changed. */
bool bytes_append(struct bytes *bytes, const void *from, size_t length);

/* Takes so many from the front. Much memory is given back when nothing is left. */
void bytes_take(struct bytes *bytes, size_t length);

void bytes_free(struct bytes *bytes);

#endif
