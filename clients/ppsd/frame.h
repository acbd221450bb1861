/* Frames of requests and answers, as docs/FORMATS.md has them. */
#ifndef FRAME_H
#define FRAME_H

#include <stdbool.h>
#include <stddef.h>
#include <stdint.h>

enum kind {
    KIND_ATTACH = 1,
    KIND_DETACH,
    KIND_OPEN,
    KIND_READ,
    KIND_WRITE,
    KIND_CLOSE,
    KIND_UNLINK,
    KIND_MKDIR,
    KIND_LIST,
    KIND_NOTIFY,
    KIND_RECEIVE,
    KIND_WAIT, /* the daemon's own: Receive, waiting */
};

enum tag { TAG_REFUSED = 0, TAG_DONE, TAG_OPENED, TAG_PULSE = 7, TAG_LATE_BYTES, TAG_LATE_REFUSAL, TAG_EMPTY };

enum refusal {
    REFUSAL_OUT_OF_MEMORY = 1,
    REFUSAL_BAD_FRAME = 2,
    REFUSAL_NOT_ATTACHED = 3,
    REFUSAL_READ_PENDING = 18,
    REFUSAL_BACKLOGGED = 21,
    REFUSAL_NO_CLIENT = 22,
    REFUSAL_TABLE_FULL = 24,
};

/* Bytes of a length, and the least and most of a request's body; the most of an answer's body. */
enum { LENGTH_BYTES = 4, BODY_LEAST = 3, REQUEST_MOST = 131072, ANSWER_MOST = 17000064 };

/* Frames without bytes of their own, whole. */
enum { REQUEST_BARE = 7, ANSWER_BARE = 7, ANSWER_REFUSED = 12 };

enum { CONNECTIONS_MOST = 1024 };

static inline uint32_t get32(const unsigned char *at) {
    return (uint32_t)at[0] << 24 | (uint32_t)at[1] << 16 | (uint32_t)at[2] << 8 | at[3];
}

static inline unsigned get16(const unsigned char *at) { return (unsigned)at[0] << 8 | at[1]; }

static inline void put32(unsigned char *at, uint32_t number) {
    at[0] = (unsigned char)(number >> 24);
    at[1] = (unsigned char)(number >> 16);
    at[2] = (unsigned char)(number >> 8);
    at[3] = (unsigned char)number;
}

static inline void put16(unsigned char *at, unsigned number) {
    at[0] = (unsigned char)(number >> 8);
    at[1] = (unsigned char)number;
}

enum look { LOOK_PART, LOOK_WHOLE, LOOK_MALFORMED };

/* Looks at a client's request at the front of so many bytes. If it is whole, `size` is that of its frame. A length
   that no request has is malformed at once, all else when the frame is whole. */
enum look frame_look(const unsigned char *at, size_t length, size_t *size);

/* How long the frame of the answer to a whole request can be at most. */
size_t frame_most_answer(const unsigned char *frame);

/* Whether there is a whole answer at the front of so many bytes, and the size of its frame. */
enum look answer_look(const unsigned char *at, size_t length, size_t *size);

/* A request without fields. */
void frame_bare(unsigned char frame[REQUEST_BARE], enum kind kind, unsigned number);

/* Answers that the daemon makes itself. */
void answer_refused(unsigned char frame[ANSWER_REFUSED], unsigned number, enum refusal refusal);
void answer_empty(unsigned char frame[ANSWER_BARE], unsigned number);

#endif
