#include "frame.h"

#include <string.h>

/* A request's body after its kind and connection, by the kind: its fields of fixed size, and whether bytes may
   follow. */
static const struct form {
    size_t fields;
    bool has_rest;
} forms[] = {
    [KIND_ATTACH] = {0, false}, [KIND_DETACH] = {0, false},  [KIND_OPEN] = {1, true},     [KIND_READ] = {8, false},
    [KIND_WRITE] = {4, true},   [KIND_CLOSE] = {4, false},   [KIND_UNLINK] = {0, true},   [KIND_MKDIR] = {0, true},
    [KIND_LIST] = {0, true},    [KIND_NOTIFY] = {10, false}, [KIND_RECEIVE] = {0, false}, [KIND_WAIT] = {0, false},
};

enum { FIELDS = 3, MODE_MOST = 15, ACTION_LEAST = 1, ACTION_MOST = 3 };

/* Whether a body is that of a request by a client, which does not name its connection. */
static bool is_well_formed(const unsigned char *body, size_t length) {
    unsigned kind = body[0];
    if (kind < KIND_ATTACH || kind > KIND_WAIT || get16(body + 1) != 0) return false;
    size_t fields = forms[kind].fields;
    if (length < FIELDS + fields || (length > FIELDS + fields && !forms[kind].has_rest)) return false;
    if (kind == KIND_OPEN) return body[FIELDS] <= MODE_MOST;
    if (kind == KIND_NOTIFY) return body[FIELDS + 4] >= ACTION_LEAST && body[FIELDS + 4] <= ACTION_MOST;
    return true;
}

static enum look look(const unsigned char *at, size_t length, size_t most, size_t *size) {
    if (length < LENGTH_BYTES) return LOOK_PART;
    size_t body = get32(at);
    if (body < BODY_LEAST || body > most) return LOOK_MALFORMED;
    *size = LENGTH_BYTES + body;
    return length < *size ? LOOK_PART : LOOK_WHOLE;
}

enum look frame_look(const unsigned char *at, size_t length, size_t *size) {
    enum look found = look(at, length, REQUEST_MOST, size);
    if (found != LOOK_WHOLE) return found;
    return is_well_formed(at + LENGTH_BYTES, *size - LENGTH_BYTES) ? LOOK_WHOLE : LOOK_MALFORMED;
}

/* A listing has 256 objects and 256 directories at most, whose names have 255 bytes at most. */
enum { READ_MOST = 17000000, LIST_MOST = 256 * 256 + 256 * 257, LATE_FIELDS = 4 };

size_t frame_most_answer(const unsigned char *frame) {
    uint32_t size;
    switch (frame[LENGTH_BYTES]) {
    case KIND_READ:
        size = get32(frame + LENGTH_BYTES + FIELDS + 4);
        return ANSWER_REFUSED + (size < READ_MOST ? size : READ_MOST);
    case KIND_LIST: return ANSWER_REFUSED + LIST_MOST;
    case KIND_RECEIVE: return ANSWER_BARE + LATE_FIELDS + READ_MOST;
    default: return ANSWER_REFUSED;
    }
}

enum look answer_look(const unsigned char *at, size_t length, size_t *size) {
    return look(at, length, ANSWER_MOST, size);
}

void frame_bare(unsigned char frame[REQUEST_BARE], enum kind kind, unsigned number) {
    put32(frame, BODY_LEAST);
    frame[4] = (unsigned char)kind;
    put16(frame + 5, number);
}

void answer_refused(unsigned char frame[ANSWER_REFUSED], unsigned number, enum refusal refusal) {
    memset(frame, 0, ANSWER_REFUSED);
    put32(frame, ANSWER_REFUSED - LENGTH_BYTES);
    put16(frame + 4, number);
    frame[6] = TAG_REFUSED;
    frame[7] = (unsigned char)refusal;
}

void answer_empty(unsigned char frame[ANSWER_BARE], unsigned number) {
    put32(frame, BODY_LEAST);
    put16(frame + 4, number);
    frame[6] = TAG_EMPTY;
}
