#include "pps.h"

#include <errno.h>
#include <stdio.h>
#include <stdlib.h>
#include <string.h>
#include <sys/socket.h>
#include <sys/un.h>
#include <unistd.h>

enum kind {
    KIND_ATTACH = 1,
    KIND_DETACH,
    KIND_OPEN,
    KIND_READ,
    KIND_WRITE,
    KIND_CLOSE,
    KIND_UNLINK,
    KIND_MKDIR,
    KIND_LIST,
    KIND_NOTIFY,
    KIND_RECEIVE,
    KIND_WAIT,
};

enum tag {
    TAG_REFUSED = 0,
    TAG_DONE,
    TAG_OPENED,
    TAG_DATA,
    TAG_WROTE,
    TAG_PARKED,
    TAG_INPUT,
    TAG_PULSE,
    TAG_LATE_BYTES,
    TAG_LATE_REFUSAL,
    TAG_EMPTY,
};

/* A request's body, an answer's body at most, and what is before the fields of each: length, kind or tag, connection.
   */
enum { REQUEST_MOST = 131072, ANSWER_MOST = 17000064, BEFORE_FIELDS = 7 };

/* One answer: its frame without the length. */
struct answer {
    unsigned char *body;
    size_t length;
    size_t room;
};

struct pps {
    int socket;
    unsigned number;
    uint32_t argument;
    bool is_waiting; /* a waiting Receive is open, or its answer has not been taken */
    bool is_over;    /* its answer is in `late` */
    struct answer last;
    struct answer late;
};

static const char *const names[] = {
    "ok",         "OutOfMemory", "BadFrame",     "NotAttached", "AlreadyAttached", "BadPath",  "BadOption",
    "NotFound",   "Exists",      "NotDirectory", "IsDirectory", "NotEmpty",        "Busy",     "BadHandle",
    "BadMode",    "BadText",     "TooLarge",     "Gone",        "ReadPending",     "TooSmall", "OutboxFull",
    "Backlogged", "NoClient",    "BadArgument",  "TableFull",
};

const char *pps_words(int result) {
    if (result < 0) return strerror(-result);
    if (result == PPS_PARKED) return "parked";
    if (result == PPS_EMPTY) return "empty";
    return (size_t)result < sizeof names / sizeof *names ? names[result] : "unknown refusal";
}

static void put32(unsigned char *at, uint32_t number) {
    at[0] = (unsigned char)(number >> 24);
    at[1] = (unsigned char)(number >> 16);
    at[2] = (unsigned char)(number >> 8);
    at[3] = (unsigned char)number;
}

static uint32_t get32(const unsigned char *at) {
    return (uint32_t)at[0] << 24 | (uint32_t)at[1] << 16 | (uint32_t)at[2] << 8 | at[3];
}

void pps_usual_path(char *path, size_t room) {
    const char *folder = getenv("XDG_RUNTIME_DIR");
    snprintf(path, room, "%s/pps.sock", folder && *folder ? folder : "/run");
}

static int connect_to(int file, const struct sockaddr_un *place) {
    while (connect(file, (const struct sockaddr *)place, sizeof *place) != 0) {
        if (errno != EINTR) return -errno;
    }
    return PPS_OK;
}

int pps_connect(struct pps **pps, const char *path) {
    struct sockaddr_un place = {.sun_family = AF_UNIX};
    char usual[sizeof place.sun_path + 1];
    *pps = NULL;
    if (!path) {
        pps_usual_path(usual, sizeof usual);
        path = usual;
    }
    if (strlen(path) >= sizeof place.sun_path) return -ENAMETOOLONG;
    strcpy(place.sun_path, path);
    struct pps *made = calloc(1, sizeof *made);
    if (!made) return -ENOMEM;
    made->socket = socket(AF_UNIX, SOCK_STREAM | SOCK_CLOEXEC, 0);
    int result = made->socket < 0 ? -errno : connect_to(made->socket, &place);
    if (result == PPS_OK) *pps = made;
    else pps_disconnect(made);
    return result;
}

void pps_disconnect(struct pps *pps) {
    if (!pps) return;
    if (pps->socket >= 0) close(pps->socket);
    free(pps->last.body);
    free(pps->late.body);
    free(pps);
}

unsigned pps_number(const struct pps *pps) { return pps->number; }

uint32_t pps_argument(const struct pps *pps) { return pps->argument; }

int pps_descriptor(const struct pps *pps) { return pps->socket; }

bool pps_wait_is_over(const struct pps *pps) { return pps->is_over; }

/* Sends all the bytes. A daemon that has closed may have sent a refusal before, so that is no error yet. */
static int send_all(struct pps *pps, const void *bytes, size_t length) {
    const unsigned char *at = bytes;
    while (length > 0) {
        ssize_t sent = send(pps->socket, at, length, MSG_NOSIGNAL);
        if (sent < 0 && errno == EINTR) continue;
        if (sent < 0) return errno == EPIPE || errno == ECONNRESET ? PPS_OK : -errno;
        at += sent;
        length -= (size_t)sent;
    }
    return PPS_OK;
}

/* Sends a request: `head` are the fields of fixed size, `rest` is what comes after them. */
static int send_request(struct pps *pps, enum kind kind, const unsigned char *head, size_t heads, const void *rest,
                        size_t length) {
    unsigned char frame[BEFORE_FIELDS + 10] = {0};
    if (length > REQUEST_MOST - 3 - heads) return PPS_TOO_LARGE;
    put32(frame, (uint32_t)(3 + heads + length));
    frame[4] = (unsigned char)kind; /* the connection is 0: the daemon puts its number in */
    if (heads > 0) memcpy(frame + BEFORE_FIELDS, head, heads);
    int result = send_all(pps, frame, BEFORE_FIELDS + heads);
    return result == PPS_OK ? send_all(pps, rest, length) : result;
}

static int receive_all(struct pps *pps, unsigned char *at, size_t length) {
    while (length > 0) {
        ssize_t got = recv(pps->socket, at, length, 0);
        if (got < 0 && errno == EINTR) continue;
        if (got < 0) return -errno;
        if (got == 0) return -ECONNRESET;
        at += got;
        length -= (size_t)got;
    }
    return PPS_OK;
}

/* Reads one answer. */
static int receive_frame(struct pps *pps, struct answer *answer) {
    unsigned char before[4];
    int result = receive_all(pps, before, sizeof before);
    if (result != PPS_OK) return result;
    size_t length = get32(before);
    if (length < 3 || length > ANSWER_MOST) return -EPROTO;
    if (length > answer->room) {
        unsigned char *grown = realloc(answer->body, length);
        if (!grown) return -ENOMEM;
        answer->body = grown;
        answer->room = length;
    }
    answer->length = length;
    result = receive_all(pps, answer->body, length);
    unsigned number = (unsigned)answer->body[0] << 8 | answer->body[1];
    if (result == PPS_OK && number != 0) pps->number = number;
    return result;
}

static enum tag tag_of(const struct answer *answer) { return (enum tag)answer->body[2]; }

/* Whether an answer has as many bytes after its tag. */
static bool has(const struct answer *answer, size_t fields) { return answer->length == 3 + fields; }

static void swap_answers(struct pps *pps) {
    struct answer kept = pps->last;
    pps->last = pps->late;
    pps->late = kept;
}

/* Whether an answer can only be that of the open waiting Receive: a Receive without waiting is refused beside it, so
   items are its own, and Empty is given to it alone. */
static bool is_of_the_wait(const struct pps *pps, const struct answer *answer) {
    if (!pps->is_waiting || pps->is_over) return false;
    enum tag tag = tag_of(answer);
    return tag == TAG_PULSE || tag == TAG_LATE_BYTES || tag == TAG_LATE_REFUSAL || tag == TAG_EMPTY;
}

/* A refusal's number, with its argument kept; -EPROTO if it is not one. */
static int refused(struct pps *pps) {
    if (!has(&pps->last, 5)) return -EPROTO;
    pps->argument = get32(pps->last.body + 4);
    int number = pps->last.body[3];
    return number == 0 || number > PPS_TABLE_FULL ? -EPROTO : number;
}

/* Reads the answer to the request that was sent last. The answer of a waiting Receive that comes before it is kept. */
static int next_answer(struct pps *pps) {
    pps->argument = 0;
    for (;;) {
        int result = receive_frame(pps, &pps->last);
        if (result != PPS_OK) return result;
        if (!is_of_the_wait(pps, &pps->last)) break;
        swap_answers(pps);
        pps->is_over = true;
    }
    return tag_of(&pps->last) == TAG_REFUSED ? refused(pps) : PPS_OK;
}

/* The same, for an answer that has that tag and so many bytes of fields unless it is refused. */
static int answered(struct pps *pps, enum tag tag, size_t fields) {
    int result = next_answer(pps);
    if (result != PPS_OK) return result;
    return tag_of(&pps->last) == tag && (fields == SIZE_MAX || has(&pps->last, fields)) ? PPS_OK : -EPROTO;
}

/* A request with a text alone. */
static int ask_text(struct pps *pps, enum kind kind, const char *text, enum tag tag, size_t fields) {
    int result = send_request(pps, kind, NULL, 0, text, strlen(text));
    return result == PPS_OK ? answered(pps, tag, fields) : result;
}

static struct pps_bytes bytes_after(const struct answer *answer, size_t before) {
    return (struct pps_bytes){answer->body + before, answer->length - before};
}

int pps_attach(struct pps *pps) { return ask_text(pps, KIND_ATTACH, "", TAG_DONE, 0); }

int pps_detach(struct pps *pps) { return ask_text(pps, KIND_DETACH, "", TAG_DONE, 0); }

int pps_unlink(struct pps *pps, const char *path) { return ask_text(pps, KIND_UNLINK, path, TAG_DONE, 0); }

int pps_mkdir(struct pps *pps, const char *path) { return ask_text(pps, KIND_MKDIR, path, TAG_DONE, 0); }

int pps_list(struct pps *pps, const char *path, struct pps_bytes *bytes) {
    int result = ask_text(pps, KIND_LIST, path, TAG_DATA, SIZE_MAX);
    if (result == PPS_OK) *bytes = bytes_after(&pps->last, 3);
    return result;
}

int pps_open(struct pps *pps, unsigned mode, const char *text, uint32_t *handle) {
    unsigned char head = (unsigned char)(mode & 15);
    int result = send_request(pps, KIND_OPEN, &head, 1, text, strlen(text));
    if (result == PPS_OK) result = answered(pps, TAG_OPENED, 4);
    if (result == PPS_OK) *handle = get32(pps->last.body + 3);
    return result;
}

int pps_close(struct pps *pps, uint32_t handle) {
    unsigned char head[4];
    put32(head, handle);
    int result = send_request(pps, KIND_CLOSE, head, sizeof head, NULL, 0);
    return result == PPS_OK ? answered(pps, TAG_DONE, 0) : result;
}

int pps_read(struct pps *pps, uint32_t handle, uint32_t size, struct pps_bytes *bytes) {
    unsigned char head[8];
    put32(head, handle);
    put32(head + 4, size);
    int result = send_request(pps, KIND_READ, head, sizeof head, NULL, 0);
    if (result == PPS_OK) result = next_answer(pps);
    if (result != PPS_OK) return result;
    if (tag_of(&pps->last) == TAG_PARKED && has(&pps->last, 0)) return PPS_PARKED;
    if (tag_of(&pps->last) != TAG_DATA) return -EPROTO;
    *bytes = bytes_after(&pps->last, 3);
    return PPS_OK;
}

int pps_write(struct pps *pps, uint32_t handle, const void *bytes, size_t length) {
    unsigned char head[4];
    put32(head, handle);
    int result = send_request(pps, KIND_WRITE, head, sizeof head, bytes, length);
    if (result == PPS_OK) result = answered(pps, TAG_WROTE, 4);
    if (result == PPS_OK && get32(pps->last.body + 3) != length) return -EPROTO;
    return result;
}

int pps_notify(struct pps *pps, uint32_t handle, enum pps_action action, unsigned code, uint32_t value, bool *input) {
    unsigned char head[10];
    if (code > 255) return PPS_BAD_ARGUMENT;
    put32(head, handle);
    head[4] = (unsigned char)action;
    head[5] = (unsigned char)code;
    put32(head + 6, value);
    int result = send_request(pps, KIND_NOTIFY, head, sizeof head, NULL, 0);
    if (result == PPS_OK) result = answered(pps, TAG_INPUT, 1);
    if (result == PPS_OK) *input = pps->last.body[3] == 1;
    return result;
}

/* The item that an answer is, or PPS_EMPTY. */
static int item_of(const struct answer *answer, struct pps_item *item) {
    const unsigned char *body = answer->body;
    *item = (struct pps_item){0};
    switch (tag_of(answer)) {
    case TAG_EMPTY: return has(answer, 0) ? PPS_EMPTY : -EPROTO;
    case TAG_PULSE:
        if (!has(answer, 5)) return -EPROTO;
        *item = (struct pps_item){.kind = PPS_PULSE, .code = body[3], .value = get32(body + 4)};
        return PPS_OK;
    case TAG_LATE_BYTES:
        if (answer->length < 7) return -EPROTO;
        *item = (struct pps_item){.kind = PPS_LATE_BYTES, .handle = get32(body + 3), .bytes = bytes_after(answer, 7)};
        return PPS_OK;
    case TAG_LATE_REFUSAL:
        if (!has(answer, 9)) return -EPROTO;
        *item = (struct pps_item){.kind = PPS_LATE_REFUSAL, .handle = get32(body + 3), .refusal = body[7]};
        item->argument = get32(body + 8);
        return PPS_OK;
    default: return -EPROTO;
    }
}

int pps_receive(struct pps *pps, struct pps_item *item) {
    int result = send_request(pps, KIND_RECEIVE, NULL, 0, NULL, 0);
    if (result == PPS_OK) result = next_answer(pps);
    return result == PPS_OK ? item_of(&pps->last, item) : result;
}

int pps_wait_begin(struct pps *pps) {
    if (pps->is_waiting) return PPS_READ_PENDING;
    int result = send_request(pps, KIND_WAIT, NULL, 0, NULL, 0);
    pps->is_waiting = result == PPS_OK;
    return result;
}

int pps_wait(struct pps *pps, struct pps_item *item) {
    int result = pps->is_waiting ? PPS_OK : pps_wait_begin(pps);
    if (result == PPS_OK && !pps->is_over) result = receive_frame(pps, &pps->late);
    if (result != PPS_OK) return result;
    pps->is_waiting = pps->is_over = false;
    swap_answers(pps);
    return tag_of(&pps->last) == TAG_REFUSED ? refused(pps) : item_of(&pps->last, item);
}
