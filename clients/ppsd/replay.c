#include "replay.h"

#include <errno.h>
#include <fcntl.h>
#include <poll.h>
#include <stdio.h>
#include <stdlib.h>
#include <string.h>
#include <unistd.h>

#include "reading.h"

/* A handle of the journal, and the one that it is now. They differ only if something was left out. */
struct pair {
    uint32_t kept, now;
};

struct replay {
    const struct reading *reading;
    struct service service;
    bool is_salvage;
    bool is_attached[CONNECTIONS_MOST + 1];
    struct pair *pairs; /* in the order of `kept` */
    size_t count, room;
    unsigned char frame[LENGTH_BYTES + REQUEST_MOST];
};

static bool refuse(const struct replay *replay, size_t offset, const char *words, unsigned long number) {
    fprintf(stderr, "ppsd: %s: the entry at offset %zu %s %lu\n", replay->reading->path, offset, words, number);
    return false;
}

/* What is left out is reported, and is no fault. */
static bool leave_out(const struct replay *replay, size_t offset, const char *words, unsigned long number) {
    refuse(replay, offset, words, number);
    return true;
}

static bool add_pair(struct replay *replay, uint32_t kept, uint32_t now) {
    if (replay->count == replay->room) {
        size_t room = replay->room == 0 ? 64 : 2 * replay->room;
        struct pair *grown = realloc(replay->pairs, room * sizeof *grown);
        if (!grown) return journal_fault("cannot replay", replay->reading->path);
        replay->pairs = grown;
        replay->room = room;
    }
    replay->pairs[replay->count++] = (struct pair){kept, now};
    return true;
}

static int compare_pairs(const void *a, const void *b) {
    uint32_t one = ((const struct pair *)a)->kept, other = ((const struct pair *)b)->kept;
    return one < other ? -1 : one > other;
}

static const struct pair *pair_of(const struct replay *replay, uint32_t kept) {
    struct pair asked = {.kept = kept};
    return replay->count == 0 ? NULL : bsearch(&asked, replay->pairs, replay->count, sizeof asked, compare_pairs);
}

/* Whether the answer to a replayed request is the one that was given. A message to a server or its clients may be
   refused Backlogged, since reads are not replayed: nothing of it is kept. */
static bool take_answer(struct replay *replay, const struct asked *asked, const unsigned char *frame) {
    bool is_refused = frame[6] == TAG_REFUSED;
    if (is_refused && asked->kind == KIND_WRITE && frame[7] == REFUSAL_BACKLOGGED) return true;
    if (is_refused && replay->is_salvage) return leave_out(replay, asked->offset, "is left out: refused", frame[7]);
    if (is_refused) return refuse(replay, asked->offset, "is refused", frame[7]);
    if (asked->kind != KIND_OPEN) return true;
    uint32_t now = get32(frame + 7);
    if (replay->is_salvage) return add_pair(replay, asked->handle, now);
    return now == asked->handle || refuse(replay, asked->offset, "is an open, and now gives handle", now);
}

static bool take_answers(struct replay *replay) {
    struct bytes *in = &replay->service.in;
    for (;;) {
        size_t size;
        enum look found = answer_look(bytes_first(in), bytes_length(in), &size);
        if (found == LOOK_PART) return true;
        if (found == LOOK_MALFORMED || replay->service.count == 0)
            return refuse(replay, 0, "is not answered in order", 0);
        if (!take_answer(replay, service_asked(&replay->service, 0), bytes_first(in))) return false;
        service_answered(&replay->service);
        bytes_take(in, size);
    }
}

/* Sends what is to be sent, and takes answers: until so few requests have none, and there is room for more. */
static bool go_on(struct replay *replay, size_t most) {
    struct service *service = &replay->service;
    while (service->count > most || !service_has_room(service)) {
        bool has_more = bytes_length(&service->out) > 0;
        struct pollfd polled[2] = {{.fd = service->from, .events = POLLIN}, {.fd = service->to, .events = POLLOUT}};
        if (poll(polled, has_more ? 2 : 1, -1) < 0 && errno != EINTR)
            return journal_fault("cannot wait for", "the service");
        service->is_writable = true;
        bool is_there = service_flush(service) && service_fill(service);
        if (!take_answers(replay)) return false;
        if (!is_there) {
            fprintf(stderr, "ppsd: %s: the service ended while it was replayed\n", replay->reading->path);
            return false;
        }
    }
    return true;
}

/* Sends the request that is in `frame`. */
static bool send_frame(struct replay *replay, struct asked asked, size_t size) {
    unsigned number = get16(replay->frame + LENGTH_BYTES + 1);
    enum kind kind = (enum kind)replay->frame[LENGTH_BYTES];
    errno = ENOMEM;
    if (!service_ask(&replay->service, asked, replay->frame, size, false)) {
        return journal_fault("cannot replay", replay->reading->path);
    }
    if (kind == KIND_ATTACH || kind == KIND_DETACH) replay->is_attached[number] = kind == KIND_ATTACH;
    /* (where something may be left out, what comes next depends on the answer) */
    return go_on(replay, replay->is_salvage ? 0 : SIZE_MAX);
}

static bool send_bare(struct replay *replay, enum kind kind, unsigned number, size_t offset) {
    frame_bare(replay->frame, kind, number);
    return send_frame(replay, (struct asked){.offset = offset}, REQUEST_BARE);
}

/* Where something was left out: the entry's connection is attached as it needs, and its handle is the one that it is
   now. Sets whether the entry can be sent. */
static bool mend(struct replay *replay, const struct entry *entry, bool *can_be_sent) {
    enum kind kind = (enum kind)entry->body[0];
    unsigned number = get16(entry->body + 1);
    bool is_attached = replay->is_attached[number];
    *can_be_sent = kind != KIND_DETACH || is_attached;
    if (!*can_be_sent) return true;
    if (kind == KIND_ATTACH && is_attached && !send_bare(replay, KIND_DETACH, number, entry->offset)) return false;
    if (kind != KIND_ATTACH && !is_attached && !send_bare(replay, KIND_ATTACH, number, entry->offset)) return false;
    if (kind != KIND_WRITE && kind != KIND_CLOSE) return true;
    uint32_t kept = get32(entry->body + BODY_LEAST);
    const struct pair *pair = pair_of(replay, kept);
    *can_be_sent = pair != NULL;
    return pair ? true : leave_out(replay, entry->offset, "is left out, with the open of its handle", kept);
}

static bool is_request(const struct entry *entry) {
    unsigned number = get16(entry->body + 1), kind = entry->body[0];
    size_t fields = kind == KIND_OPEN ? 1 : kind == KIND_WRITE || kind == KIND_CLOSE ? 4 : 0;
    bool is_connection = number >= 1 && number <= CONNECTIONS_MOST;
    return is_connection && journal_keeps((enum kind)kind) && entry->length >= BODY_LEAST + fields;
}

static bool replay_entry(struct replay *replay, const struct entry *entry) {
    bool can_be_sent = true;
    if (!is_request(entry)) return refuse(replay, entry->offset, "is no request of kind", entry->body[0]);
    if (replay->is_salvage && !mend(replay, entry, &can_be_sent)) return false;
    if (!can_be_sent) return true;
    unsigned char *body = replay->frame + LENGTH_BYTES;
    put32(replay->frame, (uint32_t)entry->length);
    memcpy(body, entry->body, entry->length);
    if (replay->is_salvage && (body[0] == KIND_WRITE || body[0] == KIND_CLOSE)) {
        put32(body + BODY_LEAST, pair_of(replay, get32(body + BODY_LEAST))->now);
    }
    struct asked asked = {.handle = entry->handle, .offset = entry->offset};
    return send_frame(replay, asked, LENGTH_BYTES + entry->length);
}

/* All entries, then a Detach of each connection that is still attached, then the end of the requests. */
static bool replay_all(struct replay *replay) {
    for (struct part part = reading_begin(); reading_next(replay->reading, &part);) {
        size_t offset = 0;
        struct entry entry;
        while (part.kind == PART_GROUP && reading_entry(replay->reading, &part, &offset, &entry)) {
            if (!replay_entry(replay, &entry)) return false;
        }
    }
    for (unsigned number = 1; number <= CONNECTIONS_MOST; number++) {
        if (replay->is_attached[number] && !send_bare(replay, KIND_DETACH, number, replay->reading->length))
            return false;
    }
    return go_on(replay, 0);
}

/* Replays the journal over the image, if there is one, into the next image. */
static bool make_next_image(const struct journal *journal, const struct reading *reading, struct service_words words,
                            bool is_salvage) {
    struct replay *replay = calloc(1, sizeof *replay);
    words.save = journal->next_image;
    if (!replay || !service_start(&replay->service, &words)) {
        free(replay);
        return journal_fault("cannot start", words.program);
    }
    replay->reading = reading;
    replay->is_salvage = is_salvage;
    bool is_replayed = replay_all(replay);
    int status = service_end(&replay->service);
    if (is_replayed && status != 0) {
        fprintf(stderr, "ppsd: %s: the service that replayed it ended with status %d\n", journal->path, status);
    }
    free(replay->pairs);
    free(replay);
    return is_replayed && status == 0;
}

static bool is_of(const char *path, const struct image_name *name) {
    struct image_name found;
    return journal_name_image(path, &found) && found.length == name->length && found.checksum == name->checksum;
}

/* The journal has no entries, and is used as it is. */
static bool go_on_with(struct journal *journal, const struct reading *reading) {
    journal->file = open(journal->path, O_WRONLY | O_APPEND | O_CLOEXEC);
    if (journal->file < 0) return journal_fault("cannot write", journal->path);
    memcpy(journal->identity, reading->identity, sizeof journal->identity);
    journal->number = 1;
    journal->length = HEADER_BYTES;
    journal->image_length = reading->image.length;
    return true;
}

static bool start(struct journal *journal, const struct reading *reading, struct service_words words, bool is_salvage) {
    if (reading->at) {
        bool is_image = is_of(journal->image, &reading->image);
        if (!is_image && !is_of(journal->next_image, &reading->image)) {
            fprintf(stderr, "ppsd: %s: it is not of the image %s\n", journal->path, journal->image);
            return false;
        }
        if (!reading_check(reading, is_salvage)) return false;
        /* (it ended between the two renames) */
        if (!is_image && !journal_take_next_image(journal)) return false;
        if (reading->length == HEADER_BYTES) return go_on_with(journal, reading);
    }
    if (access(journal->image, F_OK) == 0) {
        words.image = journal->image;
        words.limit = NULL;
    }
    return make_next_image(journal, reading, words, is_salvage) && journal_begin_anew(journal);
}

bool journal_start(struct journal *journal, const char *program, const char *limit, bool is_salvage) {
    struct reading reading;
    struct service_words words = {.program = program, .limit = limit};
    if (!reading_open(&reading, journal->path)) return false;
    bool is_started = start(journal, &reading, words, is_salvage);
    reading_close(&reading);
    return is_started;
}
