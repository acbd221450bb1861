/* Answers: from the service's pipe to the clients they are for. */
#include "server.h"

#include <stdio.h>

void server_mark(struct server *server, struct client *client) {
    if (client->is_dirty) return;
    client->is_dirty = true;
    server->dirty[server->dirties++] = client;
}

/* Gives an answer to a client, which is detached if there is no memory for it. */
static void give(struct server *server, struct client *client, const unsigned char *frame, size_t size) {
    if (!client_send(client, frame, size)) {
        fprintf(stderr, "ppsd: out of memory for client %u, which is detached\n", client->number);
        client_drop(client);
        server_leave(server, client);
    }
    server_mark(server, client);
}

static void give_refusal(struct server *server, struct client *client, unsigned number, enum refusal refusal) {
    unsigned char frame[ANSWER_REFUSED];
    answer_refused(frame, number, refusal);
    give(server, client, frame, sizeof frame);
}

/* Ends a client's waiting Receive. */
static void end_wait(struct server *server, struct client *client) {
    client->wait = 0;
    server->waiting--;
}

/* Ends it with Empty, as a Detach does, if it was open when that was sent. */
static void cancel_wait(struct server *server, struct client *client, unsigned wait) {
    if (wait == 0 || client->wait != wait) return;
    unsigned char frame[ANSWER_BARE];
    answer_empty(frame, client->number);
    end_wait(server, client);
    give(server, client, frame, sizeof frame);
}

static void note_detached(struct server *server, struct client *client) {
    if (!client->is_attached) return;
    client->is_attached = false;
    server->attached--;
}

/* Whether an accepted request of that kind can queue items, for its own client or for others. No other kind gives
   news to a handle that had none. */
static bool can_queue(enum kind kind) {
    return kind == KIND_OPEN || kind == KIND_WRITE || kind == KIND_CLOSE || kind == KIND_UNLINK || kind == KIND_DETACH;
}

/* The answer to a client's own request. */
static void route_own(struct server *server, const struct asked *asked, const unsigned char *frame, size_t size) {
    struct client *client = asked->client;
    bool is_accepted = frame[6] != TAG_REFUSED;
    client->expected -= asked->most;
    if (asked->kind == KIND_DETACH) client->detaches--;
    if (is_accepted && asked->kind == KIND_ATTACH) {
        client->is_attached = true;
        server->attached++;
    }
    if (is_accepted && asked->kind == KIND_DETACH) {
        note_detached(server, client);
        cancel_wait(server, client, asked->wait);
    }
    give(server, client, frame, size);
}

/* The answer to a Receive that the daemon sent for a waiting one. An item is the client's; if there is none, it waits
   on. */
static void route_wait(struct server *server, const struct asked *asked, const unsigned char *frame, size_t size) {
    struct client *client = asked->client;
    client->is_asking = false;
    if (client->wait != asked->wait || frame[6] == TAG_EMPTY) return;
    if (frame[6] == TAG_REFUSED && frame[7] == REFUSAL_OUT_OF_MEMORY) {
        server_retry_later(server);
        return;
    }
    end_wait(server, client);
    give(server, client, frame, size);
}

/* The answer to the Detach of a client from which nothing more is read. */
static void route_leaving(struct server *server, const struct asked *asked, const unsigned char *frame) {
    struct client *client = asked->client;
    if (frame[6] == TAG_REFUSED && frame[7] != REFUSAL_NOT_ATTACHED) {
        client->is_refused = true;
        server_retry_later(server);
        return;
    }
    client->has_left = true;
    note_detached(server, client);
    cancel_wait(server, client, asked->wait);
    if (client->is_malformed) give_refusal(server, client, 0, REFUSAL_BAD_FRAME);
    server_mark(server, client);
}

void server_answer_refusals(struct server *server) {
    while (server->service.count > 0 && service_asked(&server->service, 0)->purpose == FOR_REFUSAL) {
        struct client *client = service_asked(&server->service, 0)->client;
        client->expected -= service_asked(&server->service, 0)->most;
        service_answered(&server->service);
        give_refusal(server, client, client->number, REFUSAL_READ_PENDING);
    }
}

/* Whether an answer is one to the oldest request. */
static bool is_in_order(struct server *server, const unsigned char *frame, enum look found) {
    struct service *service = &server->service;
    if (found == LOOK_WHOLE && service->count > 0) {
        const struct asked *asked = service_asked(service, 0);
        if (get16(frame + LENGTH_BYTES) == asked->client->number) return true;
    }
    fprintf(stderr, "ppsd: the service's answer is not in order\n");
    return false;
}

static void route(struct server *server, const unsigned char *frame, size_t size) {
    struct asked asked = *service_asked(&server->service, 0);
    if (frame[6] != TAG_REFUSED && can_queue(asked.kind)) server->may_be_queued = true;
    switch (asked.purpose) {
    case FOR_CLIENT: route_own(server, &asked, frame, size); break;
    case FOR_NEW_WAIT:
    case FOR_OLD_WAIT: route_wait(server, &asked, frame, size); break;
    case FOR_LEAVING: route_leaving(server, &asked, frame); break;
    case FOR_REFUSAL: break;
    }
    service_answered(&server->service);
    server_answer_refusals(server);
}

/* Brings the accepted requests among the answers at hand to the journal. */
static bool keep(struct server *server) {
    struct service *service = &server->service;
    size_t place = 0, size;
    const unsigned char *at = bytes_first(&service->in);
    for (size_t left = bytes_length(&service->in); answer_look(at, left, &size) == LOOK_WHOLE;
         at += size, left -= size) {
        while (place < service->count && service_asked(service, place)->purpose == FOR_REFUSAL) place++;
        if (place == service->count) break;
        const struct asked *asked = service_asked(service, place++);
        if (asked->body && at[6] != TAG_REFUSED && !journal_add(&server->journal, asked, at)) return false;
    }
    return journal_bring(&server->journal);
}

bool server_answer(struct server *server) {
    struct bytes *in = &server->service.in;
    if (server->has_journal && !keep(server)) {
        server->has_failed = true;
        return false;
    }
    for (;;) {
        size_t size;
        enum look found = answer_look(bytes_first(in), bytes_length(in), &size);
        if (found == LOOK_PART) break;
        if (!is_in_order(server, bytes_first(in), found)) return false;
        route(server, bytes_first(in), size);
        bytes_take(in, size);
    }
    if (server->may_be_queued) server_ask_for_waiting(server);
    return true;
}
