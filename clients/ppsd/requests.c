/* Requests: from the clients' sockets into the service's pipe. */
#include "server.h"

#include <stdio.h>

/* How many requests of one client are taken in one turn. */
enum { REQUESTS_AT_ONCE = 16 };

void server_make_ready(struct server *server, struct client *client) {
    if (client->is_ready) return;
    client->is_ready = true;
    client->next = NULL;
    if (server->ready.last) {
        server->ready.last->next = client;
    } else {
        server->ready.first = client;
    }
    server->ready.last = client;
}

static struct client *take_ready(struct server *server) {
    struct client *client = server->ready.first;
    server->ready.first = client->next;
    if (!client->next) server->ready.last = NULL;
    client->is_ready = false;
    return client;
}

void server_leave(struct server *server, struct client *client) {
    if (client->is_leaving && !client->is_refused) return;
    unsigned char frame[REQUEST_BARE];
    frame_bare(frame, KIND_DETACH, client->number);
    struct asked asked = {.client = client, .purpose = FOR_LEAVING, .wait = client->wait};
    client->has_ended = client->is_leaving = true;
    client->is_refused = !service_ask(&server->service, asked, frame, sizeof frame, server->has_journal);
    if (client->is_refused) server_retry_later(server);
}

/* Asks the service for an item for a client that waits. */
static void ask_for(struct server *server, struct client *client, enum purpose purpose) {
    unsigned char frame[REQUEST_BARE];
    frame_bare(frame, KIND_RECEIVE, client->number);
    struct asked asked = {.client = client, .purpose = purpose, .wait = client->wait};
    client->is_asking = service_ask(&server->service, asked, frame, sizeof frame, false);
    if (!client->is_asking) server_retry_later(server);
}

/* One Receive for each is enough: one that is in the pipe already comes after all that has been answered. After a
   Detach nothing is asked for, since an item may then be one for the client's next attachment. */
void server_ask_for_waiting(struct server *server) {
    server->may_be_queued = false;
    if (server->waiting == 0) return;
    for (unsigned number = 1; number <= CONNECTIONS_MOST; number++) {
        struct client *client = server->clients[number];
        if (!client || client->wait == 0 || client->is_asking) continue;
        if (client->detaches == 0 && !client->is_leaving) ask_for(server, client, FOR_OLD_WAIT);
    }
}

/* Opens a waiting Receive. */
static void begin_wait(struct server *server, struct client *client) {
    client->wait = ++client->waits;
    server->waiting++;
    ask_for(server, client, FOR_NEW_WAIT);
}

/* A client's next request waits. */
static void pause_client(struct server *server, struct client *client) {
    if (!client->is_paused) client->paused_at = server_now();
    client->is_paused = true;
    server_retry_later(server);
}

void server_check_pause(struct server *server, struct client *client) {
    long now = server_now();
    if (!client->is_paused || client->is_leaving) return;
    if (client->has_taken || bytes_length(&client->out) == 0) client->paused_at = now;
    client->has_taken = false;
    server_retry_later(server);
    if (now - client->paused_at < server->options->patience) return;
    fprintf(stderr, "ppsd: client %u does not read, and is detached\n", client->number);
    client_drop(client);
    server_leave(server, client);
}

/* Sends on the whole request at the front of what came from a client. False if out of memory. */
static bool take_request(struct server *server, struct client *client, size_t size) {
    unsigned char *frame = bytes_first(&client->in);
    enum kind kind = (enum kind)frame[LENGTH_BYTES];
    struct asked asked = {.client = client, .purpose = FOR_CLIENT, .wait = client->wait};
    bool is_sent = true;
    asked.most = frame_most_answer(frame);
    client->is_paused = false;
    put16(frame + LENGTH_BYTES + 1, client->number);
    if ((kind == KIND_RECEIVE || kind == KIND_WAIT) && client->wait != 0) {
        asked.purpose = FOR_REFUSAL;
        is_sent = service_ask_nothing(&server->service, asked);
        if (is_sent) client->expected += asked.most;
        server_answer_refusals(server);
    } else if (kind == KIND_WAIT) {
        begin_wait(server, client);
    } else {
        bool keep = server->has_journal && journal_keeps(kind);
        is_sent = service_ask(&server->service, asked, frame, size, keep);
        if (is_sent) client->expected += asked.most;
        if (is_sent && kind == KIND_DETACH) client->detaches++;
    }
    bytes_take(&client->in, size);
    return is_sent;
}

/* Whether the request at the front may be taken now. */
static bool may_take(const struct server *server, struct client *client) {
    size_t most = frame_most_answer(bytes_first(&client->in));
    if (client_may_ask(client, most, server->options->buffer)) return true;
    client_flush(client);
    return client_may_ask(client, most, server->options->buffer);
}

/* Takes requests of one client in its turn, and puts it in the list again if it may have more. */
static void serve(struct server *server, struct client *client) {
    for (int taken = 0; taken < REQUESTS_AT_ONCE && service_has_room(&server->service) && !client->is_leaving;) {
        size_t size, held = bytes_length(&client->in);
        enum look found = frame_look(bytes_first(&client->in), held, &size);
        if (found == LOOK_WHOLE) {
            if (!may_take(server, client)) {
                pause_client(server, client);
                return;
            }
            taken++;
            if (take_request(server, client, size)) continue;
            client_drop(client);
            server_leave(server, client);
        } else if (found == LOOK_MALFORMED || client->has_ended) {
            client->is_malformed = held > 0;
            server_leave(server, client);
        } else if (client->is_readable) {
            client_fill(client);
        } else {
            return;
        }
    }
    if (!client->is_leaving) server_make_ready(server, client);
}

void server_serve(struct server *server) {
    struct client *last = server->ready.last;
    while (server->ready.first && service_has_room(&server->service)) {
        struct client *client = take_ready(server);
        serve(server, client);
        if (client->has_left) server_mark(server, client);
        if (client == last) return;
    }
}
