/* The daemon: clients at a socket, and one service for all of them. */
#ifndef SERVER_H
#define SERVER_H

#include <stdbool.h>
#include <stddef.h>

#include "client.h"
#include "journal.h"
#include "options.h"
#include "service.h"

enum state {
    STATE_SERVING,
    STATE_SHORTENING, /* nobody is attached; the service is replaced by one that begins with its image */
    STATE_STOPPING,   /* no client is listened to any more; the service is ended when it has all requests */
};

struct list {
    struct client *first, *last;
};

struct server {
    const struct options *options;
    enum state state;
    int epoll, listener, signals, spare;
    bool is_listening;  /* new clients are looked for */
    bool has_new;       /* there may be some */
    bool has_answers;   /* the service may have answered */
    long retry_at;      /* when what could not be done is tried again; 0: all could be */
    bool may_be_queued; /* something was accepted that can queue items for others */
    unsigned attached;  /* how many clients are attached, as of the last answer */
    unsigned waiting;   /* how many waiting Receives are open */
    struct service service;
    struct journal journal;
    bool has_journal, has_failed; /* it could not be kept, and so the daemon ends */
    struct client *clients[CONNECTIONS_MOST + 1];
    struct list ready; /* clients that may have requests; each is served in its turn */
    struct client *dirty[CONNECTIONS_MOST];
    size_t dirties;
};

/* Prepares to serve. False, and a line on standard error, if it cannot. */
bool server_prepare(struct server *server, const struct options *options);

/* Starts the service and serves until it ends. The status of the daemon. */
int server_run(struct server *server);

/* Milliseconds of a clock that only goes forward. */
long server_now(void);

/* Has what ran out of memory or files, and clients that do not read, looked at again soon. */
void server_retry_later(struct server *server);

/* requests.c: what comes from clients. */

/* Puts a client in the list of those to be served. */
void server_make_ready(struct server *server, struct client *client);

/* Serves those in the list, each once at most, while the service has room. */
void server_serve(struct server *server);

/* Detaches a client whose requests wait and that has read nothing for too long. */
void server_check_pause(struct server *server, struct client *client);

/* Sends the Detach of a client from which nothing more will be read. */
void server_leave(struct server *server, struct client *client);

/* Asks for items for all clients whose waiting Receive is open. */
void server_ask_for_waiting(struct server *server);

/* answers.c: what comes from the service. */

/* Brings what is accepted by the whole answers at hand to the journal, and then routes them all. False if one of them
   is not in order, or cannot be kept. */
bool server_answer(struct server *server);

/* Routes refusals that have become the next answer. */
void server_answer_refusals(struct server *server);

/* Marks a client that has something to be written, or that has left. */
void server_mark(struct server *server, struct client *client);

#endif
