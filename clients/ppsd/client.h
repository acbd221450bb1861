/* A client: its socket, what has come from it and what goes to it. */
#ifndef CLIENT_H
#define CLIENT_H

#include <stdbool.h>
#include <stddef.h>

#include "bytes.h"
#include "frame.h"

struct client {
    int socket;      /* -1 when closed */
    unsigned number; /* its connection, 1 to 1,024 */
    struct bytes in, out;
    bool is_readable;  /* its socket may have bytes, as far as is known */
    bool is_ready;     /* it is in the list of clients to be served */
    bool is_dirty;     /* it is in the list of clients whose answers are to be written */
    bool has_ended;    /* nothing more will be read from it */
    bool is_malformed; /* it sent what is no request */
    bool is_paused;    /* its next request waits until it has read, or has been answered */
    bool has_taken;    /* its socket has taken bytes since that was last asked */
    long paused_at;    /* when it was paused, or last took bytes after that */
    size_t expected;   /* how long the answers to its own requests in the pipe can be at most, together */
    bool is_deaf;      /* it can no longer be written to */
    bool is_attached;  /* as of the last answer */
    bool is_asking;    /* a Receive for its waiting one is in the pipe */
    bool is_leaving;   /* its last Detach has been sent, or is to be sent again */
    bool is_refused;   /* that Detach was refused, out of memory, and is to be sent again */
    bool has_left;     /* that Detach has been answered */
    unsigned wait;     /* which of its waiting Receives is open, counted from 1; 0: none */
    unsigned waits;    /* how many it has opened */
    unsigned detaches; /* how many of its own Detaches are in the pipe */
    struct client *next;
};

/* A client for an accepted socket; NULL if out of memory. */
struct client *client_new(int socket, unsigned number);

/* Closes the socket and frees the client. */
void client_free(struct client *client);

/* Reads once, up to what one request needs. Sets `is_readable` and `has_ended`. */
void client_fill(struct client *client);

/* Whether a request whose answer can be so long may be sent on: if no more bytes than `buffer` can wait for the client
   then, or if it is the client's only one in the pipe. */
bool client_may_ask(const struct client *client, size_t most, size_t buffer);

/* Puts an answer in. False if out of memory. */
bool client_send(struct client *client, const unsigned char *frame, size_t size);

/* Writes what the socket takes. Sets `has_taken`. */
void client_flush(struct client *client);

/* Closes the socket at once: nothing more is read, and what was not written is dropped. */
void client_drop(struct client *client);

#endif
