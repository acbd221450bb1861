/* The service: a process that runs `pps frames`, the two pipes to it, and the requests in them that have no answer
   yet. */
#ifndef SERVICE_H
#define SERVICE_H

#include <stdbool.h>
#include <stddef.h>
#include <stdint.h>
#include <sys/types.h>

#include "bytes.h"
#include "frame.h"

struct client;

/* What a request was sent for, and so where its answer goes. */
enum purpose {
    FOR_CLIENT,   /* the client asked for it */
    FOR_NEW_WAIT, /* the first Receive of a client's waiting one */
    FOR_OLD_WAIT, /* a further one */
    FOR_LEAVING,  /* the Detach of a client that goes away */
    FOR_REFUSAL,  /* nothing was sent: the client is refused ReadPending in its turn */
};

struct asked {
    struct client *client;
    enum purpose purpose;
    enum kind kind;
    size_t most;         /* how long the answer to a client's own request can be */
    unsigned wait;       /* the client's waiting Receive that was open then, or 0 */
    uint32_t handle;     /* that the journal has with a replayed open */
    size_t offset;       /* of a replayed entry */
    unsigned char *body; /* a copy of the request's body, if it was asked to be kept */
    size_t length;       /* of the body */
};

struct service {
    pid_t process;
    int to, from; /* -1 when closed */
    bool is_writable;
    struct bytes out; /* requests that the pipe has not taken yet */
    struct bytes in;  /* answers that have not been looked at */
    struct asked *asked;
    size_t first, count, room; /* of the ring `asked` */
    size_t held;               /* bytes of requests without an answer */
};

/* What `pps frames` is started with. Files and the limit may be NULL. */
struct service_words {
    const char *program, *image, *save, *limit;
};

/* Starts the process; false and errno if it cannot be. What the program itself has to say of its words is on standard
   error, and in its status. */
bool service_start(struct service *service, const struct service_words *words);

/* Whether more requests of clients should be sent now. */
bool service_has_room(const struct service *service);

/* Sends a whole request frame for what `asked` says of client, purpose and wait. `keep`: a copy of the body is kept
   for the journal. False if out of memory, and then nothing is sent. */
bool service_ask(struct service *service, struct asked asked, const unsigned char *frame, size_t size, bool keep);

/* Keeps a place in the order of answers for a refusal. False if out of memory. */
bool service_ask_nothing(struct service *service, struct asked asked);

/* The request at that place in the order, from 0; the oldest one is taken out by service_answered. */
struct asked *service_asked(struct service *service, size_t place);
void service_answered(struct service *service);

/* Writes what the pipe takes. False if the pipe cannot be written to. */
bool service_flush(struct service *service);

/* Reads answers that are there, up to about a mebibyte. False at their end, or if the pipe cannot be read. */
bool service_fill(struct service *service);

/* Ends the requests, whereupon the service ends. */
void service_close_requests(struct service *service);

/* Waits for the process, which has closed its output, and frees all. Its status, or 128 and the signal that ended it.
   */
int service_end(struct service *service);

#endif
