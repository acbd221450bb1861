/* A client of ppsd, the socket of the service. One connection is one `struct pps`; one thread at a time uses it.

       struct pps *pps;
       int result = pps_connect(&pps, NULL);
       uint32_t gps;
       if (result == PPS_OK) result = pps_attach(pps);
       if (result == PPS_OK) result = pps_open(pps, PPS_WRITE | PPS_CREATE, "/gps", &gps);
       if (result == PPS_OK) result = pps_write(pps, gps, "speed:n:70\n", 11);
       if (result != PPS_OK) fprintf(stderr, "%s\n", pps_words(result));
       pps_disconnect(pps);

   What requests do is in docs/BEHAVIOUR.md, what goes over the socket in docs/FORMATS.md. */
#ifndef PPS_H
#define PPS_H

#include <stdbool.h>
#include <stddef.h>
#include <stdint.h>

#ifdef __cplusplus
extern "C" {
#endif

/* What each call returns: PPS_OK, the number of a refusal, PPS_PARKED, PPS_EMPTY, or an error: the negated errno of a
   call that failed, -EPROTO if what came is no answer, -ECONNRESET if the daemon has closed the connection. After an
   error the connection can only be closed. */
enum pps_result {
    PPS_OK = 0,
    PPS_OUT_OF_MEMORY = 1,
    PPS_BAD_FRAME,
    PPS_NOT_ATTACHED,
    PPS_ALREADY_ATTACHED,
    PPS_BAD_PATH,
    PPS_BAD_OPTION,
    PPS_NOT_FOUND,
    PPS_EXISTS,
    PPS_NOT_DIRECTORY,
    PPS_IS_DIRECTORY,
    PPS_NOT_EMPTY,
    PPS_BUSY,
    PPS_BAD_HANDLE,
    PPS_BAD_MODE,
    PPS_BAD_TEXT,
    PPS_TOO_LARGE,
    PPS_GONE,
    PPS_READ_PENDING,
    PPS_TOO_SMALL,
    PPS_OUTBOX_FULL,
    PPS_BACKLOGGED,
    PPS_NO_CLIENT,
    PPS_BAD_ARGUMENT,
    PPS_TABLE_FULL,
    PPS_PARKED = 64,
    PPS_EMPTY = 65,
};

/* The letters of a mode. */
enum { PPS_READ = 1, PPS_WRITE = 2, PPS_CREATE = 4, PPS_TRUNCATE = 8 };

enum pps_action { PPS_POLL = 1, PPS_POLLARM = 2, PPS_TRANARM = 3 };

/* The largest size of a read. An answer takes no more memory than it is long. */
#define PPS_READ_MOST 17000000u

/* Bytes of an answer. They stay as they are until the next call with the same connection. */
struct pps_bytes {
    const unsigned char *at;
    size_t length;
};

/* What Receive gives: a pulse, or the late reply to a parked read, which is its bytes or a refusal. */
enum pps_item_kind { PPS_PULSE, PPS_LATE_BYTES, PPS_LATE_REFUSAL };

struct pps_item {
    enum pps_item_kind kind;
    uint8_t code;           /* of a pulse */
    uint32_t value;         /* of a pulse */
    uint32_t handle;        /* of a late reply */
    struct pps_bytes bytes; /* of a late reply with bytes */
    int refusal;            /* of a late reply that is refused */
    uint32_t argument;      /* of that refusal, or 0 */
};

struct pps;

/* Connects to the daemon at the path of a socket; NULL is the usual place, which pps_usual_path gives. */
int pps_connect(struct pps **pps, const char *path);

/* Closes the connection, which detaches it. NULL is allowed. */
void pps_disconnect(struct pps *pps);

/* $XDG_RUNTIME_DIR/pps.sock, or /run/pps.sock without that variable. It is cut off if the room is too small. */
void pps_usual_path(char *path, size_t room);

/* The connection's number with the daemon: 0 before the first answer. */
unsigned pps_number(const struct pps *pps);

/* The argument of the last refusal, or 0 if it has none. */
uint32_t pps_argument(const struct pps *pps);

int pps_attach(struct pps *pps);
int pps_detach(struct pps *pps);

/* Opens a path, with options after a `?`. */
int pps_open(struct pps *pps, unsigned mode, const char *text, uint32_t *handle);
int pps_close(struct pps *pps, uint32_t handle);

/* Reads at most so many bytes. PPS_PARKED: a late reply will come. */
int pps_read(struct pps *pps, uint32_t handle, uint32_t size, struct pps_bytes *bytes);

/* Writes the bytes as a whole, or nothing of them. */
int pps_write(struct pps *pps, uint32_t handle, const void *bytes, size_t length);

int pps_unlink(struct pps *pps, const char *path);
int pps_mkdir(struct pps *pps, const char *path);

/* One line for each member of a directory. */
int pps_list(struct pps *pps, const char *path, struct pps_bytes *bytes);

/* Whether there is news, and perhaps a pulse when there is. */
int pps_notify(struct pps *pps, uint32_t handle, enum pps_action action, unsigned code, uint32_t value, bool *input);

/* Takes the first item that is queued, or PPS_EMPTY. PPS_READ_PENDING while a waiting Receive is open. */
int pps_receive(struct pps *pps, struct pps_item *item);

/* Waits until an item is queued, and takes it. PPS_EMPTY if a Detach ended the wait. If pps_wait_begin has opened a
   waiting Receive already, it is that one's answer. */
int pps_wait(struct pps *pps, struct pps_item *item);

/* Opens a waiting Receive and returns: other requests can be made before pps_wait takes its answer. Only for a
   connection that is attached; one at a time, PPS_READ_PENDING for a second. */
int pps_wait_begin(struct pps *pps);

/* Whether pps_wait would return at once, by what has been read of the socket so far. */
bool pps_wait_is_over(const struct pps *pps);

/* The socket, for poll: with a waiting Receive open and no other request made, it is readable when the answer comes. */
int pps_descriptor(const struct pps *pps);

/* A refusal by its name, such as "NotFound", or the words of an error. */
const char *pps_words(int result);

#ifdef __cplusplus
}
#endif

#endif
