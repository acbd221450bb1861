#include "client.h"

#include <errno.h>
#include <stdlib.h>
#include <sys/socket.h>
#include <unistd.h>

/* What is read at once, unless a request is longer. */
enum { PIECE = 16384 };

struct client *client_new(int socket, unsigned number) {
    struct client *client = calloc(1, sizeof *client);
    if (!client) return NULL;
    client->socket = socket;
    client->number = number;
    return client;
}

void client_free(struct client *client) {
    client_drop(client);
    free(client);
}

/* How many bytes may be read now: those of a piece, or the rest of a longer request. */
static size_t next_size(const struct client *client) {
    size_t held = bytes_length(&client->in), size;
    if (frame_look(bytes_first(&client->in), held, &size) == LOOK_PART && held >= LENGTH_BYTES && size - held > PIECE) {
        return size - held;
    }
    return PIECE;
}

void client_fill(struct client *client) {
    size_t length = next_size(client);
    unsigned char *at = bytes_reserve(&client->in, length);
    ssize_t got = at ? recv(client->socket, at, length, 0) : 0;
    if (got > 0) {
        bytes_added(&client->in, (size_t)got);
    } else if (got < 0 && errno == EAGAIN) {
        client->is_readable = false;
    } else if (got == 0 || errno != EINTR) {
        client->has_ended = true;
    }
}

void client_flush(struct client *client) {
    while (client->socket >= 0 && bytes_length(&client->out) > 0) {
        ssize_t sent = send(client->socket, bytes_first(&client->out), bytes_length(&client->out), MSG_NOSIGNAL);
        if (sent >= 0) {
            bytes_take(&client->out, (size_t)sent);
            client->has_taken = true;
        } else if (errno == EAGAIN) {
            return;
        } else if (errno != EINTR) {
            client->is_deaf = true;
            bytes_free(&client->out);
        }
    }
}

bool client_may_ask(const struct client *client, size_t most, size_t buffer) {
    size_t waiting = bytes_length(&client->out);
    return waiting <= buffer && (client->expected == 0 || waiting + client->expected + most <= buffer);
}

bool client_send(struct client *client, const unsigned char *frame, size_t size) {
    return client->socket < 0 || client->is_deaf || bytes_append(&client->out, frame, size);
}

void client_drop(struct client *client) {
    if (client->socket >= 0) close(client->socket);
    client->socket = -1;
    client->has_ended = true;
    bytes_free(&client->in);
    bytes_free(&client->out);
}
