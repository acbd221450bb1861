#include "service.h"

#include <errno.h>
#include <fcntl.h>
#include <signal.h>
#include <stdio.h>
#include <stdlib.h>
#include <string.h>
#include <sys/wait.h>
#include <unistd.h>

enum {
    QUEUE_MOST = 1 << 18, /* bytes that wait for the pipe */
    HELD_MOST = 1 << 22,  /* bytes of requests without an answer */
    ASKED_MOST = 4096,    /* requests without an answer */
    FILL_MOST = 1 << 20,  /* bytes of answers that are read at once */
    PIECE = 1 << 16,
    CANNOT_RUN = 127,
};

/* In the child: becomes the program. */
static _Noreturn void become(const struct service_words *words, int input, int output) {
    const char *argv[9] = {words->program, "frames"};
    int count = 2;
    const char *const options[][2] = {{"--image", words->image}, {"--save", words->save}, {"--limit", words->limit}};
    for (size_t i = 0; i < sizeof options / sizeof *options; i++) {
        if (!options[i][1]) continue;
        argv[count++] = options[i][0];
        argv[count++] = options[i][1];
    }
    sigset_t none;
    sigemptyset(&none);
    /* A terminal's signals are for the daemon, which ends this process when all is answered. */
    if (setpgid(0, 0) != 0) _exit(CANNOT_RUN);
    if (dup2(input, STDIN_FILENO) < 0 || dup2(output, STDOUT_FILENO) < 0) _exit(CANNOT_RUN);
    if (signal(SIGPIPE, SIG_DFL) == SIG_ERR || sigprocmask(SIG_SETMASK, &none, NULL) != 0) _exit(CANNOT_RUN);
    execvp(words->program, (char *const *)argv);
    static const char said[] = "ppsd: cannot run the program of the service\n";
    if (write(STDERR_FILENO, said, sizeof said - 1) < 0) _exit(CANNOT_RUN);
    _exit(CANNOT_RUN);
}

static void close_pair(const int pair[2]) {
    close(pair[0]);
    close(pair[1]);
}

bool service_start(struct service *service, const struct service_words *words) {
    int requests[2], answers[2];
    *service = (struct service){.process = -1, .to = -1, .from = -1};
    if (pipe2(requests, O_CLOEXEC) != 0) return false;
    if (pipe2(answers, O_CLOEXEC) != 0) {
        close_pair(requests);
        return false;
    }
    bool is_set = fcntl(requests[1], F_SETFL, O_NONBLOCK) == 0 && fcntl(answers[0], F_SETFL, O_NONBLOCK) == 0;
    service->process = is_set ? fork() : -1;
    if (service->process == 0) become(words, requests[0], answers[1]);
    if (service->process < 0) {
        int error = errno;
        close_pair(requests);
        close_pair(answers);
        errno = error;
        return false;
    }
    close(requests[0]);
    close(answers[1]);
    service->to = requests[1];
    service->from = answers[0];
    service->is_writable = true;
    return true;
}

bool service_has_room(const struct service *service) {
    return bytes_length(&service->out) < QUEUE_MOST && service->held < HELD_MOST && service->count < ASKED_MOST;
}

/* One more place in the ring, or NULL if out of memory. */
static struct asked *add_place(struct service *service) {
    if (service->count == service->room) {
        size_t room = service->room == 0 ? 64 : 2 * service->room;
        struct asked *grown = malloc(room * sizeof *grown);
        if (!grown) return NULL;
        for (size_t i = 0; i < service->count; i++) grown[i] = *service_asked(service, i);
        free(service->asked);
        service->asked = grown;
        service->room = room;
        service->first = 0;
    }
    service->count++;
    return service_asked(service, service->count - 1);
}

bool service_ask(struct service *service, struct asked asked, const unsigned char *frame, size_t size, bool keep) {
    asked.kind = (enum kind)frame[LENGTH_BYTES];
    asked.length = size - LENGTH_BYTES;
    asked.body = keep ? malloc(asked.length) : NULL;
    struct asked *place = NULL;
    if ((asked.body || !keep) && bytes_reserve(&service->out, size)) place = add_place(service);
    if (!place) {
        free(asked.body);
        return false;
    }
    if (keep) memcpy(asked.body, frame + LENGTH_BYTES, asked.length);
    *place = asked;
    service->held += asked.length;
    return bytes_append(&service->out, frame, size);
}

bool service_ask_nothing(struct service *service, struct asked asked) {
    struct asked *place = add_place(service);
    if (place) *place = asked;
    return place != NULL;
}

struct asked *service_asked(struct service *service, size_t place) {
    return &service->asked[(service->first + place) % service->room];
}

void service_answered(struct service *service) {
    struct asked *asked = service_asked(service, 0);
    free(asked->body);
    service->held -= asked->length;
    service->first = (service->first + 1) % service->room;
    service->count--;
}

bool service_flush(struct service *service) {
    while (service->is_writable && bytes_length(&service->out) > 0) {
        ssize_t wrote = write(service->to, bytes_first(&service->out), bytes_length(&service->out));
        if (wrote > 0) {
            bytes_take(&service->out, (size_t)wrote);
        } else if (wrote < 0 && errno == EAGAIN) {
            service->is_writable = false;
        } else if (wrote < 0 && errno != EINTR) {
            return false;
        }
    }
    return true;
}

bool service_fill(struct service *service) {
    for (size_t filled = 0; filled < FILL_MOST;) {
        unsigned char *at = bytes_reserve(&service->in, PIECE);
        if (!at) {
            fputs("ppsd: out of memory\n", stderr);
            return false;
        }
        ssize_t got = read(service->from, at, PIECE);
        if (got > 0) {
            bytes_added(&service->in, (size_t)got);
            filled += (size_t)got;
        } else if (got < 0 && errno == EAGAIN) {
            return true;
        } else if (got == 0 || errno != EINTR) {
            return false;
        }
    }
    return true;
}

void service_close_requests(struct service *service) {
    if (service->to >= 0) close(service->to);
    service->to = -1;
    service->is_writable = false;
}

int service_end(struct service *service) {
    int status = 0;
    service_close_requests(service);
    if (service->from >= 0) close(service->from);
    service->from = -1;
    while (waitpid(service->process, &status, 0) < 0) {
        if (errno != EINTR) return EXIT_FAILURE;
    }
    while (service->count > 0) service_answered(service);
    free(service->asked);
    bytes_free(&service->out);
    bytes_free(&service->in);
    *service = (struct service){.process = -1, .to = -1, .from = -1};
    return WIFEXITED(status) ? WEXITSTATUS(status) : 128 + WTERMSIG(status);
}
