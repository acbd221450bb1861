#include "server.h"

#include <errno.h>
#include <fcntl.h>
#include <signal.h>
#include <stdio.h>
#include <stdlib.h>
#include <string.h>
#include <sys/epoll.h>
#include <sys/resource.h>
#include <sys/signalfd.h>
#include <sys/socket.h>
#include <sys/stat.h>
#include <sys/un.h>
#include <time.h>
#include <unistd.h>

#include "replay.h"

/* What an event is about: a client's number, or one of these. */
enum { OF_LISTENER = CONNECTIONS_MOST + 1, OF_SIGNALS, OF_REQUESTS, OF_ANSWERS };

enum {
    BACKLOG = 4096,
    EVENTS_AT_ONCE = 128,
    ACCEPTED_AT_ONCE = 64,
    RETRY_MILLISECONDS = 50,
    LAST_WORDS_MILLISECONDS = 1000,
    OTHER_FILES = 64, /* files that are open beside those of clients */
    STATUS_FAULT = 3,
};

static bool fault(const char *words, const char *about) {
    fprintf(stderr, "ppsd: %s%s: %s\n", words, about, strerror(errno));
    return false;
}

static bool watch(const struct server *server, int file, uint32_t events, unsigned about) {
    struct epoll_event event = {.events = events, .data.u32 = about};
    return epoll_ctl(server->epoll, EPOLL_CTL_ADD, file, &event) == 0 || fault("cannot wait for events", "");
}

/* Lets as many files be open as clients there can be, as far as that is allowed. */
static void allow_files(void) {
    struct rlimit limit;
    rlim_t needed = CONNECTIONS_MOST + OTHER_FILES;
    if (getrlimit(RLIMIT_NOFILE, &limit) != 0 || limit.rlim_cur >= needed) return;
    limit.rlim_cur = needed < limit.rlim_max ? needed : limit.rlim_max;
    if (setrlimit(RLIMIT_NOFILE, &limit) != 0 || limit.rlim_cur < needed) {
        fprintf(stderr, "ppsd: only %lu files may be open, so there are fewer clients\n",
                (unsigned long)limit.rlim_cur);
    }
}

/* Removes a socket at which nobody listens any more. */
static bool remove_stale(const struct sockaddr_un *place) {
    struct stat found;
    if (lstat(place->sun_path, &found) != 0) return errno == ENOENT || fault("cannot look at ", place->sun_path);
    errno = EEXIST;
    if (!S_ISSOCK(found.st_mode)) return fault("cannot listen at ", place->sun_path);
    int probe = socket(AF_UNIX, SOCK_STREAM | SOCK_CLOEXEC, 0);
    if (probe < 0) return fault("cannot make a socket", "");
    bool is_served = connect(probe, (const struct sockaddr *)place, sizeof *place) == 0;
    close(probe);
    errno = EADDRINUSE;
    if (is_served) return fault("cannot listen at ", place->sun_path);
    return unlink(place->sun_path) == 0 || fault("cannot remove ", place->sun_path);
}

/* Listens under a name of its own, and gives the socket its name then: whoever sees it there can connect. */
static bool listen_at(struct server *server, const char *path, mode_t mode) {
    struct sockaddr_un own = {.sun_family = AF_UNIX};
    int length = snprintf(own.sun_path, sizeof own.sun_path, "%s.%ld", path, (long)getpid());
    errno = ENAMETOOLONG;
    if (length >= (int)sizeof own.sun_path) return fault("cannot listen at ", path);
    if (!remove_stale(&own)) return false;
    mode_t mask = umask(0777 & ~mode);
    bool is_bound = bind(server->listener, (struct sockaddr *)&own, sizeof own) == 0;
    umask(mask);
    bool is_listening = is_bound && chmod(own.sun_path, mode) == 0 && listen(server->listener, BACKLOG) == 0 &&
                        link(own.sun_path, path) == 0;
    if (!is_listening) fault("cannot listen at ", path);
    if (is_bound) unlink(own.sun_path);
    return is_listening;
}

static bool bind_socket(struct server *server) {
    struct sockaddr_un place = {.sun_family = AF_UNIX};
    const struct options *options = server->options;
    errno = ENAMETOOLONG;
    if (strlen(options->socket) >= sizeof place.sun_path) return fault("cannot listen at ", options->socket);
    strcpy(place.sun_path, options->socket);
    if (!remove_stale(&place)) return false;
    server->listener = socket(AF_UNIX, SOCK_STREAM | SOCK_NONBLOCK | SOCK_CLOEXEC, 0);
    if (server->listener < 0) return fault("cannot make a socket", "");
    return listen_at(server, options->socket, options->mode);
}

/* SIGTERM and SIGINT are read from a file; a pipe that nobody reads and a file that is too long are errors of the
   call. */
static bool take_signals(struct server *server) {
    sigset_t taken;
    sigemptyset(&taken);
    sigaddset(&taken, SIGTERM);
    sigaddset(&taken, SIGINT);
    if (signal(SIGPIPE, SIG_IGN) == SIG_ERR || signal(SIGXFSZ, SIG_IGN) == SIG_ERR)
        return fault("cannot take signals", "");
    if (sigprocmask(SIG_BLOCK, &taken, NULL) != 0) return fault("cannot take signals", "");
    server->signals = signalfd(-1, &taken, SFD_NONBLOCK | SFD_CLOEXEC);
    return server->signals >= 0 || fault("cannot take signals", "");
}

bool server_prepare(struct server *server, const struct options *options) {
    *server = (struct server){.options = options, .listener = -1, .signals = -1};
    server->service = (struct service){.process = -1, .to = -1, .from = -1};
    allow_files();
    server->spare = open("/dev/null", O_RDONLY | O_CLOEXEC);
    server->epoll = epoll_create1(EPOLL_CLOEXEC);
    if (server->epoll < 0 || server->spare < 0) return fault("cannot wait for events", "");
    return take_signals(server) && watch(server, server->signals, EPOLLIN, OF_SIGNALS);
}

/* Brings the journal into its image, and begins it anew. */
static bool start_journal(struct server *server) {
    const struct options *options = server->options;
    if (!options->journal) return true;
    server->has_journal = true;
    if (!journal_prepare(&server->journal, options->journal, options->image)) return false;
    server->journal.sync = options->sync;
    server->journal.limit = options->journal_limit;
    return journal_start(&server->journal, options->program, options->limit, options->is_salvage);
}

static bool start_service(struct server *server) {
    const struct options *options = server->options;
    struct service_words words = {options->program, options->image, options->save, options->limit};
    if (server->has_journal) {
        words = (struct service_words){options->program, server->journal.image, server->journal.next_image, NULL};
    }
    if (!service_start(&server->service, &words)) return fault("cannot start ", options->program);
    return watch(server, server->service.to, EPOLLOUT | EPOLLET, OF_REQUESTS) &&
           watch(server, server->service.from, EPOLLIN, OF_ANSWERS);
}

static bool start_listening(struct server *server) {
    if (!bind_socket(server)) return false;
    server->is_listening = true;
    return watch(server, server->listener, EPOLLIN, OF_LISTENER);
}

static void stop_listening(struct server *server) {
    if (server->listener < 0) return;
    unlink(server->options->socket);
    close(server->listener);
    server->listener = -1;
    server->is_listening = false;
}

/* Refuses a client for which there is no connection, and closes. */
static void turn_away(int socket) {
    unsigned char frame[ANSWER_REFUSED];
    answer_refused(frame, 0, REFUSAL_TABLE_FULL);
    ssize_t sent = send(socket, frame, sizeof frame, MSG_NOSIGNAL | MSG_DONTWAIT);
    if (sent != sizeof frame) fprintf(stderr, "ppsd: a client that is one too many could not be refused\n");
    shutdown(socket, SHUT_WR);
    close(socket);
}

static void welcome(struct server *server, int socket) {
    unsigned number = 1;
    while (number <= CONNECTIONS_MOST && server->clients[number]) number++;
    struct client *client = number <= CONNECTIONS_MOST ? client_new(socket, number) : NULL;
    if (!client) {
        turn_away(socket);
        return;
    }
    server->clients[number] = client;
    client->is_readable = true;
    server_make_ready(server, client);
    if (watch(server, socket, EPOLLIN | EPOLLOUT | EPOLLRDHUP | EPOLLET, number)) return;
    client_drop(client);
    server_leave(server, client);
}

/* When no more files can be opened: the spare one is given up for a moment, so that a client is refused and not kept
   waiting. If that does not help either, new clients are left alone for a while. */
static void accept_with_spare(struct server *server) {
    close(server->spare);
    int socket = accept4(server->listener, NULL, NULL, SOCK_CLOEXEC);
    if (socket >= 0) turn_away(socket);
    server->spare = open("/dev/null", O_RDONLY | O_CLOEXEC);
    if (socket >= 0 && server->spare >= 0) return;
    struct epoll_event event = {.data.u32 = OF_LISTENER};
    server_retry_later(server);
    server->is_listening = epoll_ctl(server->epoll, EPOLL_CTL_MOD, server->listener, &event) != 0;
}

static void accept_clients(struct server *server) {
    server->has_new = false;
    for (int i = 0; i < ACCEPTED_AT_ONCE && server->is_listening; i++) {
        int socket = accept4(server->listener, NULL, NULL, SOCK_NONBLOCK | SOCK_CLOEXEC);
        if (socket >= 0) {
            welcome(server, socket);
        } else if (errno == EAGAIN) {
            return;
        } else if (errno != EINTR && errno != ECONNABORTED) {
            accept_with_spare(server);
        }
    }
}

static void stop(struct server *server) {
    struct signalfd_siginfo taken;
    while (read(server->signals, &taken, sizeof taken) > 0) continue;
    stop_listening(server);
    server->state = STATE_STOPPING;
}

static void note_event(struct server *server, const struct epoll_event *event) {
    unsigned about = event->data.u32;
    struct client *client = about <= CONNECTIONS_MOST ? server->clients[about] : NULL;
    if (about == OF_LISTENER) server->has_new = true;
    if (about == OF_SIGNALS) stop(server);
    if (about == OF_REQUESTS) server->service.is_writable = true;
    if (about == OF_ANSWERS) server->has_answers = true;
    if (!client) return;
    if (event->events & ~(uint32_t)EPOLLOUT) {
        client->is_readable = true;
        server_make_ready(server, client);
    }
    server_mark(server, client);
}

long server_now(void) {
    struct timespec now;
    clock_gettime(CLOCK_MONOTONIC, &now);
    return now.tv_sec * 1000L + now.tv_nsec / 1000000L;
}

void server_retry_later(struct server *server) {
    if (server->retry_at == 0) server->retry_at = server_now() + RETRY_MILLISECONDS;
}

/* Tries again what ran out of memory or files, and looks for clients that do not read. */
static void retry(struct server *server) {
    struct epoll_event event = {.events = EPOLLIN, .data.u32 = OF_LISTENER};
    server->retry_at = 0;
    if (server->spare < 0) server->spare = open("/dev/null", O_RDONLY | O_CLOEXEC);
    if (server->listener >= 0 && !server->is_listening) {
        server->is_listening = epoll_ctl(server->epoll, EPOLL_CTL_MOD, server->listener, &event) == 0;
        if (!server->is_listening) server_retry_later(server);
    }
    for (unsigned number = 1; number <= CONNECTIONS_MOST; number++) {
        struct client *client = server->clients[number];
        if (client && client->is_refused) server_leave(server, client);
        if (client) server_check_pause(server, client);
    }
    server_ask_for_waiting(server);
}

/* Writes answers to the clients that are marked, and frees those that have left and been given all. */
static void write_answers(struct server *server) {
    for (size_t i = 0; i < server->dirties; i++) {
        struct client *client = server->dirty[i];
        client->is_dirty = false;
        client_flush(client);
        if (client->is_paused && !client->is_leaving) server_make_ready(server, client);
        if (!client->has_left || client->is_ready || bytes_length(&client->out) > 0) continue;
        server->clients[client->number] = NULL;
        client_free(client);
    }
    server->dirties = 0;
}

/* Waits for something to do. False if that fails. */
static bool wait_for_events(struct server *server) {
    struct epoll_event events[EVENTS_AT_ONCE];
    bool can_serve = server->state == STATE_SERVING && server->ready.first && service_has_room(&server->service);
    int most = can_serve ? 0 : server->retry_at != 0 ? RETRY_MILLISECONDS : -1;
    int count = epoll_wait(server->epoll, events, EVENTS_AT_ONCE, most);
    if (count < 0) return errno == EINTR || fault("cannot wait for events", "");
    for (int i = 0; i < count; i++) note_event(server, &events[i]);
    bool is_due = server->retry_at != 0 && server_now() >= server->retry_at;
    if (is_due && server->state == STATE_SERVING) retry(server);
    return true;
}

/* Takes answers that are there and routes them. False when there will be no more, or one cannot be kept. */
static bool take_answers(struct server *server) {
    server->has_answers = false;
    bool has_more = service_fill(&server->service);
    return server_answer(server) && has_more;
}

/* Whether the service can be replaced by one that begins with its image, without anybody noticing. */
static bool can_shorten(const struct server *server) {
    const struct service *service = &server->service;
    bool is_idle = server->attached == 0 && service->count == 0 && bytes_length(&service->in) == 0;
    return server->has_journal && server->state == STATE_SERVING && is_idle &&
           journal_can_be_shortened(&server->journal, server->options->shorten_at);
}

/* One round. False when the service has ended. */
static bool go_round(struct server *server) {
    if (!wait_for_events(server)) return false;
    if (server->has_new) accept_clients(server);
    if (server->has_answers && !take_answers(server)) return false;
    if (server->state == STATE_SERVING) server_serve(server);
    /* (if the pipe cannot be written to, the service has ended, and so will its answers) */
    bool is_written = service_flush(&server->service);
    bool is_all_sent = !is_written || bytes_length(&server->service.out) == 0;
    if (can_shorten(server)) server->state = STATE_SHORTENING;
    if (server->state != STATE_SERVING && is_all_sent) service_close_requests(&server->service);
    write_answers(server);
    return true;
}

/* Writes what clients have still to be given, for a second at most, and closes them. */
static void say_last_words(struct server *server) {
    long end = server_now() + LAST_WORDS_MILLISECONDS;
    bool is_left = true;
    while (is_left && server_now() < end) {
        is_left = false;
        for (unsigned number = 1; number <= CONNECTIONS_MOST; number++) {
            struct client *client = server->clients[number];
            if (!client) continue;
            client_flush(client);
            is_left = is_left || bytes_length(&client->out) > 0;
        }
        if (is_left) nanosleep(&(struct timespec){.tv_nsec = 1000000}, NULL);
    }
    for (unsigned number = 1; number <= CONNECTIONS_MOST; number++) {
        if (server->clients[number]) client_free(server->clients[number]);
        server->clients[number] = NULL;
    }
}

static void close_all(struct server *server) {
    stop_listening(server);
    if (server->epoll >= 0) close(server->epoll);
    if (server->signals >= 0) close(server->signals);
    if (server->spare >= 0) close(server->spare);
}

/* Serves until the service ends. Its status. */
static int serve_to_the_end(struct server *server) {
    while (go_round(server)) continue;
    int status = service_end(&server->service);
    if (server->has_failed) return STATUS_FAULT;
    if (server->state == STATE_SERVING) {
        fprintf(stderr, "ppsd: the service has ended with status %d\n", status);
        return status == 0 ? STATUS_FAULT : status;
    }
    if (status == 0 && server->has_journal && !journal_begin_anew(&server->journal)) return STATUS_FAULT;
    return status;
}

int server_run(struct server *server) {
    int status = STATUS_FAULT;
    bool is_started = start_listening(server) && start_journal(server) && start_service(server);
    while (is_started) {
        status = serve_to_the_end(server);
        is_started = status == 0 && server->state == STATE_SHORTENING;
        if (!is_started) break;
        server->state = STATE_SERVING;
        is_started = start_service(server);
        if (!is_started) status = STATUS_FAULT;
    }
    if (server->service.process > 0) service_end(&server->service);
    say_last_words(server);
    if (server->has_journal) journal_close(&server->journal);
    close_all(server);
    return status;
}
