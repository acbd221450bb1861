/* Says a script through the C client, and prints its answers as `pps run` does:

       say SOCKET < SCRIPT

   Each connection of the script is a connection of its own. A line that is no command ends it with status 1. It has two
   commands that scripts do not have: `begin` opens a waiting Receive, `wait` waits for its answer, or for an item. */
#include <stdio.h>
#include <stdlib.h>
#include <string.h>

#include "pps.h"

enum { NUMBERS = 65536, STATUS_BAD_LINE = 1, STATUS_BAD_WORDS = 2, STATUS_FAULT = 3 };

struct talk {
    const char *socket;
    struct pps *pps[NUMBERS];
    unsigned number; /* the connection of this line */
    struct pps *now; /* and the same, connected */
    char *rest;      /* what is left of the line */
};

static void print_bytes(struct pps_bytes bytes) {
    printf("data %zu", bytes.length);
    if (bytes.length > 0) putchar(' ');
    for (size_t i = 0; i < bytes.length; i++) {
        unsigned char byte = bytes.at[i];
        if (byte == '\n') {
            fputs("\\n", stdout);
        } else if (byte == '\\') {
            fputs("\\\\", stdout);
        } else if (byte >= 32 && byte < 127) {
            putchar(byte);
        } else {
            printf("\\x%02x", byte);
        }
    }
}

static void print_refusal(int number, uint32_t argument) {
    printf("refused %d %s", number, pps_words(number));
    bool has_argument =
        number == PPS_BAD_TEXT || number == PPS_TOO_SMALL || number == PPS_BACKLOGGED || number == PPS_NO_CLIENT;
    if (has_argument) printf(" %lu", (unsigned long)argument);
}

static void print_item(const struct pps_item *item) {
    if (item->kind == PPS_PULSE) {
        printf("pulse %u %lu", item->code, (unsigned long)item->value);
        return;
    }
    printf("done %lu ", (unsigned long)item->handle);
    if (item->kind == PPS_LATE_BYTES) {
        print_bytes(item->bytes);
    } else {
        print_refusal(item->refusal, item->argument);
    }
}

/* The next word, up to a space or the end of the line. */
static const char *word(struct talk *talk) {
    char *begin = talk->rest;
    talk->rest += strcspn(talk->rest, " ");
    if (*talk->rest == ' ') *talk->rest++ = '\0';
    return begin;
}

static uint32_t number(struct talk *talk) { return (uint32_t)strtoul(word(talk), NULL, 10); }

/* Replaces escapes in place by their bytes; how many bytes there are then. */
static size_t unescape(char *text) {
    char *to = text;
    for (const char *from = text; *from; from++) {
        if (*from != '\\') {
            *to++ = *from;
        } else if (*++from == 'x') {
            char digits[3] = {from[1], from[2], '\0'};
            *to++ = (char)strtoul(digits, NULL, 16);
            from += 2;
        } else {
            *to++ = *from == 'n' ? '\n' : '\\';
        }
    }
    return (size_t)(to - text);
}

static unsigned mode(const char *letters) {
    unsigned sum = 0;
    for (; *letters; letters++) {
        sum += *letters == 'r' ? PPS_READ : *letters == 'w' ? PPS_WRITE : *letters == 'c' ? PPS_CREATE : PPS_TRUNCATE;
    }
    return sum;
}

/* Commands that give no more than that they are done. */
static int say_plain(struct talk *talk, const char *command) {
    int result = PPS_BAD_FRAME;
    if (strcmp(command, "attach") == 0) result = pps_attach(talk->now);
    if (strcmp(command, "begin") == 0) result = pps_wait_begin(talk->now);
    if (strcmp(command, "detach") == 0) result = pps_detach(talk->now);
    if (strcmp(command, "unlink") == 0) result = pps_unlink(talk->now, talk->rest);
    if (strcmp(command, "mkdir") == 0) result = pps_mkdir(talk->now, talk->rest);
    if (strcmp(command, "close") == 0) result = pps_close(talk->now, number(talk));
    if (result == PPS_OK) fputs("ok", stdout);
    return result;
}

static int say_open(struct talk *talk) {
    uint32_t handle;
    unsigned letters = mode(word(talk));
    int result = pps_open(talk->now, letters, talk->rest, &handle);
    if (result == PPS_OK) printf("handle %lu", (unsigned long)handle);
    return result;
}

static int say_bytes(struct talk *talk, const char *command) {
    struct pps_bytes bytes;
    int result;
    if (strcmp(command, "list") == 0) {
        result = pps_list(talk->now, talk->rest, &bytes);
    } else {
        uint32_t handle = number(talk);
        result = pps_read(talk->now, handle, number(talk), &bytes);
    }
    if (result == PPS_OK) print_bytes(bytes);
    return result;
}

static int say_write(struct talk *talk) {
    uint32_t handle = number(talk);
    size_t length = unescape(talk->rest);
    int result = pps_write(talk->now, handle, talk->rest, length);
    if (result == PPS_OK) printf("wrote %zu", length);
    return result;
}

static int say_notify(struct talk *talk) {
    bool input;
    uint32_t handle = number(talk);
    const char *name = word(talk);
    enum pps_action action = strcmp(name, "poll") == 0      ? PPS_POLL
                             : strcmp(name, "pollarm") == 0 ? PPS_POLLARM
                                                            : PPS_TRANARM;
    unsigned code = number(talk);
    int result = pps_notify(talk->now, handle, action, code, number(talk), &input);
    if (result == PPS_OK) printf("input %d", input);
    return result;
}

static int say_receive(struct talk *talk, bool is_waiting) {
    struct pps_item item;
    int result = is_waiting ? pps_wait(talk->now, &item) : pps_receive(talk->now, &item);
    if (result == PPS_OK) print_item(&item);
    return result;
}

static int say_command(struct talk *talk) {
    const char *command = word(talk);
    if (strcmp(command, "open") == 0) return say_open(talk);
    if (strcmp(command, "read") == 0 || strcmp(command, "list") == 0) return say_bytes(talk, command);
    if (strcmp(command, "write") == 0) return say_write(talk);
    if (strcmp(command, "notify") == 0) return say_notify(talk);
    if (strcmp(command, "receive") == 0) return say_receive(talk, false);
    if (strcmp(command, "wait") == 0) return say_receive(talk, true);
    return say_plain(talk, command);
}

/* Says one line. The status to end with, or 0. */
static int say(struct talk *talk) {
    talk->number = (unsigned)strtoul(word(talk), NULL, 10) % NUMBERS;
    int result = PPS_OK;
    if (!talk->pps[talk->number]) result = pps_connect(&talk->pps[talk->number], talk->socket);
    talk->now = talk->pps[talk->number];
    if (result == PPS_OK) {
        printf("%u ", talk->number);
        result = say_command(talk);
    }
    if (result < 0) {
        fprintf(stderr, "say: %s\n", pps_words(result));
        return STATUS_FAULT;
    }
    if (result == PPS_BAD_FRAME) return STATUS_BAD_LINE;
    if (result == PPS_PARKED || result == PPS_EMPTY) fputs(pps_words(result), stdout);
    else if (result > 0) print_refusal(result, pps_argument(talk->now));
    putchar('\n');
    return fflush(stdout) == 0 ? 0 : STATUS_FAULT;
}

int main(int count, char **words) {
    static struct talk talk;
    char *line = NULL;
    size_t room = 0;
    int status = 0;
    if (count != 2) return STATUS_BAD_WORDS;
    talk.socket = words[1];
    for (ssize_t length; status == 0 && (length = getline(&line, &room, stdin)) > 0;) {
        if (line[length - 1] == '\n') line[length - 1] = '\0';
        talk.rest = line;
        if (*line != '\0' && *line != '#') status = say(&talk);
    }
    free(line);
    for (int i = 0; i < NUMBERS; i++) pps_disconnect(talk.pps[i]);
    return status;
}
