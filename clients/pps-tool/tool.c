/* pps-cat, pps-set and pps-watch: one program, which does as it is called.

       pps-cat /gps                 prints what the object is now, as `cat` does
       pps-set /gps speed:n:70      writes lines to it, as `echo >>` does
       pps-watch /gps?delta         prints each change as it comes, as a read that waits does */
#include <errno.h>
#include <getopt.h>
#include <stdbool.h>
#include <stdio.h>
#include <stdlib.h>
#include <string.h>

#include "pps.h"

enum { STATUS_REFUSED = 1, STATUS_BAD_WORDS = 2, STATUS_FAULT = 3 };

struct tool {
    const char *name;
    const char *words;
    const char *help;
    int least; /* how many words it needs */
    int (*run)(struct pps *pps, const char *name, char **words, int count);
};

/* Says what went wrong with a path, and gives the status for it. */
static int failed(struct pps *pps, const char *name, const char *about, int result) {
    fprintf(stderr, "%s: %s: %s", name, about, pps_words(result));
    if (result > 0 && pps && pps_argument(pps) != 0) fprintf(stderr, " %lu", (unsigned long)pps_argument(pps));
    fputc('\n', stderr);
    return result < 0 ? STATUS_FAULT : STATUS_REFUSED;
}

static int print(const char *name, struct pps_bytes bytes) {
    if (fwrite(bytes.at, 1, bytes.length, stdout) == bytes.length && fflush(stdout) == 0) return 0;
    fprintf(stderr, "%s: cannot write output\n", name);
    return STATUS_FAULT;
}

static int cat(struct pps *pps, const char *name, char **words, int count) {
    int status = 0;
    for (int i = 0; i < count && status != STATUS_FAULT; i++) {
        uint32_t handle;
        struct pps_bytes bytes;
        int result = pps_open(pps, PPS_READ, words[i], &handle);
        if (result == PPS_OK) result = pps_read(pps, handle, PPS_READ_MOST, &bytes);
        int here = result == PPS_OK ? print(name, bytes) : failed(pps, name, words[i], result);
        if (result == PPS_OK) result = pps_close(pps, handle);
        if (here != 0) status = here;
    }
    return status;
}

/* All lines as one text, each with its line feed; NULL if out of memory. */
static char *joined(char **lines, int count, size_t *length) {
    *length = 0;
    for (int i = 0; i < count; i++) *length += strlen(lines[i]) + 1;
    char *text = malloc(*length + 1), *end = text;
    if (!text) return NULL;
    for (int i = 0; i < count; i++) {
        end = stpcpy(end, lines[i]);
        *end++ = '\n';
    }
    return text;
}

static int set(struct pps *pps, const char *name, char **words, int count) {
    size_t length;
    uint32_t handle;
    char *text = joined(words + 1, count - 1, &length);
    if (!text) return failed(pps, name, words[0], -ENOMEM);
    int result = pps_open(pps, PPS_WRITE | PPS_CREATE, words[0], &handle);
    if (result == PPS_OK) result = pps_write(pps, handle, text, length);
    free(text);
    return result == PPS_OK ? 0 : failed(pps, name, words[0], result);
}

/* The text of an open with the option `wait`. NULL if out of memory. */
static char *waiting(const char *text) {
    char *made = malloc(strlen(text) + sizeof "?wait");
    if (made) sprintf(made, "%s%s", text, strchr(text, '?') ? ",wait" : "?wait");
    return made;
}

/* What the next read gives, when there is something. */
static int next_change(struct pps *pps, uint32_t handle, struct pps_bytes *bytes) {
    struct pps_item item;
    int result = pps_read(pps, handle, PPS_READ_MOST, bytes);
    if (result != PPS_PARKED) return result;
    do {
        result = pps_wait(pps, &item);
    } while (result == PPS_OK && (item.kind == PPS_PULSE || item.handle != handle));
    if (result != PPS_OK) return result;
    *bytes = item.bytes;
    return item.kind == PPS_LATE_BYTES ? PPS_OK : item.refusal;
}

/* Ends with status 0 when the object is gone. */
static int watch(struct pps *pps, const char *name, char **words, int count) {
    uint32_t handle;
    struct pps_bytes bytes;
    (void)count;
    char *text = waiting(words[0]);
    int result = text ? pps_open(pps, PPS_READ, text, &handle) : -ENOMEM, status = 0;
    free(text);
    while (result == PPS_OK && status == 0) {
        result = next_change(pps, handle, &bytes);
        if (result == PPS_OK) status = print(name, bytes);
    }
    return result == PPS_OK || result == PPS_GONE ? status : failed(pps, name, words[0], result);
}

static const struct tool tools[] = {
    {"pps-cat", "PATH[?OPTIONS]..", "Prints what objects are now; /d/.all is all objects of /d.", 1, cat},
    {"pps-set", "PATH[?OPTIONS] LINE..",
     "Writes lines to an object, all at once; it is created if it is absent. A line is\n"
     "name:encoding:value, or -name, which removes that attribute.",
     2, set},
    {"pps-watch", "PATH[?OPTIONS]",
     "Prints an object, and again when it changes; with ?delta only the changes. It ends\n"
     "when the object is deleted.",
     1, watch},
};

static const struct tool *tool_called(const char *word) {
    const char *slash = strrchr(word, '/');
    for (size_t i = 0; i < sizeof tools / sizeof *tools; i++) {
        if (strcmp(slash ? slash + 1 : word, tools[i].name) == 0) return &tools[i];
    }
    return NULL;
}

static int print_help(const struct tool *tool) {
    printf("Usage: %s [--socket PATH] %s\n%s\n\n", tool->name, tool->words, tool->help);
    puts("  --socket PATH, -s PATH   the socket of ppsd ($XDG_RUNTIME_DIR/pps.sock, or /run/pps.sock)\n"
         "  --help, -h               print this help\n\n"
         "Status: 0, 1 if the service refuses, 2 for a bad command line, 3 for a fault.");
    return fflush(stdout) == 0 ? 0 : STATUS_FAULT;
}

static int run(const struct tool *tool, const char *socket, char **words, int count) {
    struct pps *pps;
    char usual[128];
    pps_usual_path(usual, sizeof usual);
    int result = pps_connect(&pps, socket);
    if (result == PPS_OK) result = pps_attach(pps);
    int status = result == PPS_OK ? tool->run(pps, tool->name, words, count)
                                  : failed(NULL, tool->name, socket ? socket : usual, result);
    pps_disconnect(pps);
    return status;
}

int main(int count, char **words) {
    static const struct option known[] = {
        {"socket", required_argument, NULL, 's'}, {"help", no_argument, NULL, 'h'}, {NULL, 0, NULL, 0}};
    const struct tool *tool = tool_called(words[0]);
    const char *socket = NULL;
    if (!tool) {
        fprintf(stderr, "%s: called as none of pps-cat, pps-set, pps-watch\n", words[0]);
        return STATUS_BAD_WORDS;
    }
    opterr = 0;
    for (int option; (option = getopt_long(count, words, "+s:h", known, NULL)) != -1;) {
        if (option == 'h') return print_help(tool);
        if (option == '?') optind = count + 1;
        socket = optarg;
    }
    if (count - optind < tool->least || (tool->run == watch && count - optind > 1)) {
        fprintf(stderr, "%s: bad command line; --help says what it takes\n", tool->name);
        return STATUS_BAD_WORDS;
    }
    return run(tool, socket, words + optind, count - optind);
}
