#include "options.h"

#include <errno.h>
#include <getopt.h>
#include <stdint.h>
#include <stdio.h>
#include <stdlib.h>
#include <string.h>

const char options_help[] = "Usage: ppsd [OPTION]..\n"
                            "Serves a Persistent Publish/Subscribe service at a Unix socket: it runs `pps frames`\n"
                            "and gives each client a connection of it.\n"
                            "\n"
                            "  --socket PATH    listen here ($XDG_RUNTIME_DIR/pps.sock, or /run/pps.sock without it)\n"
                            "  --mode OCTAL     the permissions of the socket (0600)\n"
                            "  --pps PROGRAM    the program of the service (pps)\n"
                            "  --buffer BYTES   requests of a client wait while answers to it take more (1048576)\n"
                            "  --patience MS    a client whose requests wait so, and that reads nothing for so many\n"
                            "                   milliseconds, is detached (5000)\n"
                            "  --image F        begin with the image in file F\n"
                            "  --save F         save the service to file F at the end\n"
                            "  --limit N        begin with the default limit N; not together with --image\n"
                            "\n"
                            "  --journal F      keep a journal in file F, so that nothing answered is lost; it needs\n"
                            "                   --image, which is saved there too, and is used if it is there\n"
                            "  --sync WHEN      bring it to the disk before each answer (each), before the answers\n"
                            "                   at hand together (batch, the default), or never (none)\n"
                            "  --journal-limit BYTES  report a journal that is longer (1073741824)\n"
                            "  --shorten-at BYTES     begin a longer one anew when nobody is attached (65536)\n"
                            "  --salvage        leave out what is damaged in it, and report that\n"
                            "\n"
                            "  --help, -h       print this help\n"
                            "  --version        print the name and version\n"
                            "\n"
                            "SIGTERM and SIGINT end it, with the status of `pps frames`.\n";

enum {
    BUFFER = 1048576,
    PATIENCE = 5000,
    PATIENCE_MOST = 1000000000,
    MODE = 0600,
    MODE_MOST = 0777,
    JOURNAL_LIMIT = 1 << 30,
    SHORTEN_AT = 65536
};

/* A number in decimal or octal, with digits alone. */
static bool read_number(const char *word, int base, uint64_t most, uint64_t *number) {
    char *end;
    if (*word < '0' || *word > '9') return false;
    errno = 0;
    *number = strtoull(word, &end, base);
    return errno == 0 && *end == '\0' && *number <= most;
}

enum {
    OPTION_SOCKET = 1,
    OPTION_MODE,
    OPTION_PPS,
    OPTION_BUFFER,
    OPTION_PATIENCE,
    OPTION_IMAGE,
    OPTION_SAVE,
    OPTION_LIMIT,
    OPTION_VERSION,
    OPTION_JOURNAL,
    OPTION_SYNC,
    OPTION_JOURNAL_LIMIT,
    OPTION_SHORTEN_AT,
    OPTION_SALVAGE,
};

static const struct option known[] = {
    {"socket", required_argument, NULL, OPTION_SOCKET},
    {"mode", required_argument, NULL, OPTION_MODE},
    {"pps", required_argument, NULL, OPTION_PPS},
    {"buffer", required_argument, NULL, OPTION_BUFFER},
    {"patience", required_argument, NULL, OPTION_PATIENCE},
    {"image", required_argument, NULL, OPTION_IMAGE},
    {"save", required_argument, NULL, OPTION_SAVE},
    {"limit", required_argument, NULL, OPTION_LIMIT},
    {"journal", required_argument, NULL, OPTION_JOURNAL},
    {"sync", required_argument, NULL, OPTION_SYNC},
    {"journal-limit", required_argument, NULL, OPTION_JOURNAL_LIMIT},
    {"shorten-at", required_argument, NULL, OPTION_SHORTEN_AT},
    {"salvage", no_argument, NULL, OPTION_SALVAGE},
    {"help", no_argument, NULL, 'h'},
    {"version", no_argument, NULL, OPTION_VERSION},
    {NULL, 0, NULL, 0},
};

static bool read_sync(const char *word, enum sync *sync) {
    static const char *const words[] = {[SYNC_BATCH] = "batch", [SYNC_EACH] = "each", [SYNC_NONE] = "none"};
    for (*sync = SYNC_BATCH; *sync <= SYNC_NONE; (*sync)++) {
        if (strcmp(word, words[*sync]) == 0) return true;
    }
    return false;
}

/* An option that has a number. */
static bool take_number(struct options *options, int option, const char *word) {
    uint64_t number;
    if (option == OPTION_MODE) {
        if (!read_number(word, 8, MODE_MOST, &number)) return false;
        options->mode = (mode_t)number;
        return true;
    }
    if (!read_number(word, 10, option == OPTION_BUFFER ? SIZE_MAX / 2 : UINT64_MAX, &number)) return false;
    if (option == OPTION_PATIENCE && number > PATIENCE_MOST) return false;
    if (option == OPTION_PATIENCE) options->patience = (long)number;
    if (option == OPTION_BUFFER) options->buffer = (size_t)number;
    if (option == OPTION_JOURNAL_LIMIT) options->journal_limit = number;
    if (option == OPTION_SHORTEN_AT) options->shorten_at = number;
    return true;
}

/* Takes one option with its word. */
static bool take(struct options *options, int option, const char *word) {
    switch (option) {
    case OPTION_SOCKET: options->socket = word; return true;
    case OPTION_PPS: options->program = word; return true;
    case OPTION_IMAGE: options->image = word; return true;
    case OPTION_SAVE: options->save = word; return true;
    case OPTION_LIMIT: options->limit = word; return true;
    case OPTION_JOURNAL: options->journal = word; return true;
    case OPTION_SALVAGE: options->is_salvage = true; return true;
    case OPTION_SYNC: return read_sync(word, &options->sync);
    case OPTION_MODE:
    case OPTION_BUFFER:
    case OPTION_PATIENCE:
    case OPTION_JOURNAL_LIMIT:
    case OPTION_SHORTEN_AT: return take_number(options, option, word);
    default: return false;
    }
}

/* Whether options go together: a journal has an image, in which it is saved. */
static bool go_together(const struct options *options) {
    if (options->journal) return options->image && !options->save;
    return !(options->image && options->limit) && !options->is_salvage;
}

/* The socket's usual place. */
static void set_usual_socket(struct options *options) {
    const char *folder = getenv("XDG_RUNTIME_DIR");
    snprintf(options->usual_socket, sizeof options->usual_socket, "%s/pps.sock", folder && *folder ? folder : "/run");
    options->socket = options->usual_socket;
}

enum asked_for options_read(struct options *options, int count, char **words) {
    *options = (struct options){.mode = MODE, .buffer = BUFFER, .program = "pps"};
    options->patience = PATIENCE;
    options->journal_limit = JOURNAL_LIMIT;
    options->shorten_at = SHORTEN_AT;
    set_usual_socket(options);
    opterr = 0;
    for (;;) {
        int option = getopt_long(count, words, "h", known, NULL);
        if (option == -1) break;
        if (option == 'h') return ASKED_FOR_HELP;
        if (option == OPTION_VERSION) return ASKED_FOR_VERSION;
        if (!take(options, option, optarg)) return ASKED_BADLY;
    }
    return optind < count || !go_together(options) ? ASKED_BADLY : ASKED_TO_SERVE;
}
