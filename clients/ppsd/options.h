/* The command line. */
#ifndef OPTIONS_H
#define OPTIONS_H

#include <stdbool.h>
#include <stddef.h>
#include <stdint.h>
#include <sys/types.h>

#include "journal.h"

struct options {
    const char *socket;
    mode_t mode;
    size_t buffer; /* bytes that may wait for a client beside its last answer */
    long patience; /* for how many milliseconds a client may take nothing while it goes on asking */
    const char *program, *image, *save, *limit;
    const char *journal; /* NULL: without a journal */
    enum sync sync;
    uint64_t journal_limit, shorten_at;
    bool is_salvage;
    char usual_socket[112];
};

enum asked_for { ASKED_TO_SERVE, ASKED_FOR_HELP, ASKED_FOR_VERSION, ASKED_BADLY };

/* Reads the words. */
enum asked_for options_read(struct options *options, int count, char **words);

extern const char options_help[];

#endif
