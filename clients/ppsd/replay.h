/* The start with a journal: what it has is brought into its image. */
#ifndef REPLAY_H
#define REPLAY_H

#include <stdbool.h>

#include "journal.h"

/* Checks the journal and its image, replays it into a service of its own, saves that as the new image, and begins the
   journal anew. If there is no journal, it begins with the image, or with an empty service of that default limit,
   which may be NULL. False, and a line on standard error, if it cannot be; then both files are as they were, unless
   replacing them failed. `is_salvage`: what is damaged is left out, and each thing that is left out is reported. */
bool journal_start(struct journal *journal, const char *program, const char *limit, bool is_salvage);

#endif
