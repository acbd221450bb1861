/* The journal: the accepted requests since an image was saved. It and its image say together what was answered.

   Its file is a header, which names the image, and groups of entries; docs/FORMATS.md has both. A group is what was
   brought to the disk together, before any of its answers was given: so only the last one can be torn. */
#ifndef JOURNAL_H
#define JOURNAL_H

#include <stdbool.h>
#include <stddef.h>
#include <stdint.h>

#include "bytes.h"
#include "service.h"

enum sync { SYNC_BATCH, SYNC_EACH, SYNC_NONE };

enum { HEADER_BYTES = 32, GROUP_BEFORE = 8, GROUP_AFTER = 4, ENTRY_BEFORE = 8 };

/* An image by its length and checksum. */
struct image_name {
    uint64_t length;
    uint32_t checksum;
};

struct journal {
    const char *path, *image;     /* as the command line has them, or what links there lead to */
    char *next_path, *next_image; /* beside them: what takes their places */
    enum sync sync;
    uint64_t limit; /* it is reported when the file is longer */
    bool is_reported;
    int lock, file;       /* -1 if not open */
    uint32_t identity[2]; /* of this file: no other one's groups are taken for its own */
    uint32_t number;      /* of the next group */
    uint64_t length;      /* of the file */
    uint64_t image_length;
    bool has_volatile;  /* an accepted request may have made what an image leaves out */
    struct bytes group; /* entries that are not in the file yet */
};

/* Prepares a journal for a file and its image, and waits for a daemon that had them before to end. False, and a line on
   standard error, if that cannot be. */
bool journal_prepare(struct journal *journal, const char *path, const char *image);

void journal_close(struct journal *journal);

/* Whether accepted requests of that kind are kept. */
bool journal_keeps(enum kind kind);

/* Adds an accepted request with its answer's frame. False, and a line on standard error, if it cannot be kept. */
bool journal_add(struct journal *journal, const struct asked *asked, const unsigned char *answer);

/* Brings what was added to the disk. Until then no answer may be given. False, and a line, if it cannot be. */
bool journal_bring(struct journal *journal);

/* Whether the service can be replaced by one that begins with its image when nobody is attached, and that is worth
   it: the journal is longer than that and than the image, and nothing was made that an image leaves out. */
bool journal_can_be_shortened(const struct journal *journal, uint64_t length);

/* The image in `next_image` takes the place of the image, and an empty journal that of the journal. If it ends at any
   place, the old two are there or the new two. False, and a line, if it cannot be. */
bool journal_begin_anew(struct journal *journal);

/* The second half of that: the image that the journal names is in `next_image`, and takes its place. */
bool journal_take_next_image(struct journal *journal);

/* The name of the image in a file. False and errno if it cannot be read. */
bool journal_name_image(const char *path, struct image_name *name);

/* The checksum of a group of that many bytes of entries. */
uint32_t journal_checksum(const uint32_t identity[2], const unsigned char *group, size_t entries);

/* Reads a header: the journal's identity and image. False if it is not one. */
bool journal_read_header(const unsigned char header[HEADER_BYTES], uint32_t identity[2], struct image_name *image);

/* Says what a call has failed with. Always false. */
bool journal_fault(const char *words, const char *path);

#endif
