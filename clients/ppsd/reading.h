/* A journal's file as it is read at the start. */
#ifndef READING_H
#define READING_H

#include <stdbool.h>
#include <stddef.h>
#include <stdint.h>

#include "journal.h"

struct reading {
    const char *path;
    const unsigned char *at; /* the whole file; NULL if it does not exist */
    size_t length;
    uint32_t identity[2];
    struct image_name image;
};

enum part_kind { PART_GROUP, PART_DAMAGED, PART_TORN };

/* A part of the file after its header: a group, or bytes before a later group that are not a group, or such
   bytes at the end. */
struct part {
    enum part_kind kind;
    size_t begin, end;
    uint32_t number; /* of the group that comes next */
};

/* An entry of a group. */
struct entry {
    size_t offset; /* in the file */
    uint32_t handle;
    const unsigned char *body;
    size_t length; /* of the body */
};

/* Reads a journal and its header. False, and a line on standard error, if it is there and cannot be read or has no
   header. */
bool reading_open(struct reading *reading, const char *path);

void reading_close(struct reading *reading);

/* The part that comes after one, or the first one after `reading_begin`. False at the end of the file. */
struct part reading_begin(void);
bool reading_next(const struct reading *reading, struct part *part);

/* The entry of a group that is at an offset, and the offset of the next. False at the end of the group, or if it is
   none. */
bool reading_entry(const struct reading *reading, const struct part *group, size_t *offset, struct entry *entry);

/* Checks the whole file. A torn end is reported. Damage is reported, and is refused unless it is to be left out. */
bool reading_check(const struct reading *reading, bool is_salvage);

#endif
