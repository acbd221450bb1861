#include "reading.h"

#include <errno.h>
#include <fcntl.h>
#include <stdio.h>
#include <sys/mman.h>
#include <sys/stat.h>
#include <unistd.h>

enum { BODY_OFFSET = ENTRY_BEFORE, ENTRY_LEAST = ENTRY_BEFORE + BODY_LEAST };

static bool refuse(const char *path, const char *words) {
    fprintf(stderr, "ppsd: %s: %s\n", path, words);
    return false;
}

bool reading_open(struct reading *reading, const char *path) {
    struct stat found;
    *reading = (struct reading){.path = path};
    int file = open(path, O_RDONLY | O_CLOEXEC);
    if (file < 0) return errno == ENOENT || journal_fault("cannot read", path);
    bool is_found = fstat(file, &found) == 0;
    size_t length = is_found ? (size_t)found.st_size : 0;
    void *at = length >= HEADER_BYTES ? mmap(NULL, length, PROT_READ, MAP_PRIVATE, file, 0) : MAP_FAILED;
    close(file);
    if (is_found && length < HEADER_BYTES) return refuse(path, "it is no journal: its header is cut short");
    if (at == MAP_FAILED) return journal_fault("cannot read", path);
    reading->at = at;
    reading->length = length;
    if (journal_read_header(reading->at, reading->identity, &reading->image)) return true;
    reading_close(reading);
    return refuse(path, "it is no journal: its header is damaged");
}

void reading_close(struct reading *reading) {
    if (reading->at) munmap((void *)reading->at, reading->length);
    reading->at = NULL;
}

/* The size of the group at an offset, if one is there whose number is at least that; 0 if not. */
static size_t group_at(const struct reading *reading, size_t offset, uint32_t least, uint32_t *number) {
    size_t left = reading->length - offset;
    if (left < GROUP_BEFORE + GROUP_AFTER) return 0;
    const unsigned char *at = reading->at + offset;
    size_t entries = get32(at + 4);
    *number = get32(at);
    if (*number < least || entries > left - GROUP_BEFORE - GROUP_AFTER) return 0;
    bool is_whole = get32(at + GROUP_BEFORE + entries) == journal_checksum(reading->identity, at, entries);
    return is_whole ? GROUP_BEFORE + entries + GROUP_AFTER : 0;
}

struct part reading_begin(void) {
    return (struct part){.end = HEADER_BYTES, .number = 1};
}

bool reading_next(const struct reading *reading, struct part *part) {
    uint32_t number;
    size_t begin = part->end;
    if (begin >= reading->length) return false;
    size_t size = group_at(reading, begin, part->number, &number);
    if (size > 0 && number == part->number) {
        *part = (struct part){PART_GROUP, begin, begin + size, number + 1};
        return true;
    }
    for (size_t at = begin; at < reading->length; at++) {
        if (group_at(reading, at, part->number, &number) == 0) continue;
        *part = (struct part){PART_DAMAGED, begin, at, number};
        return true;
    }
    *part = (struct part){PART_TORN, begin, reading->length, part->number};
    return true;
}

bool reading_entry(const struct reading *reading, const struct part *group, size_t *offset, struct entry *entry) {
    size_t end = group->end - GROUP_AFTER;
    if (*offset < group->begin + GROUP_BEFORE) *offset = group->begin + GROUP_BEFORE;
    if (*offset > end || end - *offset < ENTRY_LEAST) return false;
    const unsigned char *at = reading->at + *offset;
    size_t length = get32(at);
    if (length < ENTRY_LEAST - 4 || length > end - *offset - 4 || length - 4 > REQUEST_MOST) return false;
    *entry = (struct entry){*offset, get32(at + 4), at + BODY_OFFSET, length - 4};
    *offset += 4 + length;
    return true;
}

bool reading_check(const struct reading *reading, bool is_salvage) {
    for (struct part part = reading_begin(); reading_next(reading, &part);) {
        if (part.kind == PART_GROUP) continue;
        const char *words = part.kind == PART_TORN ? "its torn end is cut"
                            : is_salvage           ? "damaged, and left out"
                                                   : "damaged";
        fprintf(stderr, "ppsd: %s: %s: offset %zu, %zu bytes\n", reading->path, words, part.begin,
                part.end - part.begin);
        if (part.kind == PART_DAMAGED && !is_salvage) {
            return refuse(reading->path, "nothing is changed; --salvage begins with all that is not damaged");
        }
    }
    return true;
}
