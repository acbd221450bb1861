#include "journal.h"

#include <errno.h>
#include <fcntl.h>
#include <stdio.h>
#include <stdlib.h>
#include <string.h>
#include <sys/file.h>
#include <sys/mman.h>
#include <sys/random.h>
#include <sys/stat.h>
#include <time.h>
#include <unistd.h>

#include "crc.h"

static const char magic[8] = "PPSJRNL1";

enum { LOCK_TRIES = 500, LOCK_PAUSE = 20000000, PIECE = 1 << 20 };

bool journal_fault(const char *words, const char *path) {
    fprintf(stderr, "ppsd: %s %s: %s\n", words, path, strerror(errno));
    return false;
}

static void put64(unsigned char *at, uint64_t number) {
    put32(at, (uint32_t)(number >> 32));
    put32(at + 4, (uint32_t)number);
}

static uint64_t get64(const unsigned char *at) { return (uint64_t)get32(at) << 32 | get32(at + 4); }

/* A path with an ending; NULL if out of memory. */
static char *beside(const char *path, const char *ending) {
    char *made = malloc(strlen(path) + strlen(ending) + 1);
    if (made) strcat(strcpy(made, path), ending);
    return made;
}

/* Where a path leads, if anything is there: what is replaced is the file and not a link to it. */
static char *followed(const char *path) {
    char *real = realpath(path, NULL);
    return real ? real : strdup(path);
}

/* Takes the lock. A daemon that was killed leaves a service, which has it until it has ended. */
static bool take_lock(struct journal *journal) {
    char *path = beside(journal->path, ".lock");
    /* (it is inherited by the service, on purpose) */
    journal->lock = path ? open(path, O_RDWR | O_CREAT, 0600) : -1;
    free(path);
    if (journal->lock < 0) return journal_fault("cannot lock", journal->path);
    for (int i = 0; i < LOCK_TRIES; i++) {
        if (flock(journal->lock, LOCK_EX | LOCK_NB) == 0) return true;
        if (errno != EWOULDBLOCK && errno != EINTR) break;
        nanosleep(&(struct timespec){.tv_nsec = LOCK_PAUSE}, NULL);
    }
    return journal_fault("cannot lock", journal->path);
}

bool journal_prepare(struct journal *journal, const char *path, const char *image) {
    *journal = (struct journal){.lock = -1, .file = -1, .limit = UINT64_MAX};
    journal->path = followed(path);
    journal->image = followed(image);
    journal->next_path = journal->path ? beside(journal->path, ".next") : NULL;
    journal->next_image = journal->image ? beside(journal->image, ".next") : NULL;
    if (!journal->next_path || !journal->next_image) return journal_fault("cannot keep", path);
    return take_lock(journal);
}

void journal_close(struct journal *journal) {
    if (journal->file >= 0) close(journal->file);
    if (journal->lock >= 0) close(journal->lock);
    bytes_free(&journal->group);
    free((char *)journal->path);
    free((char *)journal->image);
    free(journal->next_path);
    free(journal->next_image);
}

bool journal_keeps(enum kind kind) {
    return kind == KIND_ATTACH || kind == KIND_DETACH || kind == KIND_OPEN || kind == KIND_WRITE ||
           kind == KIND_CLOSE || kind == KIND_UNLINK || kind == KIND_MKDIR;
}

uint32_t journal_checksum(const uint32_t identity[2], const unsigned char *group, size_t entries) {
    unsigned char bytes[8];
    put32(bytes, identity[0]);
    put32(bytes + 4, identity[1]);
    return crc32_of(crc32_of(0, bytes, sizeof bytes), group, GROUP_BEFORE + entries);
}

/* Whether a request may make an object or an attribute that is not persistent. */
static bool may_be_volatile(const struct asked *asked) {
    const char *word = asked->kind == KIND_OPEN ? "nopersist" : asked->kind == KIND_WRITE ? "[n]" : NULL;
    return word && memmem(asked->body, asked->length, word, strlen(word));
}

bool journal_can_be_shortened(const struct journal *journal, uint64_t length) {
    bool has_entries = journal->length > HEADER_BYTES;
    return has_entries && journal->length > length && journal->length > journal->image_length && !journal->has_volatile;
}

bool journal_add(struct journal *journal, const struct asked *asked, const unsigned char *answer) {
    size_t before = bytes_length(&journal->group) == 0 ? GROUP_BEFORE : 0;
    unsigned char *at = bytes_reserve(&journal->group, before + ENTRY_BEFORE + asked->length + GROUP_AFTER);
    errno = ENOMEM;
    if (!at) return journal_fault("cannot write", journal->path);
    at += before;
    if (may_be_volatile(asked)) journal->has_volatile = true;
    put32(at, (uint32_t)(4 + asked->length));
    put32(at + 4, asked->kind == KIND_OPEN ? get32(answer + 7) : 0);
    memcpy(at + ENTRY_BEFORE, asked->body, asked->length);
    bytes_added(&journal->group, before + ENTRY_BEFORE + asked->length);
    return journal->sync == SYNC_EACH ? journal_bring(journal) : true;
}

static bool write_all(int file, const unsigned char *at, size_t length) {
    while (length > 0) {
        ssize_t wrote = write(file, at, length);
        if (wrote < 0 && errno == EINTR) continue;
        if (wrote < 0) return false;
        at += wrote;
        length -= (size_t)wrote;
    }
    return true;
}

bool journal_bring(struct journal *journal) {
    size_t length = bytes_length(&journal->group);
    if (length == 0) return true;
    unsigned char after[GROUP_AFTER], *group = bytes_first(&journal->group);
    put32(group, journal->number++);
    put32(group + 4, (uint32_t)(length - GROUP_BEFORE));
    put32(after, journal_checksum(journal->identity, group, length - GROUP_BEFORE));
    if (!bytes_append(&journal->group, after, sizeof after)) errno = ENOMEM;
    length += sizeof after;
    bool is_written = bytes_length(&journal->group) == length;
    is_written = is_written && write_all(journal->file, bytes_first(&journal->group), length);
    if (is_written && journal->sync != SYNC_NONE) is_written = fdatasync(journal->file) == 0;
    if (!is_written) return journal_fault("cannot write", journal->path);
    bytes_take(&journal->group, length);
    journal->length += length;
    if (journal->length > journal->limit && !journal->is_reported) {
        fprintf(stderr, "ppsd: %s is longer than %llu bytes\n", journal->path, (unsigned long long)journal->limit);
        journal->is_reported = true;
    }
    return true;
}

/* Brings what a file's folder says of it to the disk. */
static bool bring_folder(const char *path) {
    const char *slash = strrchr(path, '/');
    char *folder = slash ? strndup(path, (size_t)(slash - path) + 1) : strdup(".");
    int file = folder ? open(folder, O_RDONLY | O_DIRECTORY | O_CLOEXEC) : -1;
    free(folder);
    bool is_brought = file >= 0 && fsync(file) == 0;
    if (file >= 0) close(file);
    return is_brought;
}

/* Renames, so that it is still so after the power went. */
static bool replace(const char *from, const char *to) {
    return (rename(from, to) == 0 && bring_folder(to)) || journal_fault("cannot replace", to);
}

bool journal_name_image(const char *path, struct image_name *name) {
    *name = (struct image_name){0};
    int file = open(path, O_RDONLY | O_CLOEXEC);
    unsigned char *piece = file >= 0 ? malloc(PIECE) : NULL;
    ssize_t got = piece ? 1 : -1;
    while (got > 0) {
        got = read(file, piece, PIECE);
        if (got < 0 && errno == EINTR) got = 1;
        else if (got > 0) {
            name->checksum = crc32_of(name->checksum, piece, (size_t)got);
            name->length += (uint64_t)got;
        }
    }
    int error = errno;
    free(piece);
    if (file >= 0) close(file);
    errno = error;
    return got == 0;
}

/* Brings a whole file to the disk. */
static bool bring_file(const char *path) {
    int file = open(path, O_RDONLY | O_CLOEXEC);
    bool is_brought = file >= 0 && fsync(file) == 0;
    if (file >= 0) close(file);
    return is_brought || journal_fault("cannot bring to the disk", path);
}

static void put_header(unsigned char header[HEADER_BYTES], const uint32_t identity[2], const struct image_name *image) {
    memcpy(header, magic, sizeof magic);
    put32(header + 8, identity[0]);
    put32(header + 12, identity[1]);
    put64(header + 16, image->length);
    put32(header + 24, image->checksum);
    put32(header + 28, crc32_of(0, header, HEADER_BYTES - 4));
}

bool journal_read_header(const unsigned char header[HEADER_BYTES], uint32_t identity[2], struct image_name *image) {
    if (memcmp(header, magic, sizeof magic) != 0) return false;
    identity[0] = get32(header + 8);
    identity[1] = get32(header + 12);
    *image = (struct image_name){get64(header + 16), get32(header + 24)};
    return get32(header + 28) == crc32_of(0, header, HEADER_BYTES - 4);
}

/* Makes an empty journal that names an image, in `next_path`, and opens it. */
static bool make_next(struct journal *journal, const struct image_name *image) {
    unsigned char header[HEADER_BYTES];
    if (journal->file >= 0) close(journal->file);
    if (getrandom(journal->identity, sizeof journal->identity, 0) != sizeof journal->identity) {
        return journal_fault("cannot make", journal->next_path);
    }
    put_header(header, journal->identity, image);
    journal->file = open(journal->next_path, O_WRONLY | O_CREAT | O_TRUNC | O_APPEND | O_CLOEXEC, 0600);
    bool is_made = journal->file >= 0 && write_all(journal->file, header, sizeof header) && fsync(journal->file) == 0;
    return is_made || journal_fault("cannot make", journal->next_path);
}

bool journal_take_next_image(struct journal *journal) { return replace(journal->next_image, journal->image); }

bool journal_begin_anew(struct journal *journal) {
    struct image_name image;
    if (!bring_file(journal->next_image)) return false;
    if (!bring_folder(journal->next_image)) return journal_fault("cannot bring to the disk", journal->next_image);
    if (!journal_name_image(journal->next_image, &image)) return journal_fault("cannot read", journal->next_image);
    /* (from the first of the two renames on, the new image is the one that the journal names) */
    if (!make_next(journal, &image)) return false;
    if (!replace(journal->next_path, journal->path) || !journal_take_next_image(journal)) return false;
    journal->number = 1;
    journal->length = HEADER_BYTES;
    journal->image_length = image.length;
    journal->is_reported = journal->has_volatile = false;
    return true;
}
