/* A library to be loaded before others. Each call to the system that it knows is written into the file LOG, as a line: the
   function, what it is on (in, out, err, the last name of a file's path, or - for a thread), and what it answered; ~ where it
   was interrupted, ! where it was made to fail.

   FAILED, as "write out 3", makes the third such call fail, and "write out 3+" all later ones too; * stands for any thing that
   it is on. It fails with the error of the number ERROR, if there is one; with 0 a write takes nothing. Where HOW has "short",
   reads and writes take one byte; where it has "ragged", now this and now that part; where it has "interrupted", every other
   one of them is interrupted first; where it has "patience", nine of ten. */
#define _GNU_SOURCE
#include <dlfcn.h>
#include <errno.h>
#include <fcntl.h>
#include <limits.h>
#include <pthread.h>
#include <stdarg.h>
#include <stdio.h>
#include <stdlib.h>
#include <string.h>
#include <sys/stat.h>
#include <sys/syscall.h>
#include <unistd.h>

enum { FILES = 256 };

static char names[FILES][NAME_MAX + 1] = {"in", "out", "err"};
static long seen = 0, turns = 0;

static const char *name_of(int file) { return file >= 0 && file < FILES && names[file][0] ? names[file] : "?"; }

static const char *last_of(const char *path) {
    const char *slash = strrchr(path, '/');
    return slash ? slash + 1 : path;
}

static void note(const char *function, const char *on, const char *answer) {
    static int file = -1;
    char line[NAME_MAX + 64];
    const char *path = getenv("LOG");
    if (!path) return;
    if (file < 0) file = (int)syscall(SYS_openat, AT_FDCWD, path, O_WRONLY | O_CREAT | O_APPEND | O_CLOEXEC, 0600);
    int length = snprintf(line, sizeof line, "%s %s %s\n", function, on, answer);
    syscall(SYS_write, file, line, (size_t)length);
}

/* Whether this call is to fail. Then it is noted so. */
static int fails(const char *function, const char *on) {
    char wanted[32], thing[NAME_MAX + 1], later = 0;
    long number, now;
    const char *failed = getenv("FAILED");
    if (!failed || sscanf(failed, "%31s %255s %ld%c", wanted, thing, &number, &later) < 3) return 0;
    if (strcmp(wanted, function) || (strcmp(thing, "*") && strcmp(thing, on))) return 0;
    now = __sync_add_and_fetch(&seen, 1);
    if (now != number && !(later == '+' && now > number)) return 0;
    note(function, on, "!");
    return 1;
}

/* What it answered is noted, and answered. */
static long noted(const char *function, const char *on, long answer) {
    int before = errno;
    char text[24];
    snprintf(text, sizeof text, "%ld", answer);
    note(function, on, text);
    errno = before;
    return answer;
}

static int how(const char *word) {
    const char *asked = getenv("HOW");
    return asked && strstr(asked, word) != NULL;
}

/* Whether this read or write is interrupted. Then it is noted so. */
static int is_interrupted(const char *function, const char *on) {
    long turn = __sync_add_and_fetch(&turns, 1);
    if (!(how("interrupted") && turn % 2 != 0) && !(how("patience") && turn % 10 != 0)) return 0;
    note(function, on, "~");
    return 1;
}

/* How much of so many bytes is taken. */
static size_t taken(size_t size) {
    static unsigned long chance = 1;
    if (size > 1 && how("short")) return 1;
    if (size < 2 || !how("ragged")) return size;
    chance = chance * 6364136223846793005 + 1442695040888963407;
    size_t most = chance >> 62 && size > 9 ? 9 : size;
    return 1 + (chance >> 33) % most;
}

static int error_of(int usual) {
    const char *asked = getenv("ERROR");
    return asked && *asked ? atoi(asked) : usual;
}

#define NEXT(function) static __typeof__(function) *next; if (!next) next = dlsym(RTLD_NEXT, #function)
#define FAIL_AS(error, answer) do { errno = error; return answer; } while (0)
#define FAIL(usual) do { errno = error_of(usual); return errno ? -1 : 0; } while (0)

ssize_t read(int file, void *bytes, size_t size) {
    NEXT(read);
    if (is_interrupted("read", name_of(file))) FAIL_AS(EINTR, -1);
    if (fails("read", name_of(file))) FAIL(EIO);
    return noted("read", name_of(file), next(file, bytes, taken(size)));
}

ssize_t write(int file, const void *bytes, size_t size) {
    NEXT(write);
    if (is_interrupted("write", name_of(file))) FAIL_AS(EINTR, -1);
    if (fails("write", name_of(file))) FAIL(ENOSPC);
    return noted("write", name_of(file), next(file, bytes, taken(size)));
}

int open(const char *path, int flags, ...) {
    va_list rest;
    mode_t mode;
    int file;
    NEXT(open);
    va_start(rest, flags);
    mode = va_arg(rest, mode_t);
    va_end(rest);
    if (fails("open", last_of(path))) FAIL_AS(EACCES, -1);
    file = (int)noted("open", last_of(path), next(path, flags, mode));
    if (file >= 0 && file < FILES) snprintf(names[file], sizeof names[file], "%s", last_of(path));
    return file;
}

int fsync(int file) {
    NEXT(fsync);
    if (fails("fsync", name_of(file))) FAIL_AS(EIO, -1);
    return (int)noted("fsync", name_of(file), next(file));
}

int rename(const char *from, const char *to) {
    NEXT(rename);
    if (fails("rename", last_of(from))) FAIL_AS(EIO, -1);
    return (int)noted("rename", last_of(from), next(from, to));
}

int unlink(const char *path) {
    NEXT(unlink);
    if (fails("unlink", last_of(path))) FAIL_AS(EACCES, -1);
    return (int)noted("unlink", last_of(path), next(path));
}

int statx(int folder, const char *path, int flags, unsigned int mask, struct statx *found) {
    const char *on = *path ? last_of(path) : name_of(folder);
    NEXT(statx);
    if (fails("statx", on)) FAIL_AS(EACCES, -1);
    return (int)noted("statx", on, next(folder, path, flags, mask, found));
}

ssize_t readlink(const char *path, char *text, size_t size) {
    NEXT(readlink);
    if (fails("readlink", last_of(path))) FAIL_AS(EACCES, -1);
    return noted("readlink", last_of(path), next(path, text, size));
}

char *realpath(const char *path, char *found) {
    NEXT(realpath);
    if (fails("realpath", last_of(path))) FAIL_AS(EACCES, NULL);
    char *answer = next(path, found);
    noted("realpath", last_of(path), answer ? 0 : -1);
    return answer;
}

int pthread_create(pthread_t *thread, const pthread_attr_t *with, void *(*begin)(void *), void *given) {
    NEXT(pthread_create);
    if (fails("thread", "-")) return EAGAIN;
    return (int)noted("thread", "-", next(thread, with, begin, given));
}
