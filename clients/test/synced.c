/* A library to be loaded before others, for a disk whose power may go: the folder $SYNCED always has what would be
   left then. For each file that was brought to the disk (fsync, fdatasync) it has a copy under the number of its
   inode; a file that never was is empty. `names` there has the name and the number of each file in the folder
   $SYNCED_OF as they were when that folder was brought to the disk: what was made or renamed since then is not there.

   A process that is called $KILLED kills itself before its call of the number $KILLED_AT, of those calls that change
   files or bring them to the disk. */
#include <dirent.h>
#include <dlfcn.h>
#include <errno.h>
#include <fcntl.h>
#include <signal.h>
#include <stdarg.h>
#include <stdbool.h>
#include <stdio.h>
#include <stdlib.h>
#include <string.h>
#include <sys/stat.h>
#include <unistd.h>

enum { PATH_ROOM = 4096 };

static _Noreturn void fail(const char *words) {
    fprintf(stderr, "synced: %s: %s\n", words, strerror(errno));
    abort();
}

static int next_open(const char *path, int flags, mode_t mode) {
    int (*next)(const char *, int, ...) = (int (*)(const char *, int, ...))dlsym(RTLD_NEXT, "open");
    return next(path, flags, mode);
}

static void name_in(char *path, const char *folder, const char *name) {
    snprintf(path, PATH_ROOM, "%s/%s", folder, name);
}

/* Where a process puts what takes the place of a file of $SYNCED. */
static void name_made(char *path) { snprintf(path, PATH_ROOM, "%s/made.%ld", getenv("SYNCED"), (long)getpid()); }

static void name_of_inode(char *path, ino_t number) {
    snprintf(path, PATH_ROOM, "%s/%llu", getenv("SYNCED"), (unsigned long long)number);
}

/* A file of $SYNCED is replaced as a whole, so that it is never half of something. */
static void put_in_place(const char *made, const char *path) {
    int (*next)(const char *, const char *) = (int (*)(const char *, const char *))dlsym(RTLD_NEXT, "rename");
    if (next(made, path) != 0) fail("rename");
}

static void copy_file(int from, ino_t number) {
    char path[PATH_ROOM], made[PATH_ROOM], own[PATH_ROOM], piece[65536];
    ssize_t got;
    name_of_inode(path, number);
    snprintf(own, sizeof own, "/proc/self/fd/%d", from);
    name_made(made);
    int source = next_open(own, O_RDONLY | O_CLOEXEC, 0);
    int copy = next_open(made, O_WRONLY | O_CREAT | O_TRUNC | O_CLOEXEC, 0600);
    if (source < 0 || copy < 0) fail("open");
    while ((got = read(source, piece, sizeof piece)) > 0) {
        if (write(copy, piece, (size_t)got) != got) fail("write");
    }
    if (got < 0) fail("read");
    close(source);
    close(copy);
    put_in_place(made, path);
}

static void copy_names(const char *folder) {
    char path[PATH_ROOM], made[PATH_ROOM];
    struct stat found;
    name_in(path, getenv("SYNCED"), "names");
    name_made(made);
    DIR *names = opendir(folder);
    FILE *list = fopen(made, "we");
    if (!names || !list) fail("open");
    for (struct dirent *entry; (entry = readdir(names));) {
        if (fstatat(dirfd(names), entry->d_name, &found, AT_SYMLINK_NOFOLLOW) != 0 || !S_ISREG(found.st_mode)) continue;
        fprintf(list, "%llu %s\n", (unsigned long long)found.st_ino, entry->d_name);
    }
    closedir(names);
    if (fclose(list) != 0) fail("write");
    put_in_place(made, path);
}

/* Notes that a file has been brought to the disk. */
static void note(int file) {
    struct stat found, folder;
    if (!getenv("SYNCED") || fstat(file, &found) != 0) return;
    if (S_ISREG(found.st_mode)) copy_file(file, found.st_ino);
    if (!S_ISDIR(found.st_mode) || stat(getenv("SYNCED_OF"), &folder) != 0) return;
    if (found.st_ino == folder.st_ino) copy_names(getenv("SYNCED_OF"));
}

/* Counts a call, before it is made. */
static void count_call(void) {
    static long calls;
    const char *name = getenv("KILLED"), *number = getenv("KILLED_AT");
    if (!name || !number || strcmp(name, program_invocation_short_name) != 0) return;
    if (++calls == atol(number)) kill(getpid(), SIGKILL);
}

int fsync(int file) {
    count_call();
    int (*next)(int) = (int (*)(int))dlsym(RTLD_NEXT, "fsync");
    int result = next(file);
    if (result == 0) note(file);
    return result;
}

int fdatasync(int file) {
    count_call();
    int (*next)(int) = (int (*)(int))dlsym(RTLD_NEXT, "fdatasync");
    int result = next(file);
    if (result == 0) note(file);
    return result;
}

int rename(const char *from, const char *to) {
    int (*next)(const char *, const char *) = (int (*)(const char *, const char *))dlsym(RTLD_NEXT, "rename");
    count_call();
    return next(from, to);
}

/* A new file has the inode of no other, although it may have its number. */
static int open_noting(const char *path, int flags, mode_t mode) {
    struct stat found;
    bool is_new = getenv("SYNCED") && flags & O_CREAT && lstat(path, &found) != 0;
    if (flags & O_CREAT) count_call();
    int file = next_open(path, flags, mode);
    if (is_new && file >= 0 && fstat(file, &found) == 0) {
        char copy[PATH_ROOM];
        name_of_inode(copy, found.st_ino);
        if (unlink(copy) != 0 && errno != ENOENT) fail("unlink");
    }
    return file;
}

static mode_t mode_of(int flags, va_list rest) { return flags & O_CREAT ? va_arg(rest, mode_t) : 0; }

int open(const char *path, int flags, ...) {
    va_list rest;
    va_start(rest, flags);
    mode_t mode = mode_of(flags, rest);
    va_end(rest);
    return open_noting(path, flags, mode);
}

int open64(const char *path, int flags, ...) {
    va_list rest;
    va_start(rest, flags);
    mode_t mode = mode_of(flags, rest);
    va_end(rest);
    return open_noting(path, flags | O_LARGEFILE, mode);
}
