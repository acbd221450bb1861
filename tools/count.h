/* For libraries that are loaded before others: how many calls there were is written into the file COUNTED at the end. */
#include <stdio.h>
#include <stdlib.h>
#include <sys/syscall.h>
#include <unistd.h>

static long seen = 0;

static void tell(void) {
    const char *path = getenv("COUNTED");
    FILE *file = path ? fopen(path, "w") : NULL;
    if (file) { fprintf(file, "%ld\n", seen); fclose(file); }
}

__attribute__((destructor)) static void end(void) { tell(); }

/* A program that may have threads ends so. */
void _exit(int status) {
    tell();
    syscall(SYS_exit_group, status);
    __builtin_unreachable();
}
