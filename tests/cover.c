/* A library to be loaded before others, with which the program is run many times quickly, and says which places it comes by.

   The file PLACES has the offsets of places of the program's code, each of 4 bytes in the machine's order, rising; at each there
   has to begin an instruction. A breakpoint is put there; where one is met, it is taken away, and its offset is added to the
   file MET.

   With SERVED, two open files as "8 9", the program does not begin by itself. For each byte that it is sent on the first it
   begins anew in a process of its own, with its input read from the beginning and its output empty, and sends on the second the
   number of that process and then how it ended, 4 bytes each. What was met once is no longer looked for; with "8 9 again" it
   is looked for in each run. */
#define _GNU_SOURCE
#include <fcntl.h>
#include <link.h>
#include <signal.h>
#include <stdint.h>
#include <stdio.h>
#include <stdlib.h>
#include <string.h>
#include <sys/mman.h>
#include <sys/prctl.h>
#include <sys/stat.h>
#include <sys/wait.h>
#include <ucontext.h>
#include <unistd.h>

enum { BREAKPOINT = 0xcc, BROKEN = 99 };

static uint8_t *base, *kept;
static const uint32_t *places;
static size_t count;
static int met = -1;

/* The number of a place in the list; the length of the list where it is none. */
static size_t number_of(uint32_t place) {
    size_t low = 0, high = count;
    while (low < high) {
        size_t middle = (low + high) / 2;
        if (places[middle] < place) low = middle + 1;
        else high = middle;
    }
    return low < count && places[low] == place ? low : count;
}

static void meet(int signal_number, siginfo_t *about, void *context) {
    greg_t *registers = ((ucontext_t *)context)->uc_mcontext.gregs;
    uint32_t place = (uint32_t)((uint8_t *)registers[REG_RIP] - 1 - base);
    size_t number = number_of(place);
    (void)about;
    if (number == count) {
        signal(signal_number, SIG_DFL);
        raise(signal_number);
        return;
    }
    base[place] = kept[number];
    registers[REG_RIP] -= 1;
    if (write(met, &place, sizeof place) != sizeof place) _exit(BROKEN);
}

/* The first thing that is listed is the program. Its code can be written from now on. */
static int open_code(struct dl_phdr_info *it, size_t size, void *given) {
    (void)size, (void)given;
    base = (uint8_t *)it->dlpi_addr;
    for (int at = 0; at < it->dlpi_phnum; at++) {
        const ElfW(Phdr) *part = &it->dlpi_phdr[at];
        if (part->p_type != PT_LOAD || !(part->p_flags & PF_X)) continue;
        uintptr_t begin = (it->dlpi_addr + part->p_vaddr) & ~(uintptr_t)4095, end = it->dlpi_addr + part->p_vaddr + part->p_memsz;
        if (mprotect((void *)begin, end - begin, PROT_READ | PROT_WRITE | PROT_EXEC)) _exit(BROKEN);
    }
    return 1;
}

static void put_breakpoints(const char *from, const char *to) {
    struct sigaction how = {.sa_sigaction = meet, .sa_flags = SA_SIGINFO | SA_NODEFER};
    struct stat found;
    int file = open(from, O_RDONLY | O_CLOEXEC);
    met = open(to, O_RDWR | O_CREAT | O_APPEND | O_CLOEXEC, 0600);
    if (file < 0 || met < 0 || fstat(file, &found)) _exit(BROKEN);
    count = (size_t)found.st_size / sizeof *places;
    if (!count) return;
    places = mmap(NULL, (size_t)found.st_size, PROT_READ, MAP_PRIVATE, file, 0);
    kept = mmap(NULL, count, PROT_READ | PROT_WRITE, MAP_PRIVATE | MAP_ANONYMOUS, -1, 0);
    if (places == MAP_FAILED || kept == MAP_FAILED || sigaction(SIGTRAP, &how, NULL)) _exit(BROKEN);
    close(file);
    dl_iterate_phdr(open_code, NULL);
    for (size_t at = 0; at < count; at++) {
        kept[at] = base[places[at]];
        base[places[at]] = BREAKPOINT;
    }
}

/* Takes away what was met since so many bytes of the file, and answers how many it has now. */
static off_t take_away(off_t done) {
    uint32_t place;
    while (met >= 0 && pread(met, &place, sizeof place, done) == sizeof place) {
        size_t number = number_of(place);
        if (number < count) base[place] = kept[number];
        done += sizeof place;
    }
    return done;
}

/* Returns in each of the processes in which the program begins. */
static void serve(int asked, int told, int is_again) {
    off_t done = 0;
    char byte;
    while (read(asked, &byte, 1) == 1) {
        lseek(0, 0, SEEK_SET), lseek(1, 0, SEEK_SET), lseek(2, 0, SEEK_SET);
        int32_t process = fork(), status;
        if (process < 0) _exit(BROKEN);
        if (!process) {
            prctl(PR_SET_PDEATHSIG, SIGKILL);
            close(asked), close(told);
            return;
        }
        if (write(told, &process, sizeof process) != sizeof process) _exit(0);
        if (waitpid(process, &status, 0) != process) _exit(BROKEN);
        if (!is_again) done = take_away(done);
        if (write(told, &status, sizeof status) != sizeof status) _exit(0);
    }
    _exit(0);
}

__attribute__((constructor)) static void begin(void) {
    const char *from = getenv("PLACES"), *to = getenv("MET"), *served = getenv("SERVED");
    int asked, told;
    if (from && to) put_breakpoints(from, to);
    if (served && sscanf(served, "%d %d", &asked, &told) == 2) serve(asked, told, strstr(served, "again") != NULL);
}
