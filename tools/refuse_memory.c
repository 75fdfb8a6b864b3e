/* Refuses requests for memory, for scripts/short-of-memory. Loaded before a program by LD_PRELOAD, it counts the program's calls
 * of malloc, calloc and realloc, from 1. The environment says which are refused:
 *
 *   REFUSED_REQUEST=N       the N-th alone
 *   REFUSED_REQUESTS=N      the N-th and all after it
 *   COUNTED_REQUESTS=FILE   none; at the end the file gets how many there were
 *
 * It is no part of the program, and needs the GNU C library, whose own names of the three calls it passes the others on to. */
#include <errno.h>
#include <fcntl.h>
#include <stdatomic.h>
#include <stdio.h>
#include <stdlib.h>
#include <unistd.h>

extern void *__libc_malloc(size_t size);
extern void *__libc_calloc(size_t count, size_t size);
extern void *__libc_realloc(void *block, size_t size);

static atomic_ulong requests;
static unsigned long refused_alone;
static unsigned long refused_from;

/* The number in a variable of the environment, or 0, which is the number of no request. */
static unsigned long number_in(const char *name) {
    const char *text = getenv(name);
    return text == NULL ? 0 : strtoul(text, NULL, 10);
}

/* Reads what is refused. What was asked for before is not the program's, and is not counted. */
__attribute__((constructor)) static void begin(void) {
    refused_alone = number_in("REFUSED_REQUEST");
    refused_from = number_in("REFUSED_REQUESTS");
    atomic_store(&requests, 0);
}

/* Writes how many requests there were. */
__attribute__((destructor)) static void end(void) {
    unsigned long counted = atomic_load(&requests);
    const char *path = getenv("COUNTED_REQUESTS");
    int file = path == NULL ? -1 : open(path, O_WRONLY | O_CREAT | O_TRUNC, 0600);
    if (file >= 0) {
        dprintf(file, "%lu\n", counted);
        close(file);
    }
}

/* Counts one more request, and says whether it is refused. */
static int is_refused(void) {
    unsigned long number = atomic_fetch_add(&requests, 1) + 1;
    if (number == refused_alone || (refused_from != 0 && number >= refused_from)) {
        errno = ENOMEM;
        return 1;
    }
    return 0;
}

void *malloc(size_t size) {
    return is_refused() ? NULL : __libc_malloc(size);
}

void *calloc(size_t count, size_t size) {
    return is_refused() ? NULL : __libc_calloc(count, size);
}

void *realloc(void *block, size_t size) {
    return is_refused() ? NULL : __libc_realloc(block, size);
}
