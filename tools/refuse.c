// Loaded before a program (LD_PRELOAD), it refuses one of the program's requests to the C library.
//
// REFUSE names it: `memory:7` is the seventh request for memory, `read:2` the second read, which fails, and `write:3` the third
// write. Of `short_read:2` and `short_write:3` the read or the write moves one byte. At the end the line `requests: N` on standard
// error tells how many of that kind there were.
#define _GNU_SOURCE
#include <dlfcn.h>
#include <errno.h>
#include <stdio.h>
#include <stdlib.h>
#include <string.h>
#include <unistd.h>

static const char *kind = "";
static long nth, count;

__attribute__((constructor)) static void begin(void) {
    const char *refuse = getenv("REFUSE");
    const char *colon = refuse ? strchr(refuse, ':') : 0;
    if (!colon) return;
    nth = atol(colon + 1);
    kind = strndup(refuse, colon - refuse);
    count = 0;
}

// Returns whether the request, one of this kind, is the one to be refused.
static int refused(const char *of) {
    return strcmp(kind, of) == 0 && ++count == nth;
}

static void *next(const char *name) {
    return dlsym(RTLD_NEXT, name);
}

void *malloc(size_t size) {
    static void *(*real)(size_t);
    if (!real) real = next("malloc");
    if (refused("memory")) { errno = ENOMEM; return 0; }
    return real(size);
}

void *realloc(void *block, size_t size) {
    static void *(*real)(void *, size_t);
    if (!real) real = next("realloc");
    if (refused("memory")) { errno = ENOMEM; return 0; }
    return real(block, size);
}

int posix_memalign(void **block, size_t alignment, size_t size) {
    static int (*real)(void **, size_t, size_t);
    if (!real) real = next("posix_memalign");
    return refused("memory") ? ENOMEM : real(block, alignment, size);
}

void *aligned_alloc(size_t alignment, size_t size) {
    static void *(*real)(size_t, size_t);
    if (!real) real = next("aligned_alloc");
    if (refused("memory")) { errno = ENOMEM; return 0; }
    return real(alignment, size);
}

ssize_t read(int file, void *bytes, size_t size) {
    static ssize_t (*real)(int, void *, size_t);
    if (!real) real = next("read");
    if (refused("read")) { errno = EIO; return -1; }
    return real(file, bytes, refused("short_read") && size > 1 ? 1 : size);
}

ssize_t write(int file, const void *bytes, size_t size) {
    static ssize_t (*real)(int, const void *, size_t);
    if (!real) real = next("write");
    if (refused("write")) { errno = EIO; return -1; }
    return real(file, bytes, refused("short_write") && size > 1 ? 1 : size);
}

__attribute__((destructor)) static void end(void) {
    char line[40];
    static ssize_t (*real)(int, const void *, size_t);
    long total = count;
    real = next("write");
    int size = snprintf(line, sizeof line, "requests: %ld\n", total);
    (void)!real(2, line, size);
}
