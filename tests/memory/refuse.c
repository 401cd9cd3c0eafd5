// Stands before the system's malloc and realloc, and refuses one request for memory: that of the number in REFUSED, from 1.
// At the end it writes how many requests there were into the file that REQUESTS names.
#define _GNU_SOURCE
#include <dlfcn.h>
#include <errno.h>
#include <stdio.h>
#include <stdlib.h>

static unsigned long calls, refused;
static void *(*next_malloc)(size_t);
static void *(*next_realloc)(void *, size_t);

__attribute__((constructor)) static void begin(void) {
    next_malloc = dlsym(RTLD_NEXT, "malloc");
    next_realloc = dlsym(RTLD_NEXT, "realloc");
    const char *number = getenv("REFUSED");
    refused = number ? strtoul(number, 0, 10) : 0;
}

static int is_refused(void) {
    if (++calls != refused) return 0;
    errno = ENOMEM;
    return 1;
}

void *malloc(size_t size) {
    if (!next_malloc) next_malloc = dlsym(RTLD_NEXT, "malloc");
    return is_refused() ? 0 : next_malloc(size);
}

void *realloc(void *old, size_t size) {
    if (!next_realloc) next_realloc = dlsym(RTLD_NEXT, "realloc");
    return is_refused() ? 0 : next_realloc(old, size);
}

__attribute__((destructor)) static void end(void) {
    const char *name = getenv("REQUESTS");
    FILE *file = name ? fopen(name, "w") : 0;
    if (file) fprintf(file, "%lu\n", calls), fclose(file);
}
