/* Refuses a program one of its requests for memory. Loaded before the C library, it answers the request with the number
   REFUSED, from 1, with null, and writes to the descriptor COUNTED, where there is one, how many requests there were. */
#define _GNU_SOURCE
#include <dlfcn.h>
#include <errno.h>
#include <stdio.h>
#include <stdlib.h>

static unsigned long requests, refused;

static unsigned long number(const char *name) {
    const char *text = getenv(name);
    return text ? strtoul(text, NULL, 10) : 0;
}

__attribute__((constructor)) static void begin(void) {
    refused = number("REFUSED");
    requests = 0;
}

__attribute__((destructor)) static void end(void) {
    int file = (int)number("COUNTED");
    if (file) {
        dprintf(file, "%lu\n", requests);
    }
}

static int is_refused(void) {
    if (++requests != refused) {
        return 0;
    }
    errno = ENOMEM;
    return 1;
}

void *malloc(size_t size) {
    static void *(*next)(size_t);
    if (!next) {
        next = (void *(*)(size_t))dlsym(RTLD_NEXT, "malloc");
    }
    return is_refused() ? NULL : next(size);
}

void *realloc(void *block, size_t size) {
    static void *(*next)(void *, size_t);
    if (!next) {
        next = (void *(*)(void *, size_t))dlsym(RTLD_NEXT, "realloc");
    }
    return is_refused() ? NULL : next(block, size);
}
