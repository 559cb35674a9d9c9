/* Refuses the allocation whose number is in REFUSE, counted from 1, and writes how many there were into COUNT. */
#define _GNU_SOURCE
#include <dlfcn.h>
#include <errno.h>
#include <stdio.h>
#include <stdlib.h>

static long calls, refused, counting;

__attribute__((constructor)) static void begin(void) {
    const char *number = getenv("REFUSE");
    refused = number ? atol(number) : 0;
    counting = 1;
}

static int refuses(void) { return counting && ++calls == refused; }

void *malloc(size_t size) {
    static void *(*next)(size_t);
    if (!next) next = dlsym(RTLD_NEXT, "malloc");
    if (refuses()) { errno = ENOMEM; return 0; }
    return next(size);
}

void *realloc(void *old, size_t size) {
    static void *(*next)(void *, size_t);
    if (!next) next = dlsym(RTLD_NEXT, "realloc");
    if (refuses()) { errno = ENOMEM; return 0; }
    return next(old, size);
}

__attribute__((destructor)) static void end(void) {
    const char *name = getenv("COUNT");
    long all = calls;
    counting = 0;
    FILE *file = name ? fopen(name, "w") : 0;
    if (file) { fprintf(file, "%ld\n", all); fclose(file); }
}
