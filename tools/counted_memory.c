/* Stands between a program and the C library's heap (LD_PRELOAD): refuses one request, the one that REFUSED_REQUEST numbers, and
 * says at the end on the file descriptor 2 how many requests there were, how many were refused, and how many blocks weren't
 * given back. */
#define _GNU_SOURCE
#include <dlfcn.h>
#include <stdio.h>
#include <stdlib.h>
#include <unistd.h>

static unsigned long requests, refused, number;
static long held;
static void *(*real_malloc)(size_t);
static void *(*real_realloc)(void *, size_t);
static void (*real_free)(void *);

__attribute__((constructor)) static void find_heap(void) {
    const char *given = getenv("REFUSED_REQUEST");
    real_malloc = dlsym(RTLD_NEXT, "malloc");
    real_realloc = dlsym(RTLD_NEXT, "realloc");
    real_free = dlsym(RTLD_NEXT, "free");
    requests = refused = held = 0;
    number = given ? strtoul(given, NULL, 10) : 0;
}

__attribute__((destructor)) static void say_counts(void) {
    char line[100];
    int length = snprintf(line, sizeof line, "%lu requests, %lu refused, %ld held\n", requests, refused, held);
    if (write(2, line, length) < 0) _exit(3);
}

static int is_refused(void) {
    requests++;
    if (requests != number) return 0;
    refused++;
    return 1;
}

void *malloc(size_t size) {
    if (!real_malloc) real_malloc = dlsym(RTLD_NEXT, "malloc");
    void *block = is_refused() ? NULL : real_malloc(size);
    held += block != NULL;
    return block;
}

void *realloc(void *old, size_t size) {
    if (!real_realloc) real_realloc = dlsym(RTLD_NEXT, "realloc");
    void *block = is_refused() ? NULL : real_realloc(old, size);
    held += block != NULL && old == NULL;
    return block;
}

void free(void *block) {
    if (!real_free) real_free = dlsym(RTLD_NEXT, "free");
    held -= block != NULL;
    real_free(block);
}
