/* Refuses one allocation of a program: the one whose number REFUSE gives, counted from 1. Where COUNT names a file, the number
   of allocations is written to it at the end. Built as a library and preloaded by `run`. */
#define _GNU_SOURCE
#include <dlfcn.h>
#include <errno.h>
#include <fcntl.h>
#include <stdio.h>
#include <stdlib.h>
#include <string.h>
#include <unistd.h>

static unsigned long calls;

static int refused(void) {
    static long which = -1;
    if (which < 0) {
        const char *text = getenv("REFUSE");
        which = text ? atol(text) : 0;
    }
    return ++calls == (unsigned long)which;
}

#define NEXT(name) ((typeof(&name))dlsym(RTLD_NEXT, #name))

void *malloc(size_t size) {
    static typeof(&malloc) next;
    if (!next) next = NEXT(malloc);
    return refused() ? NULL : next(size);
}

void *realloc(void *old, size_t size) {
    static typeof(&realloc) next;
    if (!next) next = NEXT(realloc);
    return refused() ? NULL : next(old, size);
}

void *aligned_alloc(size_t align, size_t size) {
    static typeof(&aligned_alloc) next;
    if (!next) next = NEXT(aligned_alloc);
    return refused() ? NULL : next(align, size);
}

int posix_memalign(void **place, size_t align, size_t size) {
    static typeof(&posix_memalign) next;
    if (!next) next = NEXT(posix_memalign);
    return refused() ? ENOMEM : next(place, align, size);
}

__attribute__((destructor)) static void tell(void) {
    const char *name = getenv("COUNT");
    if (!name) return;
    char text[32];
    int length = snprintf(text, sizeof text, "%lu\n", calls);
    int file = open(name, O_WRONLY | O_CREAT | O_TRUNC, 0600);
    if (file >= 0) {
        if (write(file, text, (size_t)length) < 0) {}
        close(file);
    }
}
