// Refuses one growth of memory of the program that it is loaded into (LD_PRELOAD): the call of malloc or realloc whose number, counted from 1, the
// variable REFUSE gives. With no such number it refuses none. At the program's end it writes how many there were to the file that REFUSE_COUNT names.
#define _GNU_SOURCE
#include <dlfcn.h>
#include <fcntl.h>
#include <stdio.h>
#include <stdlib.h>
#include <unistd.h>

static unsigned long calls;

static int refused(void) {
    static unsigned long chosen;
    static int known;
    if (!known) {
        const char *text = getenv("REFUSE");
        chosen = text ? strtoul(text, NULL, 10) : 0;
        known = 1;
    }
    return ++calls == chosen;
}

void *malloc(size_t size) {
    static void *(*next)(size_t);
    if (!next) next = (void *(*)(size_t))dlsym(RTLD_NEXT, "malloc");
    return refused() ? NULL : next(size);
}

void *realloc(void *old, size_t size) {
    static void *(*next)(void *, size_t);
    if (!next) next = (void *(*)(void *, size_t))dlsym(RTLD_NEXT, "realloc");
    return refused() ? NULL : next(old, size);
}

__attribute__((destructor)) static void tell(void) {
    const char *name = getenv("REFUSE_COUNT");
    if (!name) return;
    int file = open(name, O_WRONLY | O_CREAT | O_TRUNC, 0600);
    if (file < 0) return;
    dprintf(file, "%lu\n", calls);
    close(file);
}
