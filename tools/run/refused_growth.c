/* Refuses one growth of a program that is started with this library in LD_PRELOAD: the one whose number, from 1, REFUSED says. */

#define _GNU_SOURCE
#include <dlfcn.h>
#include <stdlib.h>

static unsigned long left;
static void *(*its_malloc)(size_t);
static void *(*its_realloc)(void *, size_t);

__attribute__((constructor)) static void begin(void) {
    const char *number = getenv("REFUSED");
    its_malloc = (void *(*)(size_t))dlsym(RTLD_NEXT, "malloc");
    its_realloc = (void *(*)(void *, size_t))dlsym(RTLD_NEXT, "realloc");
    left = number ? strtoul(number, 0, 10) : 0;
}

static int is_refused(void) {
    return left && --left == 0;
}

void *malloc(size_t size) {
    return !its_malloc || is_refused() ? 0 : its_malloc(size);
}

void *realloc(void *old, size_t size) {
    return is_refused() ? 0 : its_realloc(old, size);
}
