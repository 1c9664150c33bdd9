/* Loaded before the C library, refuses the allocation of memory whose number from 1 on is in REFUSE, and writes "refused" to standard error. */
#define _GNU_SOURCE
#include <dlfcn.h>
#include <stdlib.h>
#include <unistd.h>
static int refused(void) {
    static long left = -2;
    if (left == -2) {
        const char *text = getenv("REFUSE");
        left = text ? atol(text) : 0;
    }
    if (left <= 0 || --left > 0)
        return 0;
    return write(2, "refused\n", 8) > 0;
}
void *malloc(size_t size) {
    static void *(*inner)(size_t);
    if (!inner)
        inner = dlsym(RTLD_NEXT, "malloc");
    return refused() ? NULL : inner(size);
}
void *realloc(void *old, size_t size) {
    static void *(*inner)(void *, size_t);
    if (!inner)
        inner = dlsym(RTLD_NEXT, "realloc");
    return refused() ? NULL : inner(old, size);
}
