// Counts a program's copies of more than 2 KB. Loaded before the C library
// (LD_PRELOAD), it takes the program's calls of memcpy and memmove. When the
// program ends it writes how many were that large, and their bytes, to standard
// error. To be compiled without optimisation: it would make the loops calls of
// the functions that they are in.
#include <stddef.h>
#include <stdio.h>

static unsigned long copies, bytes;

void *memmove(void *to, const void *from, size_t n) {
    char *t = to;
    const char *f = from;
    if (n > 2048) {
        copies += 1;
        bytes += n;
    }
    if (t <= f) {
        for (size_t i = 0; i < n; i++) t[i] = f[i];
    } else {
        for (size_t i = n; i > 0; i--) t[i - 1] = f[i - 1];
    }
    return to;
}

void *memcpy(void *restrict to, const void *restrict from, size_t n) {
    return memmove(to, from, n);
}

__attribute__((destructor)) static void report(void) {
    dprintf(2, "%lu %lu\n", copies, bytes);
}
