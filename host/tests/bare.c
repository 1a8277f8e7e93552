// A host that has two names of the C library, and no more. It is linked with the archive and not run (test_archive.py).
#include <stddef.h>

void *memcpy(void *to, const void *from, size_t bytes);
void *memset(void *to, int byte, size_t bytes);
void bare(void);

void *memcpy(void *to, const void *from, size_t bytes) {
    (void)from;
    (void)bytes;
    return to;
}

void *memset(void *to, int byte, size_t bytes) {
    (void)byte;
    (void)bytes;
    return to;
}

void bare(void) {}
