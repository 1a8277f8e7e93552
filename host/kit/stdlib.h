#ifndef KIT_STDLIB_H
#define KIT_STDLIB_H

#include <stddef.h>

#ifdef __cplusplus
extern "C" {
#endif

unsigned long strtoul(const char *, char **, int);
void *calloc(size_t, size_t);
void free(void *);
__attribute__((noreturn)) void exit(int);

#ifdef __cplusplus
}
#endif

#endif
