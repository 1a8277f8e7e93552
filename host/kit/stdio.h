#ifndef KIT_STDIO_H
#define KIT_STDIO_H

#include <stddef.h>

#ifdef __cplusplus
extern "C" {
#endif

typedef struct kit_file FILE;
extern FILE *stdout;
extern FILE *stderr;
int printf(const char *, ...) __attribute__((format(printf, 1, 2)));
int fprintf(FILE *, const char *, ...) __attribute__((format(printf, 2, 3)));
int snprintf(char *, size_t, const char *, ...) __attribute__((format(printf, 3, 4)));
int vsnprintf(char *, size_t, const char *, __builtin_va_list);
int fflush(FILE *);

#ifdef __cplusplus
}
#endif

#endif
