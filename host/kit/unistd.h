#ifndef KIT_UNISTD_H
#define KIT_UNISTD_H

#include <stddef.h>

typedef __PTRDIFF_TYPE__ ssize_t;
typedef int pid_t;
ssize_t read(int, void *, size_t);
ssize_t write(int, const void *, size_t);
int close(int);
int fsync(int);
pid_t fork(void);
unsigned alarm(unsigned);
long syscall(long, ...);
__attribute__((noreturn)) void _exit(int);

#endif
