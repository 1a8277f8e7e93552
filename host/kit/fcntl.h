#ifndef KIT_FCNTL_H
#define KIT_FCNTL_H

#define O_RDONLY 0
#define O_WRONLY 1
#define O_CREAT 0100
#define O_TRUNC 01000
#define O_CLOEXEC 02000000
int open(const char *, int, ...);

#endif
