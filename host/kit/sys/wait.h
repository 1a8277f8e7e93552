#ifndef KIT_SYS_WAIT_H
#define KIT_SYS_WAIT_H

#include <unistd.h>

pid_t waitpid(pid_t, int *, int);
#define WIFEXITED(status) (((status) & 0x7f) == 0)
#define WEXITSTATUS(status) (((status) >> 8) & 0xff)
#define WTERMSIG(status) ((status) & 0x7f)

#endif
