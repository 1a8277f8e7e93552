#ifndef KIT_SYS_SYSCALL_H
#define KIT_SYS_SYSCALL_H

#define SYS_mmap 9
#define SYS_munmap 11
#define SYS_rt_sigprocmask 14

#endif
