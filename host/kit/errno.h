#ifndef KIT_ERRNO_H
#define KIT_ERRNO_H

int *__errno_location(void);
#define errno (*__errno_location())
#define EINTR 4

#endif
