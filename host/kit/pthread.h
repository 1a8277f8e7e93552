#ifndef KIT_PTHREAD_H
#define KIT_PTHREAD_H

typedef unsigned long pthread_t;
int pthread_create(pthread_t *, const void *, void *(*)(void *), void *);
int pthread_join(pthread_t, void **);

#endif
