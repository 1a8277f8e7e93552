// The kit has a C compiler and a C library, but no headers. The files of this folder declare what host/ uses of the C
// library on x86-64 Linux and nothing else, under the names that the usual headers have, so that the sources compile
// with those as well.
#ifndef KIT_STDDEF_H
#define KIT_STDDEF_H

typedef __SIZE_TYPE__ size_t;
#define NULL ((void *)0)

#endif
