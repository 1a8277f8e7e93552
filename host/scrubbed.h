// The parts of tg18_scrubbed, for itself and for the tests.
#ifndef TG18_SCRUBBED_H
#define TG18_SCRUBBED_H

#include "tg18.h"
#include <stddef.h>
#include <stdint.h>

// which vector registers there are to clear
enum tg18_vectors { TG18_XMM, TG18_YMM, TG18_ZMM };
enum tg18_vectors tg18_vectors_here(void);

// The stack and the guard below it.
// The port's deepest use, measured by host/tests/depth.c with scripts and live calls of every kind, is 10,768 bytes,
// and was 15,048 with what the C library's loader takes when it finds memcpy and memset at their first call. The stack
// is 17 times that, and the guard is more than four times that, so no frame reaches over it.
enum { TG18_GUARD_BYTES = 65536, TG18_STACK_BYTES = TG18_SCRUBBED_BYTES };

// scrubbed_x86_64.S: calls `work` on the stack that ends at `top` (a multiple of 16), and clears the registers behind
// it.
void tg18_call_on(void (*work)(void *argument), void *argument, void *top, enum tg18_vectors vectors);

// scrubbed_x86_64.S: zeroes bytes. It is assembly, so no compiler can find that nobody reads them again.
void tg18_clear(void *from, size_t bytes);

#endif
