// A call whose registers are looked at directly afterwards, in key_x86_64.S.
#ifndef CALLED_H
#define CALLED_H

#include "scrubbed.h"
#include <stdint.h>

enum { ARGUMENTS = 12, GENERAL_BYTES = 16 * 8, REGISTER_BYTES = GENERAL_BYTES + 32 * 64 };

// any function that takes at most so many pointers and lengths
typedef void function(void);

uint32_t called(function *run, const uintptr_t *arguments, uint8_t *registers, enum tg18_vectors vectors);

#endif
