// The ways by which a key gets into a unit: scripts, and where the key is afterwards.
#ifndef KEY_WAYS_H
#define KEY_WAYS_H

#include "lent.h"
#include "scripts.h"
#include <stddef.h>

struct way {
    const char *name;
    void (*lay)(struct script *);
    // where the key is in the memories afterwards without a wipe, in bytes from the memory's begin
    struct {
        enum memory memory;
        size_t place;
    } there[2];
    size_t theres;
    int is_in_unit; // whether the state holds it as well
};

enum { WAYS = 7 };
extern const struct way ways[WAYS];

#endif
