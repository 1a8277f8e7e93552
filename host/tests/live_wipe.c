// Whatever unit and memories held, after tg18_wipe they are byte for byte the same, and after tg18_fresh the unit is.
#include "lent.h"
#include "live_steps.h"
#include "scripts.h"
#include "tg18.h"
#include <stdio.h>
#include <string.h>

enum { TIMES = 60 };

static struct unit unit;
static struct lent state, first;

static struct tg18_unit *here(void) { return (struct tg18_unit *)state.at; }

static int is_zero(const struct lent *lent) {
    for (size_t i = 0; i < lent->bytes; i++) {
        if (lent->at[i] != 0) {
            return 0;
        }
    }
    return 1;
}

static int said(const char *what, int good) {
    printf("%s live: %s\n", good ? "ok" : "FAILED", what);
    return good;
}

// Random bytes, and now and then all of them alike.
static void any_bytes(struct lent *lent, uint64_t seed) {
    fill_any(lent, seed);
    if (seed % 4 == 3) {
        memset(lent->at, seed % 8 == 3 ? 0xFF : 0x7F, lent->bytes);
    }
}

static int same_as_first(void) { return memcmp(state.at, first.at, first.bytes) == 0; }

static int fresh_is_one(void) {
    int good = 1;
    for (int i = 0; i < MEMORIES; i++) {
        fill_any(&unit.memory[i], 3);
        keep(&unit.memory[i]);
    }
    for (uint64_t seed = 0; seed < 20 * TIMES; seed++) {
        any_bytes(&state, seed);
        tg18_fresh(here());
        good &= same_as_first();
    }
    for (int i = 0; i < MEMORIES; i++) {
        good &= is_kept(&unit.memory[i]);
    }
    return good;
}

static int wipe_is_one(void) {
    const struct tg18_memories memories = memories_of(&unit);
    int good = 1;
    for (uint64_t seed = 0; seed < TIMES; seed++) {
        any_bytes(&state, 100 + seed);
        for (int i = 0; i < MEMORIES; i++) {
            any_bytes(&unit.memory[i], 200 + seed + (uint64_t)i);
        }
        good &= tg18_wipe(here(), &memories) == TG18_DONE && same_as_first();
        for (int i = 0; i < MEMORIES; i++) {
            good &= is_zero(&unit.memory[i]);
        }
    }
    return good;
}

int main(void) {
    unit = unit_made();
    state = lend(sizeof(struct tg18_unit), BEFORE_GUARD);
    first = lend(sizeof(struct tg18_unit), BEFORE_GUARD);
    tg18_fresh((struct tg18_unit *)first.at);
    int good = said("the size that the library says is the header's", tg18_unit_bytes() == sizeof(struct tg18_unit));
    good &= said("units of any bytes are one and the same when fresh, and no memory is touched", fresh_is_one());
    good &= said("units and memories of any bytes are one and the same when wiped", wipe_is_one());
    return !good;
}
