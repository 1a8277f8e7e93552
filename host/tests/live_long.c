// Does a list of presses and steps on standard input by live calls from the fresh state, and writes the answers: laid
// out as a script's, but there may be any number of them. test_command.py compares it with ./tg18.
#include "lent.h"
#include "live_steps.h"
#include "tg18.h"
#include <string.h>
#include <unistd.h>

enum { ROOM = 1 << 24 };

static uint32_t word_at(const uint8_t *at) {
    uint32_t word;
    memcpy(&word, at, sizeof word);
    return word;
}

static size_t all_read(uint8_t *at) {
    size_t have = 0;
    ssize_t got = 1;
    while (got > 0 && have < ROOM) {
        got = read(0, at + have, ROOM - have);
        have += got > 0 ? (size_t)got : 0;
    }
    return got == 0 ? have : 0;
}

int main(void) {
    struct unit unit = unit_made();
    const struct tg18_memories memories = memories_of(&unit);
    struct lent list = lend(ROOM, AFTER_GUARD), out = lend(3 * ROOM, AFTER_GUARD);
    struct lent rgb = lend(TG18_SCREEN_BYTES, AFTER_GUARD);
    static struct tg18_unit state;
    size_t have = all_read(list.at);
    uint32_t presses = word_at(list.at);
    uint32_t steps = TG18_SCRIPT_BYTES(presses, 0) <= have ? word_at(list.at + 4 + TG18_PRESS_BYTES * presses) : ROOM;
    if (have != TG18_SCRIPT_BYTES(presses, steps)) {
        return 2;
    }
    tg18_fresh(&state);
    do_script(&state, &memories, list.at, out.at, rgb.at);
    for (size_t at = 0, all = TG18_OUT_BYTES(presses, steps); at < all;) {
        ssize_t put = write(1, out.at + at, all - at);
        if (put <= 0) {
            return 3;
        }
        at += (size_t)put;
    }
    return 0;
}
