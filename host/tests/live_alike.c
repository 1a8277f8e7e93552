// Live calls, scripts and scripts cut in two do the same: scripts at random go three ways, each over a world of its
// own, from the same bytes. Answers and states are compared after each script, memories after each few.
#include "lent.h"
#include "live_steps.h"
#include "scripts.h"
#include "tg18.h"
#include <stdio.h>
#include <stdlib.h>
#include <string.h>

enum { SCRIPTS = 2000, STEPS = 60, EACH = 50, CUT_EVERYWHERE = 6, ROOM = 65536 };

struct world {
    struct tg18_unit state;
    struct unit unit;
    struct tg18_memories memories;
    struct lent out;
};

static uint8_t desk[ROOM], halves[2][ROOM], rgb[TG18_SCREEN_BYTES];

static struct world world_made(uint64_t seed) {
    struct world world;
    world.unit = unit_made();
    world.memories = memories_of(&world.unit);
    world.out = lend(ROOM, AFTER_GUARD);
    for (int i = 0; i < MEMORIES; i++) {
        fill_any(&world.unit.memory[i], seed + (uint64_t)i);
    }
    tg18_fresh(&world.state);
    return world;
}

static __attribute__((noreturn)) void differ(const char *test, unsigned script, unsigned cut, const char *what) {
    printf("FAILED live: %s: script %u, cut at %u: another %s\n", test, script, cut, what);
    exit(1);
}

// ---- one script, each way

static void run_whole(struct world *w, const struct script *script, uint32_t (*run)(struct world *, size_t)) {
    if (run(w, script_length(script)) != TG18_DONE) {
        differ("a whole script", 0, 0, "refusal");
    }
}

static uint32_t from_fresh(struct world *w, size_t bytes) {
    const struct tg18_memories *m = &w->memories;
    return tg18_run_script(m->ram, m->ram_len, m->sram, m->sram_len, m->gpio, m->gpio_len, m->framebuffer,
                           m->framebuffer_len, desk, bytes, w->out.at, w->out.bytes);
}

static uint32_t from_here(struct world *w, size_t bytes) {
    return tg18_continue_script(&w->state, &w->memories, desk, bytes, w->out.at, w->out.bytes);
}

static void lay_word(uint8_t *at, uint32_t word) { memcpy(at, &word, sizeof word); }

// Presses and steps from one to another, of all the script's in a row, as a script.
static size_t part_of(const struct script *script, uint32_t from, uint32_t to, uint8_t *at) {
    uint32_t p = script->presses;
    uint32_t first_press = from < p ? from : p, presses = (to < p ? to : p) - first_press;
    uint32_t first_step = from > p ? from - p : 0, steps = to - from - presses;
    lay_word(at, presses);
    memcpy(at + 4, script->at + 4 + TG18_PRESS_BYTES * first_press, TG18_PRESS_BYTES * presses);
    lay_word(at + 4 + TG18_PRESS_BYTES * presses, steps);
    memcpy(at + 8 + TG18_PRESS_BYTES * presses, script->at + 8 + TG18_PRESS_BYTES * p + TG18_STEP_BYTES * first_step,
           TG18_STEP_BYTES * steps);
    return TG18_SCRIPT_BYTES(presses, steps);
}

// The answers of the two parts are put together as one's.
static void run_cut(struct world *w, const struct script *script, uint32_t cut) {
    uint32_t all = script->presses + script->steps;
    size_t first = part_of(script, 0, cut, halves[0]), second = part_of(script, cut, all, halves[1]);
    uint8_t *behind = w->out.at + TG18_ANSWER_BYTES * cut, kept[4];
    uint32_t refusal = tg18_continue_script(&w->state, &w->memories, halves[0], first, w->out.at, w->out.bytes);
    // The count of the second part's answers stands where the last four bytes of the first part's are.
    memcpy(kept, behind, sizeof kept);
    refusal |= tg18_continue_script(&w->state, &w->memories, halves[1], second, behind, TG18_OUT_BYTES(0, all - cut));
    memcpy(behind, kept, sizeof kept);
    lay_word(w->out.at, refusal == TG18_DONE ? all : 0);
}

// ---- comparing

static void compare_memories(const char *test, unsigned script, uint32_t cut, const struct world *a,
                             const struct world *b) {
    for (int i = 0; i < MEMORIES; i++) {
        if (memcmp(a->unit.memory[i].at, b->unit.memory[i].at, memory_bytes[i]) != 0) {
            differ(test, script, cut, memory_names[i]);
        }
    }
}

static void compare_out(const char *test, unsigned number, uint32_t cut, const struct script *script,
                        const struct world *a, const struct world *b) {
    if (memcmp(a->out.at, b->out.at, out_length(script)) != 0) {
        differ(test, number, cut, "answer");
    }
}

static void compare_states(const char *test, unsigned number, uint32_t cut, const struct world *a,
                           const struct world *b) {
    if (memcmp(&a->state, &b->state, sizeof a->state) != 0) {
        differ(test, number, cut, "unit");
    }
}

// ---- the tests

// From the fresh state: tg18_run_script, live calls, and cut in two at a place that chance chooses.
static void test_fresh(void) {
    static struct world whole, live, cut;
    whole = world_made(7), live = world_made(7), cut = world_made(7);
    for (unsigned i = 0; i < SCRIPTS; i++) {
        uint64_t state = 1000 + i;
        struct script script = script_at(desk);
        script_any(&script, &state, STEPS);
        uint32_t at = (uint32_t)below(&state, script.presses + script.steps + 1);
        tg18_fresh(&live.state);
        tg18_fresh(&cut.state);
        run_whole(&whole, &script, from_fresh);
        do_script(&live.state, &live.memories, desk, live.out.at, rgb);
        run_cut(&cut, &script, at);
        compare_out("live calls", i, at, &script, &whole, &live);
        compare_out("cut in two", i, at, &script, &whole, &cut);
        compare_states("live calls and cut in two", i, at, &live, &cut);
        if (i % EACH == EACH - 1) {
            compare_memories("live calls", i, at, &whole, &live);
            compare_memories("cut in two", i, at, &whole, &cut);
        }
    }
    printf("ok live: %d scripts by live calls and cut in two answer and leave what tg18_run_script does\n", SCRIPTS);
}

// From where the unit stands: a unit is never fresh again but by a step of the scripts.
static void test_on_and_on(void) {
    static struct world live, whole;
    live = world_made(8), whole = world_made(8);
    for (unsigned i = 0; i < SCRIPTS; i++) {
        uint64_t state = 900000 + i;
        struct script script = script_at(desk);
        script_any(&script, &state, STEPS);
        run_whole(&whole, &script, from_here);
        do_script(&live.state, &live.memories, desk, live.out.at, rgb);
        compare_out("on and on", i, 0, &script, &whole, &live);
        compare_states("on and on", i, 0, &whole, &live);
        if (i % EACH == EACH - 1) {
            compare_memories("on and on", i, 0, &whole, &live);
        }
    }
    printf("ok live: %d scripts on one unit, by tg18_continue_script and by live calls alike\n", SCRIPTS);
}

// Each script at each of its places, from the same memories.
static void test_everywhere(void) {
    static struct world whole, cut, begin;
    unsigned cuts = 0;
    whole = world_made(9), cut = world_made(9), begin = world_made(9);
    for (unsigned i = 0; i < CUT_EVERYWHERE; i++) {
        uint64_t state = 5000 + i;
        struct script script = script_at(desk);
        script_any(&script, &state, STEPS);
        run_whole(&whole, &script, from_fresh);
        for (uint32_t at = 0; at <= script.presses + script.steps; at++, cuts++) {
            for (int j = 0; j < MEMORIES; j++) {
                memcpy(cut.unit.memory[j].at, begin.unit.memory[j].at, memory_bytes[j]);
            }
            tg18_fresh(&cut.state);
            run_cut(&cut, &script, at);
            compare_out("cut everywhere", i, at, &script, &whole, &cut);
            compare_memories("cut everywhere", i, at, &whole, &cut);
        }
        for (int j = 0; j < MEMORIES; j++) {
            memcpy(begin.unit.memory[j].at, whole.unit.memory[j].at, memory_bytes[j]);
        }
    }
    printf("ok live: %d scripts cut in two at each of their places (%u) are as whole ones\n", CUT_EVERYWHERE, cuts);
}

int main(void) {
    test_fresh();
    test_on_and_on();
    test_everywhere();
    return 0;
}
