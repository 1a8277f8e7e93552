// What the scrubbed calls alone have to see to.
#define _GNU_SOURCE
#include "guard.h"
#include "live_steps.h"
#include "scripts.h"
#include "tg18.h"
#include <string.h>
#include <sys/mman.h>
#include <sys/syscall.h>
#include <unistd.h>

static int no_memory;
static uint64_t blocked_at_unmap;

// These two stand before the C library's functions.
void *mmap(void *at, size_t bytes, int protection, int flags, int file, long from) {
    return no_memory ? MAP_FAILED : (void *)syscall(SYS_mmap, at, bytes, protection, flags, file, from);
}

static uint64_t blocked(void) {
    uint64_t mask = 0;
    syscall(SYS_rt_sigprocmask, 0, NULL, &mask, sizeof mask);
    return mask;
}

int munmap(void *at, size_t bytes) {
    blocked_at_unmap = blocked();
    return (int)syscall(SYS_munmap, at, bytes);
}

static uint32_t wipe(struct unit *unit, struct lent *lent, struct lent *out) {
    struct script script = script_at(lent->at);
    step(&script, TG18_WIPE, 0, 0, 0);
    uint32_t refusal = run_over(tg18_run_script_scrubbed, unit, lent, script_length(&script), out);
    count_case();
    return refusal;
}

// The one for sessions of any bytes, as there is no stack for either.
static uint32_t session(struct unit *unit, struct lent *state, struct lent *out) {
    const struct tg18_memories memories = memories_of(unit);
    struct tg18_unit *here = (struct tg18_unit *)state->at;
    uint64_t written = 1;
    uint32_t saved = tg18_save_scrubbed(here, &memories, out->at, out->bytes, &written);
    uint32_t resumed = tg18_resume_scrubbed(here, &memories, out->at, out->bytes);
    count_case();
    return written == 0 && saved == resumed ? saved : TG18_DONE;
}

void test_no_stack(void) {
    struct unit unit = unit_made();
    struct lent lent = lend(64, AFTER_GUARD), out = lend(64, AFTER_GUARD);
    struct lent state = lend(sizeof(struct tg18_unit), AFTER_GUARD);
    for (int i = 0; i < MEMORIES; i++) {
        fill_any(&unit.memory[i], 1);
        keep(&unit.memory[i]);
    }
    fill_any(&out, 2);
    keep(&out);
    fill_any(&state, 3);
    keep(&state);
    no_memory = 1;
    now_at("no memory for a stack");
    uint32_t refusal = wipe(&unit, &lent, &out), of_session = session(&unit, &state, &out);
    no_memory = 0;
    int same = is_kept(&out) && is_kept(&state);
    for (int i = 0; i < MEMORIES; i++) {
        same &= is_kept(&unit.memory[i]);
    }
    if (refusal != TG18_NO_STACK || of_session != TG18_NO_STACK || !same) {
        fail("answer %u, of sessions %u, or something has changed", refusal, of_session);
    }
}

// The signals that wait are the same before and after, and no others.
void test_signals(void) {
    static const uint64_t masks[] = {0, 0x200, 0x5555555555555555, ~(uint64_t)0};
    struct unit unit = unit_made();
    struct lent lent = lend(64, AFTER_GUARD), out = lend(64, AFTER_GUARD);
    for (size_t i = 0; i < sizeof masks / sizeof *masks; i++) {
        syscall(SYS_rt_sigprocmask, 2, &masks[i], NULL, sizeof masks[i]);
        uint64_t before = blocked();
        now_at("signals blocked: %lx", (unsigned long)before);
        if (wipe(&unit, &lent, &out) != TG18_DONE || blocked() != before || blocked_at_unmap != before) {
            fail("afterwards %lx", (unsigned long)blocked());
        }
    }
}
