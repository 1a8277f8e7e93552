// What live calls leave of a key outside unit and memories. A key of 32 bytes goes into the unit by live calls inside
// tg18_scrubbed: a script's steps one by one, tg18_continue_script, or tg18_poke and tg18_read_block. Then everything
// that the process can read is searched for rows of it. In between every other live call is made, where the key lies.
// The same calls without tg18_scrubbed are `seen`: nothing is promised there.
#include "key_case.h"
#include "live_steps.h"
#include "tg18.h"
#include <stdio.h>

enum how { BY_STEPS, CONTINUED, POKED };
static const char *const how_names[] = {"live calls", "tg18_continue_script", "tg18_poke"};
static const char *const afterwards_names[] = {"kept", "wiped", "cleared by the host"};

enum { POKED_PLACE = 0x300010 };
static const struct way poke_way = {"bytes", NULL, {{RAM, POKED_PLACE}}, 1, 0};

struct test {
    const struct way *way;
    enum how how;
    enum afterwards afterwards;
    int is_scrubbed;
};

struct job {
    const struct test *test;
    size_t script_bytes;
    uint32_t refusal;
    uintptr_t frame; // where it ran
};

// ---- what runs in tg18_scrubbed, or plain

static uint32_t poked(struct tg18_unit *unit_state, const struct tg18_memories *memories) {
    uint32_t whole, refusal = tg18_poke(unit_state, memories, FLASH_BASE + POKED_PLACE, script_room.at, KEY_BYTES);
    return refusal | tg18_read_block(unit_state, memories, FLASH_BASE + POKED_PLACE, out.at, KEY_BYTES, &whole);
}

static void work(void *argument) {
    struct job *job = argument;
    struct tg18_unit *here = (struct tg18_unit *)state.at;
    const struct tg18_memories memories = memories_of(&unit);
    static uint8_t rgb[TG18_SCREEN_BYTES];
    job->frame = (uintptr_t)&memories;
    tg18_fresh(here);
    if (job->test->how == BY_STEPS) {
        do_script(here, &memories, script_room.at, out.at, rgb);
    } else if (job->test->how == CONTINUED) {
        job->refusal = tg18_continue_script(here, &memories, script_room.at, job->script_bytes, out.at, out.bytes);
    } else {
        job->refusal = poked(here, &memories);
    }
    job->refusal |= call_the_rest(here, &memories, FLASH_BASE + (uint32_t)job->test->way->there[0].place, rgb);
    if (job->test->afterwards == WIPED) {
        job->refusal |= tg18_wipe(here, &memories);
    }
}

// ---- a case

static struct job job_made(const struct test *test) {
    struct script script = script_at(script_room.at);
    for (uint32_t i = 0; test->how == POKED && i < KEY_BYTES; i++) {
        script_room.at[i] = key_byte(i);
    }
    if (test->how != POKED) {
        test->way->lay(&script);
    }
    return (struct job){test, script_length(&script), TG18_DONE, 0};
}

// The refusal, if any; work that was not on the stack that was cleared counts as work without one.
static uint32_t run_test(const struct test *test) {
    struct job job = job_made(test);
    const uintptr_t plain[ARGUMENTS] = {(uintptr_t)&job};
    const uintptr_t scrubbed[ARGUMENTS] = {(uintptr_t)work, (uintptr_t)&job};
    if (test->is_scrubbed) {
        job.refusal |= call_seen((function *)tg18_scrubbed, scrubbed);
    } else {
        call_seen((function *)work, plain);
    }
    if (test->afterwards == CLEARED_BY_HOST) {
        clear_rooms();
    }
    return job.refusal | (test->is_scrubbed && !was_on_last_stack(job.frame) ? TG18_NO_STACK : TG18_DONE);
}

// Kept, the key is where it belongs: in the memories and, where the way says so, in the unit too.
static int is_right(const struct found *found, const struct test *test) {
    if (test->afterwards != KEPT) {
        return found->rows == 0;
    }
    return is_there_alone(found, test->way) && (!test->way->is_in_unit || found->rows > test->way->theres);
}

static int try_test(const void *argument) {
    static struct seen seen;
    const struct test *test = argument;
    uint32_t refusal = run_test(test);
    search(&seen);
    int good = refusal == TG18_DONE;
    good &= !test->is_scrubbed || (is_right(&seen.all, test) && is_scrubbed_clean(&seen));
    printf("%s live key: %s by %s, %s, %s:", !good ? "FAILED" : test->is_scrubbed ? "ok" : "seen", test->way->name,
           how_names[test->how], test->is_scrubbed ? "scrubbed" : "plain", afterwards_names[test->afterwards]);
    print_seen(&seen);
    return good;
}

static int try_all(const struct way *way, enum how how) {
    int good = 1;
    for (int afterwards = KEPT; afterwards <= CLEARED_BY_HOST; afterwards++) {
        struct test test = {way, how, (enum afterwards)afterwards, 1};
        good &= in_a_child(try_test, &test, way->name);
    }
    for (int afterwards = WIPED; afterwards <= CLEARED_BY_HOST; afterwards++) {
        struct test test = {way, how, (enum afterwards)afterwards, 0};
        good &= in_a_child(try_test, &test, way->name);
    }
    return good;
}

int main(void) {
    int good = 1;
    rooms_made();
    for (size_t i = 0; i < WAYS; i++) {
        good &= try_all(&ways[i], BY_STEPS);
        good &= try_all(&ways[i], CONTINUED);
    }
    good &= try_all(&poke_way, POKED);
    return !good;
}
