// What saving and resuming leave of a key outside of what they are lent. A key of 32 bytes is in the unit, in each of
// the seven ways; the session is saved, or saved and resumed in a unit of any bytes; then everything that the process
// can read is searched for rows of it, but for the session. After a wipe of a resumed unit, unit and memories are those
// of a fresh one. The plain calls are `seen`: nothing is promised there.
#include "key_case.h"
#include "live_steps.h"
#include "tg18.h"
#include <stdio.h>
#include <string.h>

enum what { SAVED, RESUMED, RESUMED_AND_WIPED };
static const char *const what_names[] = {"saved", "resumed", "resumed and wiped"};

struct test {
    const struct way *way;
    enum what what;
    int is_scrubbed;
};

// The session is in `out`, which is set aside in every search.
static uint64_t written;
static struct tg18_memories memories;
static struct tg18_unit *here;

// ---- how the key comes in, and how it goes: both scrubbed

static void bring_in(void *argument) {
    static uint8_t rgb[TG18_SCREEN_BYTES];
    (void)argument;
    tg18_fresh(here);
    do_script(here, &memories, script_room.at, out.at, rgb);
}

static void wipe(void *argument) {
    uint32_t *refusal = argument;
    *refusal |= tg18_wipe(here, &memories);
}

// ---- the calls

static uint32_t save(int is_scrubbed) {
    const uintptr_t arguments[ARGUMENTS] = {(uintptr_t)here, (uintptr_t)&memories, (uintptr_t)out.at, out.bytes,
                                            (uintptr_t)&written};
    return call_seen(is_scrubbed ? (function *)tg18_save_scrubbed : (function *)tg18_save, arguments);
}

// Over a unit and memories of other bytes than the saved ones.
static uint32_t resume(int is_scrubbed) {
    const uintptr_t arguments[ARGUMENTS] = {(uintptr_t)here, (uintptr_t)&memories, (uintptr_t)out.at,
                                            (uintptr_t)written};
    clear_rooms();
    memset(state.at, 0xA5, state.bytes);
    return call_seen(is_scrubbed ? (function *)tg18_resume_scrubbed : (function *)tg18_resume, arguments);
}

// ---- a case

static uint32_t run_test(const struct test *test) {
    struct script script = script_at(script_room.at);
    test->way->lay(&script);
    uint32_t refusal = tg18_scrubbed(bring_in, NULL);
    refusal |= save(test->is_scrubbed);
    if (test->what != SAVED) {
        refusal |= resume(test->is_scrubbed);
    }
    if (test->what == RESUMED_AND_WIPED) {
        refusal |= tg18_scrubbed(wipe, &refusal);
    }
    return refusal;
}

// The search finds it in the session, whole; but where it is words of registers each has its address between.
static int is_in_session(const struct way *way) {
    static struct found found;
    const struct part part = {"session", out.at, (size_t)written};
    search_part(&found, &part);
    return way == &ways[WAYS - 1] ? found.longest >= 4 : found.longest == KEY_BYTES;
}

static int is_fresh(void) {
    static struct tg18_unit fresh;
    tg18_fresh(&fresh);
    int good = memcmp(here, &fresh, sizeof fresh) == 0;
    for (int i = 0; i < MEMORIES; i++) {
        const struct lent *lent = &unit.memory[i];
        good &= lent->at[0] == 0 && memcmp(lent->at, lent->at + 1, lent->bytes - 1) == 0;
    }
    return good;
}

static int is_right(const struct found *found, const struct test *test) {
    if (test->what == RESUMED_AND_WIPED) {
        return found->rows == 0 && is_fresh();
    }
    return is_there_alone(found, test->way) && (!test->way->is_in_unit || found->rows > test->way->theres);
}

static int try_test(const void *argument) {
    static struct seen seen;
    const struct test *test = argument;
    uint32_t refusal = run_test(test);
    search(&seen);
    // Registers are those after the last call of the two; a wipe behind it is in tg18_scrubbed, and they stay.
    int good = refusal == TG18_DONE && is_in_session(test->way);
    good &= !test->is_scrubbed || (is_right(&seen.all, test) && is_scrubbed_clean(&seen));
    printf("%s session key: %s, %s, %s:", !good ? "FAILED" : test->is_scrubbed ? "ok" : "seen", test->way->name,
           what_names[test->what], test->is_scrubbed ? "scrubbed" : "plain");
    print_seen(&seen);
    return good;
}

int main(void) {
    int good = 1;
    rooms_made();
    give_back(&out);
    out = lend(TG18_SAVE_MOST, AFTER_GUARD);
    memories = memories_of(&unit);
    here = (struct tg18_unit *)state.at;
    for (size_t i = 0; i < WAYS; i++) {
        for (int what = SAVED; what <= RESUMED_AND_WIPED; what++) {
            struct test test = {&ways[i], (enum what)what, 1};
            good &= in_a_child(try_test, &test, ways[i].name);
        }
        struct test plain = {&ways[i], RESUMED_AND_WIPED, 0};
        good &= in_a_child(try_test, &plain, ways[i].name);
    }
    return !good;
}
