// What a script leaves of a key outside the memories that it was lent. A key of 32 bytes goes into the unit by a
// script, in one of seven ways; then everything that the process can read is searched for rows of it, the script and
// the answers set aside.
#include "key_case.h"
#include "tg18.h"
#include <stdio.h>
#include <unistd.h>

static const char *const afterwards_names[] = {"kept", "wiped by the script", "cleared by the host"};

struct test {
    const struct way *way;
    runner *run;
    enum afterwards afterwards;
};

static int is_scrubbed(const struct test *test) { return test->run == tg18_run_script_scrubbed; }

static void run_test(const struct test *test) {
    struct script script = script_at(script_room.at);
    test->way->lay(&script);
    if (test->afterwards == WIPED) {
        step(&script, TG18_WIPE, 0, 0, 0);
    }
    struct lent *m = unit.memory;
    const uintptr_t arguments[ARGUMENTS] = {
        (uintptr_t)m[RAM].at,      m[RAM].bytes,           (uintptr_t)m[SRAM].at,        m[SRAM].bytes,
        (uintptr_t)m[GPIO].at,     m[GPIO].bytes,          (uintptr_t)m[FRAMEBUFFER].at, m[FRAMEBUFFER].bytes,
        (uintptr_t)script_room.at, script_length(&script), (uintptr_t)out.at,            out.bytes};
    uint32_t refusal = call_seen((function *)test->run, arguments);
    if (test->afterwards == CLEARED_BY_HOST) {
        clear_rooms();
    }
    if (refusal != TG18_DONE) {
        printf("FAILED key: refused: %u\n", refusal);
        _exit(1);
    }
}

static int try_test(const void *argument) {
    static struct seen seen;
    const struct test *test = argument;
    run_test(test);
    search(&seen);
    int there = test->afterwards == KEPT ? is_there_alone(&seen.all, test->way) : seen.all.rows == 0;
    int good = !is_scrubbed(test) || (there && is_scrubbed_clean(&seen));
    printf("%s key: by %s, %s, %s:", !is_scrubbed(test) ? "seen" : good ? "ok" : "FAILED", test->way->name,
           is_scrubbed(test) ? "scrubbed" : "plain", afterwards_names[test->afterwards]);
    print_seen(&seen);
    return good;
}

// A search with nothing run: the searcher and the making of the script leave no row themselves.
static int try_nothing(const void *argument) {
    static struct seen seen;
    const struct test *test = argument;
    struct script script = script_at(script_room.at);
    test->way->lay(&script);
    search(&seen);
    const struct found *found = &seen.all;
    printf("%s key: by %s, script made and not run: %zu rows; longest %zu; %zu bytes searched, skipped:%s\n",
           found->rows == 0 ? "ok" : "FAILED", test->way->name, found->rows, found->longest, found->searched,
           found->skipped);
    return found->rows == 0;
}

int main(void) {
    int good = 1;
    rooms_made();
    for (size_t i = 0; i < WAYS; i++) {
        struct test test = {&ways[i], tg18_run_script_scrubbed, KEPT};
        good &= in_a_child(try_nothing, &test, ways[i].name);
        for (int afterwards = KEPT; afterwards <= CLEARED_BY_HOST; afterwards++) {
            test = (struct test){&ways[i], tg18_run_script_scrubbed, (enum afterwards)afterwards};
            good &= in_a_child(try_test, &test, ways[i].name);
        }
        for (int afterwards = WIPED; afterwards <= CLEARED_BY_HOST; afterwards++) {
            test = (struct test){&ways[i], tg18_run_script, (enum afterwards)afterwards};
            good &= in_a_child(try_test, &test, ways[i].name);
        }
    }
    return !good;
}
