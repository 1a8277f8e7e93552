#define _GNU_SOURCE
#include "guard.h"
#include "tg18.h"
#include <stdarg.h>
#include <stdio.h>
#include <stdlib.h>
#include <sys/mman.h>
#include <sys/wait.h>
#include <unistd.h>

runner *const entries[ENTRIES] = {tg18_run_script, tg18_run_script_scrubbed};
const char *const entry_names[ENTRIES] = {"plain", "scrubbed"};
const char *const edge_names[2] = {"after a guard", "before a guard"};

enum { MOST_SECONDS = 600 };

// Shared with the children.
static struct {
    char at[160];
    uint32_t cases;
} *told;

void now_at(const char *format, ...) {
    va_list rest;
    va_start(rest, format);
    vsnprintf(told->at, sizeof told->at, format, rest);
    va_end(rest);
}

void count_case(void) { told->cases++; }

void fail(const char *format, ...) {
    char what[160];
    va_list rest;
    va_start(rest, format);
    vsnprintf(what, sizeof what, format, rest);
    va_end(rest);
    printf("FAILED guard: %s: %s\n", told->at, what);
    fflush(stdout);
    _exit(1);
}

static const struct {
    const char *name;
    void (*run)(void);
} tests[] = {
    {"edges of memories and registers", test_memories},
    {"pictures across ends", test_pictures},
    {"windows to the last pixel and past it", test_windows},
    {"flash at its first and last places", test_flash},
    {"colours, and the wipe", test_colours_and_wipe},
    {"as many presses and steps as there may be", test_most},
    {"scripts at random, plain and scrubbed alike", test_any},
    {"memories of other lengths", test_memory_lengths},
    {"scripts of other lengths", test_script_lengths},
    {"counts and kinds that no script has", test_counts_and_kinds},
    {"outputs of other lengths", test_out_lengths},
    {"which refusal comes first", test_order},
    {"nothing at no address", test_null},
    {"scrubbed, no memory for a stack", test_no_stack},
    {"scrubbed, signals blocked before and after", test_signals},
    {"live, memories of other lengths", test_live_lengths},
    {"live, other slices of other lengths", test_live_slices},
    {"live, sessions of other lengths", test_live_sessions},
    {"live, edges of memories and registers, sizes 0 to 5", test_live_addresses},
    {"live, blocks across ends", test_live_blocks},
    {"live, any doubles and keys", test_live_numbers},
    {"live, sound events", test_live_events},
    {"live, units of any bytes", test_live_units},
    {"live, memories and slices at odd addresses", test_live_odd},
};

static int in_a_child(size_t i) {
    told->cases = 0;
    now_at("start");
    fflush(stdout);
    pid_t child = fork();
    if (child == 0) {
        alarm(MOST_SECONDS); // what does not end is killed
        tests[i].run();
        _exit(0);
    }
    int status = 0;
    waitpid(child, &status, 0);
    if (!WIFEXITED(status)) {
        printf("FAILED guard: %s: %s: killed by signal %d\n", tests[i].name, told->at, WTERMSIG(status));
        return 0;
    }
    if (WEXITSTATUS(status) != 0) {
        return 0;
    }
    printf("ok guard: %s (runs: %u)\n", tests[i].name, told->cases);
    return 1;
}

int main(void) {
    int good = 1;
    told = mmap(NULL, sizeof *told, PROT_READ | PROT_WRITE, MAP_SHARED | MAP_ANONYMOUS, -1, 0);
    if (told == MAP_FAILED) {
        return 3;
    }
    for (size_t i = 0; i < sizeof tests / sizeof *tests; i++) {
        good &= in_a_child(i);
    }
    return !good;
}
