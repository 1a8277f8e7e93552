// tg18_scrubbed and tg18_run_script_scrubbed around a stand-in for the port (stand_in_x86_64.S) that leaves the same
// byte wherever it can.
#define _GNU_SOURCE
#include "called.h"
#include "scrubbed.h"
#include "tg18.h"
#include <stdio.h>
#include <sys/syscall.h>
#include <unistd.h>

enum { LEFT = 0xEE };

void leave_all(void *argument);
uint64_t stand_in_called(void);
uint32_t masks_used(void);

// By the stand-in: its twelve arguments and its rsp.
uint64_t noted[ARGUMENTS + 1];
static uint64_t blocked_meanwhile;
static uint8_t *stack;
static size_t stack_not_clear, stacks_seen;
static uint8_t registers[REGISTER_BYTES];

static uint64_t blocked(void) {
    uint64_t mask = 0;
    syscall(SYS_rt_sigprocmask, 0, NULL, &mask, sizeof mask);
    return mask;
}

// All signals that the system lets wait: an emulator knows fewer than x86-64 Linux. SIG_SETMASK is 2.
static uint64_t most_blocked(void) {
    uint64_t before = blocked(), all = ~(uint64_t)0;
    syscall(SYS_rt_sigprocmask, 2, &all, NULL, sizeof all);
    uint64_t most = blocked();
    syscall(SYS_rt_sigprocmask, 2, &before, NULL, sizeof before);
    return most;
}

// Signals 1 to 31 wait everywhere, but for KILL and STOP.
static int all_wait(uint64_t mask) {
    const uint64_t classic = 0x7FFBFEFF;
    return (mask & classic) == classic && mask == most_blocked();
}

uint64_t stand_in_called(void) {
    blocked_meanwhile = blocked();
    return tg18_vectors_here();
}

// Stands before the C library's function.
int munmap(void *at, size_t bytes) {
    stack = (uint8_t *)at + TG18_GUARD_BYTES;
    for (size_t i = 0; i < TG18_STACK_BYTES; i++) {
        stack_not_clear += stack[i] != 0;
    }
    stacks_seen++;
    return (int)syscall(SYS_munmap, at, bytes);
}

static int good = 1;

static void check(const char *whose, const char *what, int is) {
    printf("%s scrub: %s, %s\n", is ? "ok" : "FAILED", whose, what);
    good &= is;
}

static int arguments_came(const uintptr_t *arguments, int count) {
    for (int i = 0; i < count; i++) {
        if (noted[i] != arguments[i]) {
            return 0;
        }
    }
    return 1;
}

// Eight bytes of what was left, in any register from this one on.
static int general_left(int first) {
    int left = 0;
    for (int i = first; i < 16; i++) {
        left |= registers[8 * i] == LEFT && registers[8 * i + 7] == LEFT;
    }
    return left;
}

static int vectors_left(void) {
    int left = 0;
    for (int i = GENERAL_BYTES; i < REGISTER_BYTES; i++) {
        left |= registers[i];
    }
    return left;
}

// The assembly alone: behind it the C code may overwrite registers by chance.
static void try_call_on(const uintptr_t *arguments) {
    static uint8_t own_stack[65536] __attribute__((aligned(16)));
    const uintptr_t four[ARGUMENTS] = {(uintptr_t)leave_all, arguments[0], (uintptr_t)own_stack + sizeof own_stack,
                                       tg18_vectors_here()};
    called((function *)tg18_call_on, four, registers, tg18_vectors_here());
    check("directly after the call", "the argument arrives", arguments_came(arguments, 1));
    check("directly after the call", "registers are clear", !general_left(0) && !vectors_left());
}

// Answers what the call answered. The frame of what packs and unpacks arguments may be above the stand-in's.
static uint32_t try_scrubbed(const char *whose, function *run, const uintptr_t *arguments, uint64_t above) {
    uint64_t before = blocked();
    stacks_seen = stack_not_clear = 0;
    uint32_t answer = called(run, arguments, registers, tg18_vectors_here());
    uint32_t masks = tg18_vectors_here() == TG18_ZMM ? masks_used() : 0;
    uint64_t rsp = noted[ARGUMENTS], top = (uint64_t)(stack + TG18_STACK_BYTES);
    int from_top = rsp < top && top - rsp <= above && (rsp + 8) % 16 == 0;
    check(whose, "its stack is the new one from the top, and aligned", from_top);
    check(whose, "all signals wait that can", all_wait(blocked_meanwhile) && blocked() == before);
    check(whose, "the stack is clear", stacks_seen == 1 && stack_not_clear == 0);
    // rax has the answer
    check(whose, "general registers are clear", !general_left(1));
    check(whose, "vector registers are clear", !vectors_left());
    check(whose, "mask registers are clear", masks == 0);
    return answer;
}

int main(void) {
    uintptr_t arguments[ARGUMENTS];
    for (int i = 0; i < ARGUMENTS; i++) {
        arguments[i] = 0x1122334455660000 + (uintptr_t)i;
    }
    uint32_t answer = try_scrubbed("a script", (function *)tg18_run_script_scrubbed, arguments, 256);
    check("a script", "twelve arguments arrive", arguments_came(arguments, ARGUMENTS));
    check("a script", "the answer comes back, 32 bits of it", answer == 0xEEEEEEEE && registers[4] == 0);
    const uintptr_t two[ARGUMENTS] = {(uintptr_t)leave_all, arguments[5]};
    answer = try_scrubbed("any work", (function *)tg18_scrubbed, two, 8);
    check("any work", "its argument arrives", arguments_came(&arguments[5], 1));
    check("any work", "the answer is 0", answer == TG18_DONE && registers[4] == 0);
    try_call_on(arguments);
    return !good;
}
