#define _GNU_SOURCE
#include "key_case.h"
#include "scrubbed.h"
#include "tg18.h"
#include <stdio.h>
#include <sys/syscall.h>
#include <sys/wait.h>
#include <unistd.h>

struct unit unit;
struct lent script_room, out, state;

static uint8_t after[REGISTER_BYTES];
static size_t stacks_seen, stack_not_clear;
static uintptr_t last_stack;

void rooms_made(void) {
    unit = unit_made();
    script_room = lend(16384, AFTER_GUARD);
    out = lend(16384, AFTER_GUARD);
    state = lend(sizeof(struct tg18_unit), BEFORE_GUARD);
}

uint32_t call_seen(function *run, const uintptr_t *arguments) {
    return called(run, arguments, after, tg18_vectors_here());
}

void clear_rooms(void) {
    for (int i = 0; i < MEMORIES; i++) {
        tg18_clear(unit.memory[i].at, unit.memory[i].bytes);
    }
    tg18_clear(state.at, state.bytes);
}

// Stands before the C library's function. What tg18_scrubbed has unmapped cannot be searched any more, so its stack is
// looked at here.
int munmap(void *at, size_t bytes) {
    if (bytes == TG18_GUARD_BYTES + TG18_STACK_BYTES) {
        const volatile uint8_t *stack = (const volatile uint8_t *)at + TG18_GUARD_BYTES;
        for (size_t i = 0; i < TG18_STACK_BYTES; i++) {
            stack_not_clear += stack[i] != 0;
        }
        stacks_seen++;
        last_stack = (uintptr_t)stack;
    }
    return (int)syscall(SYS_munmap, at, bytes);
}

// ---- the search

void search(struct seen *seen) {
    const struct part aside[] = {{"script", script_room.at, script_room.bytes},
                                 {"out", out.at, out.bytes},
                                 {"registers", after, sizeof after}};
    search_part(&seen->in_registers, &aside[2]);
    search_all(&seen->all, aside, 3);
}

static int is_in(const struct lent *lent, const uint8_t *at) {
    return at >= lent->at && (size_t)(at - lent->at) < lent->bytes;
}

int is_there_alone(const struct found *found, const struct way *way) {
    size_t met = 0, in_state = 0;
    for (size_t j = 0; j < found->rows && j < MOST_FOUND; j++) {
        in_state += is_in(&state, found->row[j].at);
        for (size_t i = 0; i < way->theres; i++) {
            const uint8_t *there = unit.memory[way->there[i].memory].at + way->there[i].place;
            met += found->row[j].at == there && found->row[j].bytes == KEY_BYTES;
        }
    }
    return met == way->theres && found->rows == met + in_state;
}

static size_t vectors_used(void) {
    size_t used = 0;
    for (size_t i = GENERAL_BYTES; i < REGISTER_BYTES; i++) {
        used += after[i] != 0;
    }
    return used;
}

int is_scrubbed_clean(const struct seen *seen) {
    return stacks_seen > 0 && stack_not_clear == 0 && seen->in_registers.rows == 0 && vectors_used() == 0;
}

int was_on_last_stack(uintptr_t at) { return stacks_seen > 0 && at - last_stack < TG18_STACK_BYTES; }

static const char *where_is(const struct found *found, size_t i) {
    for (int j = 0; j < MEMORIES; j++) {
        if (is_in(&unit.memory[j], found->row[i].at)) {
            return memory_names[j];
        }
    }
    return is_in(&state, found->row[i].at) ? "the unit" : found->row[i].where;
}

void print_seen(const struct seen *seen) {
    const struct found *found = &seen->all;
    printf(" %zu row%s", found->rows, found->rows == 1 ? "" : "s");
    for (size_t i = 0; i < found->rows && i < MOST_FOUND; i++) {
        printf("%s %zu bytes in %s", i == 0 ? ":" : ",", found->row[i].bytes, where_is(found, i));
    }
    printf("; longest %zu; in registers longest %zu, %zu bytes of vectors not 0", found->longest,
           seen->in_registers.longest, vectors_used());
    if (stacks_seen > 0) {
        printf("; %zu bytes of its stack not 0", stack_not_clear);
    }
    printf("\n");
}

// ---- a case

int in_a_child(int (*try)(const void *), const void *test, const char *name) {
    fflush(stdout);
    pid_t child = fork();
    if (child == 0) {
        int good = try(test);
        fflush(stdout);
        _exit(!good);
    }
    int status = 0;
    waitpid(child, &status, 0);
    if (!WIFEXITED(status)) {
        printf("FAILED key: by %s: killed by signal %d\n", name, WTERMSIG(status));
    }
    return WIFEXITED(status) && WEXITSTATUS(status) == 0;
}
