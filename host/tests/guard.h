// The tests of the slices' edges: every slice lies between two pages that nobody may touch.
#ifndef GUARD_H
#define GUARD_H

#include "lent.h"
#include <stddef.h>
#include <stdint.h>

enum { ENTRIES = 2 };
extern runner *const entries[ENTRIES];
extern const char *const entry_names[ENTRIES];
extern const char *const edge_names[2];

// Which case is running; the parent says it if the child is killed.
void now_at(const char *format, ...) __attribute__((format(printf, 1, 2)));
// Another answer than the right one: says where, and ends the child.
void fail(const char *format, ...) __attribute__((format(printf, 1, 2)));
void count_case(void);

// guard_edges.c
void test_memories(void);
void test_pictures(void);
void test_windows(void);
void test_flash(void);
void test_colours_and_wipe(void);
void test_most(void);
void test_any(void);

// guard_wrong.c
void test_memory_lengths(void);
void test_script_lengths(void);
void test_counts_and_kinds(void);
void test_out_lengths(void);
void test_order(void);
void test_null(void);

// guard_live_tests.c
void test_live_lengths(void);
void test_live_slices(void);
void test_live_sessions(void);
void test_live_addresses(void);
void test_live_blocks(void);
void test_live_numbers(void);
void test_live_events(void);
void test_live_units(void);
void test_live_odd(void);

// guard_scrubbed.c
void test_no_stack(void);
void test_signals(void);

#endif
