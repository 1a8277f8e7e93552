// One case of the key tests: what is lent, the call, and the search afterwards. Each case is a process of its own.
#ifndef KEY_CASE_H
#define KEY_CASE_H

#include "called.h"
#include "key_search.h"
#include "key_ways.h"
#include "lent.h"

// The script and the answers are set aside in every search; the unit's state is for the live calls.
extern struct unit unit;
extern struct lent script_room, out, state;

enum afterwards { KEPT, WIPED, CLEARED_BY_HOST };

void rooms_made(void);
// Calls, and looks at the registers directly afterwards.
uint32_t call_seen(function *run, const uintptr_t *arguments);
// Clears memories and state, as a host does that has no wipe.
void clear_rooms(void);

struct seen {
    struct found all, in_registers;
};

void search(struct seen *seen);
// The key is in the memories where the way says, whole, perhaps in the state, and nowhere else.
int is_there_alone(const struct found *found, const struct way *way);
// Nothing in registers, and every stack that was given back was zero; there was one at least.
int is_scrubbed_clean(const struct seen *seen);
// Whether this was a place of the stack that was given back last.
int was_on_last_stack(uintptr_t at);
void print_seen(const struct seen *seen);

// The answer is the child's: whether it was good.
int in_a_child(int (*try)(const void *), const void *test, const char *name);

#endif
