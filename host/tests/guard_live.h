// A unit, its memories and all else that live calls are lent, each between two pages that nobody may touch; and the
// calls themselves, in one list.
#ifndef GUARD_LIVE_H
#define GUARD_LIVE_H

#include "guard.h"
#include "tg18.h"

struct stage {
    enum edge edge;
    struct lent state, table; // a struct tg18_unit, and a struct tg18_memories
    struct unit unit;
    struct lent byte, word, wide, wide2; // what answers through pointers go to
    struct lent bytes, records, script;  // whatever else is lent; bytes are also screens, answers and sessions
    // the other arguments
    uint32_t address, size, value, key;
    double number;
};

struct live_call {
    const char *name;
    uint32_t (*call)(struct stage *); // answers 0 where the call has no refusal
    int is_lent_memories;
    int keeps_unit;       // it takes the unit as const
    size_t answer_bytes;  // 1, 4, 8: of the one answer through a pointer that is 0 when it is refused
};

enum { LIVE_CALLS = 27 };
extern const struct live_call live_calls[LIVE_CALLS];

struct stage stage_made(enum edge edge);
void stage_given_back(struct stage *stage);
// Another slice of so many bytes in this one's place, at the stage's edge, filled with any bytes.
void relend(struct stage *stage, struct lent *lent, size_t bytes);
struct tg18_unit *state_of(struct stage *stage);

// Calls, and sees to what holds of every call: it says a refusal that there is; refused, it has changed nothing of the
// unit and has answered 0; and the unit is kept where it is const. Memories are for the caller to look at.
uint32_t call_checked(struct stage *stage, const struct live_call *call);

#endif
