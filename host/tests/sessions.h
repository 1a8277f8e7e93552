// Units to save, each in the middle of something, and the sections of a saved session.
#ifndef SESSIONS_H
#define SESSIONS_H

#include "lent.h"
#include "scripts.h"
#include "tg18.h"

struct start {
    const char *name;
    void (*lay)(struct script *); // what leads there from the fresh state
    int cell;                     // a cell of the unit that then holds this number
    uint64_t value;
};

enum { STARTS = 16 };
extern const struct start starts[STARTS];

// A unit, its memories, and room for a session and some bytes more.
struct world {
    struct lent state, session;
    struct unit unit;
    struct tg18_memories memories;
    uint64_t bytes; // of the session
};

enum { SESSION_MORE = 64 };

struct world world_made(void);
struct tg18_unit *unit_of(struct world *world);
void fill_memories(struct world *world, uint64_t seed);
// Fresh, and then as the start says; memories stay as far as it leaves them.
void begin_at(struct world *world, const struct start *start);
// Into its own room; the refusal.
uint32_t saved(struct world *world);
// A session into this world.
uint32_t resumed(struct world *world, const uint8_t *session, uint64_t bytes);
int same_memories(const struct world *a, const struct world *b);

// Where each section of a good session begins, and behind the last where all ends.
enum { SECTIONS = 14, AT_RAM = 10 };
void sections_of(const uint8_t *session, uint64_t bytes, uint64_t at[SECTIONS + 1]);

#endif
