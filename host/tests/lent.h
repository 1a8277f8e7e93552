// Slices with a page before and a page behind that nobody may touch, and a unit's four memories made of them.
#ifndef LENT_H
#define LENT_H

#include <stddef.h>
#include <stdint.h>

// A slice whose length is no multiple of a page can touch only one of its two guards.
enum edge { AFTER_GUARD, BEFORE_GUARD };

struct lent {
    uint8_t *at;
    size_t bytes;
    uint8_t *mapped;
    size_t mapped_bytes;
    uint8_t *copy; // as it was when `keep` was called
};

enum memory { RAM, SRAM, GPIO, FRAMEBUFFER, MEMORIES };
extern const size_t memory_bytes[MEMORIES];
extern const char *const memory_names[MEMORIES];

struct unit {
    struct lent memory[MEMORIES];
};

typedef uint32_t runner(uint8_t *, size_t, uint8_t *, size_t, uint8_t *, size_t, uint8_t *, size_t, const uint8_t *,
                        size_t, uint8_t *, size_t);

// With length 0 the pointer is one into a guard.
struct lent lend(size_t bytes, enum edge edge);
void give_back(struct lent *lent);
void fill_any(struct lent *lent, uint64_t seed);
void keep(struct lent *lent);
int is_kept(const struct lent *lent);

struct unit unit_made(void);
uint32_t run_over(runner *run, struct unit *unit, const struct lent *script, size_t script_bytes, struct lent *out);

#endif
