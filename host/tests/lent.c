#define _GNU_SOURCE
#include "lent.h"
#include "scripts.h"
#include "tg18.h"
#include <stdio.h>
#include <stdlib.h>
#include <string.h>
#include <sys/mman.h>

enum { PAGE = 4096 };

const size_t memory_bytes[MEMORIES] = {TG18_RAM_BYTES, TG18_SRAM_BYTES, TG18_GPIO_BYTES, TG18_FRAMEBUFFER_BYTES};
const char *const memory_names[MEMORIES] = {"ram", "sram", "gpio", "framebuffer"};

static uint8_t *mapped_or_end(size_t bytes, int protection) {
    void *at = mmap(NULL, bytes, protection, MAP_PRIVATE | MAP_ANONYMOUS, -1, 0);
    if (at == MAP_FAILED) {
        fprintf(stderr, "no memory for the test\n");
        exit(3);
    }
    return at;
}

struct lent lend(size_t bytes, enum edge edge) {
    size_t inside = (bytes + PAGE - 1) / PAGE * PAGE;
    uint8_t *mapped = mapped_or_end(inside + 2 * PAGE, PROT_NONE);
    if (inside > 0 && mprotect(mapped + PAGE, inside, PROT_READ | PROT_WRITE) != 0) {
        exit(3);
    }
    uint8_t *at = mapped + PAGE + (edge == BEFORE_GUARD ? inside - bytes : 0);
    return (struct lent){at, bytes, mapped, inside + 2 * PAGE, NULL};
}

void give_back(struct lent *lent) {
    munmap(lent->mapped, lent->mapped_bytes);
    if (lent->copy != NULL) {
        munmap(lent->copy, lent->bytes);
    }
}

// Eight bytes at a time would need a length that is a multiple of eight.
void fill_any(struct lent *lent, uint64_t seed) {
    uint64_t state = seed, word = 0;
    for (size_t i = 0; i < lent->bytes; i++) {
        word = i % 8 == 0 ? any(&state) : word >> 8;
        lent->at[i] = (uint8_t)word;
    }
}

void keep(struct lent *lent) {
    if (lent->bytes > 0 && lent->copy == NULL) {
        lent->copy = mapped_or_end(lent->bytes, PROT_READ | PROT_WRITE);
    }
    if (lent->bytes > 0) {
        memcpy(lent->copy, lent->at, lent->bytes);
    }
}

int is_kept(const struct lent *lent) { return lent->bytes == 0 || memcmp(lent->copy, lent->at, lent->bytes) == 0; }

struct unit unit_made(void) {
    struct unit unit;
    for (int i = 0; i < MEMORIES; i++) {
        unit.memory[i] = lend(memory_bytes[i], AFTER_GUARD);
    }
    return unit;
}

uint32_t run_over(runner *run, struct unit *unit, const struct lent *script, size_t script_bytes, struct lent *out) {
    struct lent *m = unit->memory;
    return run(m[RAM].at, m[RAM].bytes, m[SRAM].at, m[SRAM].bytes, m[GPIO].at, m[GPIO].bytes, m[FRAMEBUFFER].at,
               m[FRAMEBUFFER].bytes, script->at, script_bytes, out->at, out->bytes);
}
