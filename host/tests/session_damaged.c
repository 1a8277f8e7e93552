// Damaged sessions: bytes changed, missing and added, sections moved, left out and doubled. Each is refused with 14,
// and then unit and memories are byte for byte as they were; or it is taken, and saved again it is the same bytes.
#include "sessions.h"
#include <stdio.h>
#include <stdlib.h>
#include <string.h>

static struct world from, to;
// The damaged session; what `to` holds before each resume, but for the unit, which `to` keeps itself.
static struct lent damaged, before[MEMORIES];
static uint64_t at[SECTIONS + 1];
static unsigned refusals, taken, not_looked_at;

// Refusals after which the memories are looked at together; the unit is looked at after each. And of the memories each
// so many bytes one is another than in the session, so that few are to be put back once they have been resumed.
enum { TOGETHER = 16, APART = 2039 };

static __attribute__((noreturn)) void wrong(const char *what, uint64_t place, const char *why) {
    printf("FAILED session: %s, %lu: %s\n", what, (unsigned long)place, why);
    exit(1);
}

static void look_at_memories(const char *what, uint64_t place) {
    for (int i = 0; i < MEMORIES; i++) {
        if (memcmp(to.unit.memory[i].at, before[i].at, memory_bytes[i]) != 0) {
            wrong(what, place, "refused, and a memory has changed");
        }
    }
    not_looked_at = 0;
}

static void put_back(void) {
    for (int i = 0; i < MEMORIES; i++) {
        for (size_t j = 0; j < memory_bytes[i]; j += APART) {
            to.unit.memory[i].at[j] = before[i].at[j];
        }
    }
}

static void refused(const char *what, uint64_t place) {
    if (!is_kept(&to.state)) {
        wrong(what, place, "refused, and the unit has changed");
    }
    refusals++;
    if (++not_looked_at == TOGETHER) {
        look_at_memories(what, place);
    }
}

static void was_taken(const char *what, uint64_t place, uint64_t bytes) {
    if (saved(&to) != TG18_DONE || to.bytes != bytes || memcmp(to.session.at, damaged.at, (size_t)bytes) != 0) {
        wrong(what, place, "taken, and saved again it is another");
    }
    taken++;
    put_back();
    keep(&to.state);
}

static void try_damaged(const char *what, uint64_t place, uint64_t bytes) {
    uint32_t refusal = resumed(&to, damaged.at, bytes);
    if (refusal == TG18_BAD_SAVE) {
        refused(what, place);
    } else if (refusal == TG18_DONE) {
        was_taken(what, place, bytes);
    } else {
        wrong(what, place, "another refusal");
    }
}

static void expect_refused(const char *what, uint64_t place, uint64_t bytes) {
    unsigned count = refusals;
    try_damaged(what, place, bytes);
    if (refusals == count) {
        wrong(what, place, "taken");
    }
}

static void begin(const struct start *start) {
    begin_at(&from, start);
    if (saved(&from) != TG18_DONE) {
        wrong(start->name, 0, "not saved");
    }
    for (int i = 0; i < MEMORIES; i++) {
        memcpy(before[i].at, from.unit.memory[i].at, memory_bytes[i]);
        for (size_t j = 0; j < memory_bytes[i]; j += APART) {
            before[i].at[j] ^= 0x5A;
        }
        memcpy(to.unit.memory[i].at, before[i].at, memory_bytes[i]);
    }
    sections_of(from.session.at, from.bytes, at);
    memcpy(damaged.at, from.session.at, (size_t)from.bytes);
    refusals = taken = 0;
}

static void told(const struct start *start, const char *what) {
    look_at_memories(start->name, 0);
    printf("ok session: %s, %s: %u refused and nothing has changed, %u taken and saved again the same\n", start->name,
           what, refusals, taken);
}

// ---- bytes changed

// Every so many bytes before the memories, each by itself; bits of the mask that the place says are turned over.
static void change_bytes(const struct start *start, uint64_t apart, int is_all) {
    begin(start);
    for (uint64_t i = 0; i < at[AT_RAM]; i += apart) {
        uint8_t right = damaged.at[i];
        damaged.at[i] ^= is_all ? 0xFF : (uint8_t)(1 << i % 8);
        try_damaged(start->name, i, from.bytes);
        damaged.at[i] = right;
    }
    told(start, is_all ? "bytes turned over" : "bytes with a bit turned over");
}

// Some at once, and any.
static void change_some(const struct start *start, uint64_t chance) {
    begin(start);
    for (unsigned i = 0; i < 300; i++) {
        uint64_t places[4], count = 1 + below(&chance, 4);
        for (uint64_t j = 0; j < count; j++) {
            places[j] = below(&chance, at[AT_RAM]);
            damaged.at[places[j]] = (uint8_t)any(&chance);
        }
        try_damaged(start->name, i, from.bytes);
        for (uint64_t j = 0; j < count; j++) {
            damaged.at[places[j]] = from.session.at[places[j]];
        }
    }
    told(start, "some bytes changed at random");
}

// Counts of memories are asked for, and their bytes may be any.
static void change_memories(const struct start *start) {
    begin(start);
    for (int i = AT_RAM; i < SECTIONS; i++) {
        for (uint64_t j = 0; j < 4; j++) {
            damaged.at[at[i] + j] ^= 0x10;
            expect_refused(start->name, at[i] + j, from.bytes);
            damaged.at[at[i] + j] ^= 0x10;
        }
        damaged.at[at[i] + 4] ^= 0x10;
        damaged.at[at[i + 1] - 1] ^= 0x10;
        try_damaged(start->name, at[i] + 4, from.bytes);
        damaged.at[at[i] + 4] ^= 0x10;
        damaged.at[at[i + 1] - 1] ^= 0x10;
        to.unit.memory[i - AT_RAM].at[memory_bytes[i - AT_RAM] - 1] ^= 0x10;
    }
    if (taken != MEMORIES) {
        wrong(start->name, taken, "refused for a memory's byte");
    }
    told(start, "counts of memories, and their bytes");
}

// ---- lengths

static void change_lengths(const struct start *start) {
    begin(start);
    fill_any(&damaged, 9);
    memcpy(damaged.at, from.session.at, (size_t)from.bytes);
    for (uint64_t i = 0; i <= 64; i++) {
        expect_refused(start->name, i, i);
        expect_refused(start->name, from.bytes - 1 - i, from.bytes - 1 - i);
    }
    for (uint64_t i = 1; i <= SESSION_MORE; i++) {
        expect_refused(start->name, from.bytes + i, from.bytes + i);
    }
    for (int i = 0; i < SECTIONS; i++) {
        expect_refused(start->name, at[i], at[i]);
    }
    told(start, "bytes missing and added at the end");
}

// ---- sections

static uint64_t laid;

static void lay(int section) {
    uint64_t bytes = at[section + 1] - at[section];
    memcpy(damaged.at + laid, from.session.at + at[section], (size_t)bytes);
    laid += bytes;
}

// Each exchanged with each later one; each left out; each before the memories doubled, where there is room.
static void move_sections(const struct start *start) {
    begin(start);
    for (int a = 0; a < SECTIONS; a++) {
        for (int b = a + 1; b < SECTIONS; b++) {
            laid = 0;
            for (int i = 0; i < SECTIONS; i++) {
                lay(i == a ? b : i == b ? a : i);
            }
            if (memcmp(damaged.at, from.session.at, (size_t)laid) != 0) { // two empty tables are the same bytes
                expect_refused(start->name, (uint64_t)(100 * a + b), laid);
            }
        }
    }
    for (int a = 0; a < SECTIONS; a++) {
        laid = 0;
        for (int i = 0; i < SECTIONS; i++) {
            if (i != a) {
                lay(i);
            }
        }
        expect_refused(start->name, (uint64_t)a, laid);
    }
    for (int a = 0; a < AT_RAM; a++) {
        laid = 0;
        for (int i = 0; i < SECTIONS; i++) {
            lay(i);
            if (i == a && at[SECTIONS] + at[a + 1] - at[a] <= damaged.bytes) {
                lay(i);
            }
        }
        if (laid > from.bytes) {
            expect_refused(start->name, (uint64_t)a, laid);
        }
    }
    told(start, "sections exchanged, left out and doubled");
}

int main(void) {
    from = world_made();
    to = world_made();
    fill_memories(&from, 1);
    damaged = lend(from.session.bytes, BEFORE_GUARD);
    for (int i = 0; i < MEMORIES; i++) {
        before[i] = lend(memory_bytes[i], AFTER_GUARD);
    }
    fill_any(&to.state, 8);
    keep(&to.state);
    change_bytes(&starts[4], 1, 0);
    change_bytes(&starts[10], 1, 1);
    change_bytes(&starts[11], 1, 0);
    change_bytes(&starts[14], 31, 1);
    change_some(&starts[6], 21);
    change_memories(&starts[8]);
    change_lengths(&starts[13]);
    move_sections(&starts[13]);
    move_sections(&starts[14]);
    return 0;
}
