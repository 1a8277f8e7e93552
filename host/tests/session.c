// Sessions there and back: what is resumed into a unit and memories of any bytes is what was saved, is saved again as
// the same bytes, and goes on as what was saved goes on.
#include "live_steps.h"
#include "sessions.h"
#include <stdio.h>
#include <stdlib.h>
#include <string.h>

enum { STEPS = 60, RUNS = 120, ANY_UNITS = 60, ROOM = 65536 };

static struct world one, other;
static uint8_t desk[ROOM], answers[2][ROOM];

static __attribute__((noreturn)) void differ(const char *where, unsigned i, const char *what) {
    printf("FAILED session: %s, %u: %s\n", where, i, what);
    exit(1);
}

// ---- units: all that is the same

// Cells (crates/state/specs/Bank.antt): six counts of periods; the oldest event and how many; how many presses.
enum { PERIODS = 25, TIMERS = 6, OLDEST = 44, EVENTS = 45, PRESSES = 46, CELLS = 51 };

static int is_kept_cell(int i) {
    return !(i >= PERIODS && i < PERIODS + TIMERS) && i != OLDEST && i != PRESSES;
}

static int same_bits(const double *a, const double *b) { return memcmp(a, b, sizeof *a) == 0; }

static int is_nought(const double *at) {
    static const double nought;
    return same_bits(at, &nought);
}

static int same_events(const struct tg18_unit *a, const struct tg18_unit *b) {
    for (uint64_t i = 0; i < 256; i++) {
        uint64_t j = (a->cells[OLDEST] + i) % 256;
        int waits = i < a->cells[EVENTS];
        if (waits ? !same_bits(&a->onsets[j], &b->onsets[i]) || !same_bits(&a->frequencies[j], &b->frequencies[i]) ||
                        !same_bits(&a->duties[j], &b->duties[i])
                  : !is_nought(&b->onsets[i]) || !is_nought(&b->frequencies[i]) || !is_nought(&b->duties[i])) {
            return 0;
        }
    }
    return b->cells[OLDEST] == 0;
}

// Those of b are among those of a, in their order; those that are left out are over, which what comes later shows.
static int same_presses(const struct tg18_unit *a, const struct tg18_unit *b) {
    uint64_t j = 0;
    for (uint64_t i = 0; i < a->cells[PRESSES] && j < b->cells[PRESSES]; i++) {
        j += same_bits(&a->starts[i], &b->starts[j]) && a->codes[i] == b->codes[j];
    }
    int good = j == b->cells[PRESSES];
    for (; j < 64; j++) {
        good &= is_nought(&b->starts[j]) && b->codes[j] == 0;
    }
    return good;
}

static const char *difference(const struct tg18_unit *a, const struct tg18_unit *b) {
    for (int i = 0; i < CELLS; i++) {
        if (is_kept_cell(i) && a->cells[i] != b->cells[i]) {
            return "another cell";
        }
    }
    return memcmp(a->floats, b->floats, sizeof a->floats) != 0            ? "another float"
           : memcmp(a->slots, b->slots, sizeof a->slots) != 0             ? "another own word"
           : memcmp(a->addresses, b->addresses, sizeof a->addresses) != 0 ? "another word's address"
           : memcmp(a->values, b->values, sizeof a->values) != 0          ? "another other word"
           : memcmp(a->rtc, b->rtc, sizeof a->rtc) != 0                   ? "another byte of the clock chip"
           : memcmp(a->page, b->page, sizeof a->page) != 0                ? "another byte of the page"
           : !same_events(a, b)                                           ? "other events"
           : !same_presses(a, b)                                          ? "other presses"
                                                                          : NULL;
}

// ---- there and back

// Saved here, and resumed there over anything.
static void there(const char *where, unsigned i) {
    if (saved(&one) != TG18_DONE) {
        differ(where, i, "not saved");
    }
    fill_any(&other.state, i);
    for (int m = 0; m < MEMORIES; m++) {
        memset(other.unit.memory[m].at, (int)(i * 31 + (unsigned)m), memory_bytes[m]);
    }
    if (resumed(&other, one.session.at, one.bytes) != TG18_DONE) {
        differ(where, i, "not resumed");
    }
}

static void back(const char *where, unsigned i) {
    const char *what = difference(unit_of(&one), unit_of(&other));
    if (what != NULL || !same_memories(&one, &other)) {
        differ(where, i, what != NULL ? what : "another memory");
    }
    if (saved(&other) != TG18_DONE || one.bytes != other.bytes ||
        memcmp(one.session.at, other.session.at, (size_t)one.bytes) != 0) {
        differ(where, i, "saved again it is another");
    }
}

// A new press takes the place of one that is over, and a resume leaves those out: later on presses may stand in another
// order. So both sessions are compared with their rows of presses sorted.
enum { PRESSES_SECTION = 8, ROW = TG18_PRESS_BYTES };

static void sort_presses(struct world *world) {
    uint64_t at[SECTIONS + 1];
    uint8_t row[ROW];
    sections_of(world->session.at, world->bytes, at);
    uint8_t *first = world->session.at + at[PRESSES_SECTION] + 4;
    uint64_t count = (at[PRESSES_SECTION + 1] - at[PRESSES_SECTION] - 4) / ROW;
    for (uint64_t i = 1; i < count; i++) {
        for (uint64_t j = i; j > 0 && memcmp(first + ROW * j, first + ROW * (j - 1), ROW) < 0; j--) {
            memcpy(row, first + ROW * j, ROW);
            memcpy(first + ROW * j, first + ROW * (j - 1), ROW);
            memcpy(first + ROW * (j - 1), row, ROW);
        }
    }
}

// With the same counts of periods, which a resume recomputes, all goes on alike: answers, units and memories.
static void go_on(const char *where, unsigned i, uint64_t *chance) {
    memcpy(unit_of(&one)->cells + PERIODS, unit_of(&other)->cells + PERIODS, TIMERS * sizeof(uint64_t));
    struct script script = script_at(desk);
    script_any(&script, chance, STEPS);
    struct world *const worlds[] = {&one, &other};
    for (int w = 0; w < 2; w++) {
        if (tg18_continue_script(unit_of(worlds[w]), &worlds[w]->memories, desk, script_length(&script), answers[w],
                                 ROOM) != TG18_DONE ||
            saved(worlds[w]) != TG18_DONE) {
            differ(where, i, "refused later");
        }
        sort_presses(worlds[w]);
    }
    if (memcmp(answers[0], answers[1], out_length(&script)) != 0) {
        differ(where, i, "another answer later");
    }
    if (memcmp(unit_of(&one)->cells + PERIODS, unit_of(&other)->cells + PERIODS, TIMERS * sizeof(uint64_t)) != 0 ||
        one.bytes != other.bytes || memcmp(one.session.at, other.session.at, (size_t)one.bytes) != 0) {
        differ(where, i, "another unit or memory later");
    }
}

static void try_starts(void) {
    uint64_t chance = 5;
    for (unsigned i = 0; i < STARTS; i++) {
        fill_memories(&one, 100 + i);
        begin_at(&one, &starts[i]);
        there(starts[i].name, i);
        back(starts[i].name, i);
        go_on(starts[i].name, i, &chance);
    }
    printf("ok session: %d units in the middle of something are the same when resumed, saved again, and later\n",
           STARTS);
}

// A unit that goes on and on.
static void try_runs(void) {
    uint64_t chance = 6;
    fill_memories(&one, 3);
    tg18_fresh(unit_of(&one));
    for (unsigned i = 0; i < RUNS; i++) {
        there("at random", i);
        back("at random", i);
        go_on("at random", i, &chance);
    }
    printf("ok session: so is one unit %d times in a run of scripts at random\n", RUNS);
}

// ---- transactions that go round the flash's array

enum { ROUND = 8388608 + 4, NEAR = 6 };

static void send(uint32_t address, uint32_t value) {
    tg18_write(unit_of(&one), &one.memories, address, 4, value);
}

// Saved and resumed at each byte near the first ones, the page's end and where the position goes round.
static void try_rounds(void) {
    static const uint32_t commands[] = {0x03, 0x02};
    unsigned tried = 0;
    tg18_fresh(unit_of(&one));
    for (size_t c = 0; c < 2; c++) {
        send(SPIFC_SELECT, 0);
        send(SPIFC_SELECT, 0x40);
        send(SPIFC_SEND, commands[c]);
        for (uint32_t i = 1; i < ROUND + NEAR; i++, send(SPIFC_SEND, i * 7)) {
            if (i < NEAR || (i > 260 - NEAR && i < 260 + NEAR) || i > ROUND - NEAR) {
                there("round the array", i);
                back("round the array", i);
                tried++;
            }
        }
    }
    if (unit_of(&one)->cells[9] > 2 * NEAR) {
        differ("round the array", 0, "it did not go round");
    }
    printf("ok session: so is a read and a program at %u places, with more bytes than the flash has\n", tried);
}

// ---- units of any bytes

static void any_state(uint64_t *chance) {
    struct lent piece = one.state;
    tg18_fresh(unit_of(&one));
    if (below(chance, 2) == 0) {
        piece.at += below(chance, one.state.bytes);
        piece.bytes = below(chance, (size_t)(one.state.at + one.state.bytes - piece.at) + 1);
    }
    fill_any(&piece, any(chance));
}

// Saved they are; and refused, or saved again as they were.
static void try_any_units(void) {
    uint64_t chance = 7;
    unsigned refusals = 0;
    for (unsigned i = 0; i < ANY_UNITS; i++) {
        any_state(&chance);
        fill_any(&other.state, i);
        keep(&other.state);
        if (saved(&one) != TG18_DONE || one.bytes > TG18_SAVE_MOST) {
            differ("units of any bytes", i, "not saved");
        }
        uint32_t refusal = resumed(&other, one.session.at, one.bytes);
        if (refusal == TG18_BAD_SAVE && is_kept(&other.state)) {
            refusals++;
        } else if (refusal != TG18_DONE || saved(&other) != TG18_DONE || one.bytes != other.bytes ||
                   memcmp(one.session.at, other.session.at, (size_t)one.bytes) != 0) {
            differ("units of any bytes", i, "another refusal, or saved again it is another");
        }
    }
    printf("ok session: of %d units of any bytes all are saved; %u are refused, the others saved again as they were\n",
           ANY_UNITS, refusals);
}

// ---- lengths: the greatest, and the formula of docs/SESSIONS.md

static void try_lengths(void) {
    begin_at(&one, &starts[0]);
    int good = saved(&one) == TG18_DONE && one.bytes == 17863765;
    begin_at(&one, &starts[STARTS - 2]);
    good &= saved(&one) == TG18_DONE && one.bytes == TG18_SAVE_MOST;
    printf("%s session: a fresh unit's has 17863765 bytes, and one with full tables %d\n", good ? "ok" : "FAILED",
           TG18_SAVE_MOST);
    if (!good) {
        exit(1);
    }
}

int main(void) {
    one = world_made();
    other = world_made();
    try_lengths();
    try_starts();
    try_runs();
    try_rounds();
    try_any_units();
    return 0;
}
