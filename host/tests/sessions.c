#include "sessions.h"
#include "live_steps.h"
#include <stdio.h>
#include <stdlib.h>
#include <string.h>

// ---- starts; times are bits of doubles

#define SECONDS(n) ((uint64_t)(1023 + (n)) << 52) // 2 to the power n
enum { PLACE = 0x123440, OTHER_WORD = 0x100000 };

static void fresh(struct script *script) { (void)script; }

static void selected(struct script *script) { put_word(script, SPIFC_SELECT, 0x40); }

static void command_alone(struct script *script) { flash_begin(script, 0x03); }

static void address_in_part(struct script *script) {
    flash_enable(script);
    flash_begin(script, 0x02);
    flash_send(script, 0x12);
    flash_send(script, 0x34);
}

static void data_sent(struct script *script, uint32_t address, uint32_t count) {
    flash_enable(script);
    flash_begin_at(script, 0x02, address);
    for (uint32_t i = 0; i < count; i++) {
        flash_send(script, (uint8_t)(i * 37 + 1));
    }
}

// Its data go round at the page's end.
static void open_program(struct script *script) { data_sent(script, PLACE + 0xB0, 40); }

static void page_full(struct script *script) { data_sent(script, PLACE + 3, 256); }

static void past_the_page(struct script *script) { data_sent(script, PLACE, 300); }

static void open_read(struct script *script) {
    flash_begin_at(script, 0x0B, PLACE);
    for (uint32_t i = 0; i < 11; i++) {
        flash_send(script, 0);
    }
}

// An odd number of bytes of pixels.
static void pixel_run(struct script *script) {
    panel_window(script, 0x2A, 5, 100);
    panel_window(script, 0x2B, 7, 90);
    panel_command(script, 0x2C);
    for (uint32_t i = 0; i < 301; i++) {
        put_word(script, LCD_DATA, i * 11);
        put_word(script, LCD_CONTROL, 0x20A1); // one byte
    }
}

static void arguments_in_part(struct script *script) {
    panel_command(script, 0x2A);
    put_word(script, LCD_DATA, 0x55);
    put_word(script, LCD_CONTROL, 0x20A1);
}

static void ticking(struct script *script) {
    for (uint32_t timer = 0; timer < 6; timer++) {
        put_word(script, TIMER_RELOAD + 0x20 * timer, 0xFC18 - 999 * timer);
        put_word(script, TIMER_BASE + 0x20 * timer, timer % 2 ? 0x6000 : 0x2001);
        step(script, TG18_ADVANCE, 0, 0, SECONDS(0) + ((uint64_t)timer << 40));
    }
}

// Every third is over.
static void presses_waiting(struct script *script) {
    for (uint32_t i = 0; i < 64; i++) {
        press(script, (uint8_t)(i % 3), i % 3 == 1 ? SECONDS(-2) : SECONDS(5) + ((uint64_t)i << 40));
    }
    step(script, TG18_ADVANCE, 0, 0, SECONDS(4));
    step(script, TG18_KEY, 0, 1, 1);
    step(script, TG18_HOLD, 0, 2, SECONDS(6));
    step(script, TG18_ADVANCE, 0, 0, SECONDS(5));
}

static void converting(struct script *script) { put_word(script, ADC_CONTROL, 0x4000); }

static void clocks_set(struct script *script) {
    step(script, TG18_TURBO, 0, 0, SECONDS(3));
    step(script, TG18_ADVANCE, 0, 0, SECONDS(7));
    put_word(script, RTC_HOURS, 23);
    put_word(script, RTC_MINUTES, 59);
    put_word(script, RTC_SECONDS, 58);
    for (uint32_t i = 0; i < 0x20; i++) {
        put_word(script, RTC_ADDRESS, i);
        put_word(script, RTC_DATA, i * 5);
        put_word(script, RTC_COMMAND, 1);
    }
    put_word(script, RTC_COMMAND, 2);
    step(script, TG18_ADVANCE, 0, 0, SECONDS(7) + (3ull << 40));
}

static void sounds(struct script *script) {
    put_word(script, SOUND_RELOAD, 0xE890);
    for (uint32_t i = 0; i < 300; i++) {
        put_word(script, SOUND_CONTROL, i % 2 ? 0 : 0x2000);
        if (i % 7 == 0) {
            step(script, TG18_SOUND, 0, 0, 0); // so that the oldest stands in the middle
        }
        step(script, TG18_ADVANCE, 0, 0, SECONDS(1) + ((uint64_t)i << 40));
    }
}

// 64 presses, 256 other words, 256 sound events.
static void full_tables(struct script *script) {
    for (uint32_t i = 0; i < 64; i++) {
        press(script, (uint8_t)(i % 3), SECONDS(8) + ((uint64_t)(i * 7 % 64) << 40));
    }
    for (uint32_t i = 0; i < 300; i++) {
        put_word(script, GPIO_BASE + OTHER_WORD + 4 * (i * 77 % 256), i + 1);
    }
    sounds(script);
}

static void off(struct script *script) {
    full_tables(script);
    put_word(script, POWER_REG, 0);
}

// Cells by crates/state/specs/Bank.antt.
const struct start starts[STARTS] = {
    {"fresh", fresh, 11, 256},
    {"flash selected", selected, 1, 1},
    {"a command alone", command_alone, 9, 1},
    {"an address in part", address_in_part, 9, 3},
    {"an open program", open_program, 9, 44},
    {"a program of a page", page_full, 9, 260},
    {"a program past its page", past_the_page, 10, 1},
    {"a read", open_read, 9, 15},
    {"half a pixel", pixel_run, 23, 300 * 11 % 256},
    {"arguments in part", arguments_in_part, 16, 1},
    {"timers", ticking, 32, 1},
    {"presses", presses_waiting, 48, 1},
    {"a conversion", converting, 40, 1},
    {"clocks that were set", clocks_set, 38, 86398},
    {"full tables", full_tables, 45, 256},
    {"full tables, and power off", off, 43, 1},
};

// ---- worlds

struct world world_made(void) {
    struct world world = {.unit = unit_made()};
    world.memories = memories_of(&world.unit);
    world.state = lend(sizeof(struct tg18_unit), BEFORE_GUARD);
    world.session = lend(TG18_SAVE_MOST + SESSION_MORE, AFTER_GUARD);
    return world;
}

struct tg18_unit *unit_of(struct world *world) { return (struct tg18_unit *)world->state.at; }

void fill_memories(struct world *world, uint64_t seed) {
    for (int i = 0; i < MEMORIES; i++) {
        fill_any(&world->unit.memory[i], seed + (uint64_t)i);
    }
}

void begin_at(struct world *world, const struct start *start) {
    static uint8_t desk[65536], answers[65536];
    struct script script = script_at(desk);
    start->lay(&script);
    tg18_fresh(unit_of(world));
    uint32_t refusal = tg18_continue_script(unit_of(world), &world->memories, desk, script_length(&script), answers,
                                            sizeof answers);
    uint64_t cell = unit_of(world)->cells[start->cell];
    if (refusal != TG18_DONE || cell != start->value) {
        printf("FAILED session: the script of '%s': refusal %u, cell %d is %lu\n", start->name, refusal, start->cell,
               (unsigned long)cell);
        exit(1);
    }
}

uint32_t saved(struct world *world) {
    return tg18_save(unit_of(world), &world->memories, world->session.at, world->session.bytes, &world->bytes);
}

uint32_t resumed(struct world *world, const uint8_t *session, uint64_t bytes) {
    return tg18_resume(unit_of(world), &world->memories, session, (size_t)bytes);
}

int same_memories(const struct world *a, const struct world *b) {
    int same = 1;
    for (int i = 0; i < MEMORIES; i++) {
        same &= memcmp(a->unit.memory[i].at, b->unit.memory[i].at, memory_bytes[i]) == 0;
    }
    return same;
}

// ---- sections

static uint32_t count_at(const uint8_t *session, uint64_t at) {
    uint32_t count;
    memcpy(&count, session + at, sizeof count);
    return count;
}

// Timers, words, flags, panel, clocks, tone, flash, keys, presses, events, and the memories.
void sections_of(const uint8_t *session, uint64_t bytes, uint64_t at[SECTIONS + 1]) {
    static const uint64_t fixed[] = {6, 49, 332, 20, 280, 32};
    at[0] = 0;
    at[1] = 58;
    at[2] = at[1] + 4 + 304 + 8 * count_at(session, at[1]);
    for (int i = 0; i < 6; i++) {
        at[3 + i] = at[2 + i] + fixed[i];
    }
    at[9] = at[8] + 4 + 9 * count_at(session, at[8]);
    at[AT_RAM] = at[9] + 4 + 24 * count_at(session, at[9]);
    for (int i = 0; i < MEMORIES; i++) {
        at[AT_RAM + 1 + i] = at[AT_RAM + i] + 4 + memory_bytes[i];
    }
    if (at[SECTIONS] != bytes) {
        printf("FAILED session: sections of %lu bytes, and %lu were written\n", (unsigned long)at[SECTIONS],
               (unsigned long)bytes);
        exit(1);
    }
}
