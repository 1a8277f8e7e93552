// Slices of the right lengths, and scripts that reach for every edge.
#include "guard.h"
#include "scripts.h"
#include "tg18.h"
#include <string.h>

enum { ROOM = 8 + TG18_PRESS_BYTES * TG18_MOST_PRESSES + TG18_STEP_BYTES * TG18_MOST_STEPS };

// a script that is still being made
static uint8_t desk[ROOM];

static void check_answered(uint32_t refusal, const struct lent *out, const struct script *script) {
    if (refusal != TG18_DONE) {
        fail("refused: %u", refusal);
    }
    uint32_t count = script->presses + script->steps;
    if (memcmp(out->at, &count, 4) != 0) {
        fail("the count of answers is wrong");
    }
    count_case();
}

// Script and out have exactly the bytes that they need.
static void run_exact(const char *name, runner *run, struct unit *unit, const struct script *script, enum edge edge) {
    struct lent lent = lend(script_length(script), edge), out = lend(out_length(script), edge);
    now_at("%s, %s, script and out %s", name, run == tg18_run_script ? "plain" : "scrubbed", edge_names[edge]);
    memcpy(lent.at, script->at, lent.bytes);
    check_answered(run_over(run, unit, &lent, lent.bytes, &out), &out, script);
    give_back(&lent);
    give_back(&out);
}

// Over one unit all along.
static void run_all_ways(const char *name, const struct script *script) {
    static struct unit unit;
    if (unit.memory[RAM].at == NULL) {
        unit = unit_made();
        fill_any(&unit.memory[RAM], 7);
    }
    for (int entry = 0; entry < ENTRIES; entry++) {
        for (int edge = AFTER_GUARD; edge <= BEFORE_GUARD; edge++) {
            run_exact(name, entries[entry], &unit, script, (enum edge)edge);
        }
    }
}

void test_memories(void) {
    struct script script = script_at(desk);
    for (int place = 0; place < PLACES; place++) {
        for (uint32_t address = places[place] - 8; address != places[place] + 9; address++) {
            for (uint8_t size = 1; size <= 4; size *= 2) {
                step(&script, TG18_READ, size, address, 0);
                step(&script, TG18_WRITE, size, address, 0x89ABCDEF);
            }
        }
    }
    run_all_ways("reads and writes", &script);
}

void test_pictures(void) {
    static const uint32_t before[] = {0, 1, 2, 4095, 4096, 16384, 32766, 32767, 32768, 32769};
    struct script script = script_at(desk);
    for (int place = 0; place < PLACES; place++) {
        for (size_t i = 0; i < sizeof before / sizeof *before; i++) {
            picture(&script, places[place] - before[i]);
            picture(&script, places[place] + before[i]);
        }
        step(&script, TG18_COLOUR, 0, 16383, 0);
    }
    picture(&script, 0xFFFFFFFF);
    run_all_ways("pictures", &script);
}

// One window, and pixels from its begin; enough of them go round in small ones.
static void window(struct script *script, uint32_t x0, uint32_t x1, uint32_t y0, uint32_t y1) {
    panel_window(script, 0x2A, x0, x1);
    panel_window(script, 0x2B, y0, y1);
    panel_command(script, 0x2C);
    for (uint32_t i = 0; i < 6; i++) {
        put_word(script, LCD_DATA, 0x1234 + i);
        put_word(script, LCD_CONTROL, 0xA1);
    }
}

void test_windows(void) {
    static const uint32_t edges[] = {0, 126, 127, 128, 0xFFFF};
    for (int y = 0; y < 25; y++) {
        struct script script = script_at(desk);
        for (int x = 0; x < 25; x++) {
            window(&script, edges[x / 5], edges[x % 5], edges[y / 5], edges[y % 5]);
        }
        run_all_ways("windows", &script);
    }
    // the last ten rows, a pixel a turn, and on into a second round
    struct script script = script_at(desk);
    panel_window(&script, 0x2A, 0, 127);
    panel_window(&script, 0x2B, 118, 127);
    panel_command(&script, 0x2C);
    for (uint32_t i = 0; i < 1300; i++) {
        put_word(&script, LCD_DATA, i * 50);
        put_word(&script, LCD_CONTROL, 0xA1);
    }
    run_all_ways("last rows", &script);
}

static void flash_at(uint8_t command, uint32_t address, uint32_t data) {
    struct script script = script_at(desk);
    flash_enable(&script);
    flash_begin_at(&script, command, address);
    for (uint32_t i = 0; i < data; i++) {
        flash_send(&script, (uint8_t)(i * 7));
        step(&script, TG18_READ, 4, SPIFC_ANSWER, 0);
    }
    flash_end(&script);
    step(&script, TG18_COUNTERS, 0, 0, 0);
    run_all_ways("flash", &script);
}

void test_flash(void) {
    static const uint32_t addresses[] = {0, 0xFF, 0x7F0000, 0x7FFF00, 0x7FFFFF, 0x800000, 0xFFFFFF};
    for (size_t i = 0; i < sizeof addresses / sizeof *addresses; i++) {
        flash_at(0x02, addresses[i], 300); // goes round within the page
        flash_at(0x03, addresses[i], 300); // goes round at the array's end
        flash_at(0x0B, addresses[i], 20);
        flash_at(0x20, addresses[i], 0);
        flash_at(0x52, addresses[i], 0);
        flash_at(0xD8, addresses[i], 3);
    }
    struct script script = script_at(desk);
    flash_enable(&script);
    flash_begin(&script, 0xC7);
    flash_end(&script);
    run_all_ways("chip erase", &script);
}

void test_colours_and_wipe(void) {
    struct script script = script_at(desk);
    for (uint32_t i = 0; i < 2048; i++) {
        step(&script, TG18_COLOUR, 0, i, 0);
        step(&script, TG18_COLOUR, 0, ~i, 0);
    }
    run_all_ways("colours", &script);
    script = script_at(desk);
    step(&script, TG18_WIPE, 0, 0, 0);
    run_all_ways("wipe", &script);
    script = script_at(desk);
    run_all_ways("nothing", &script);
}

void test_most(void) {
    struct script script = script_at(desk);
    for (uint32_t i = 0; i < TG18_MOST_PRESSES; i++) {
        press(&script, (uint8_t)(i % 4), 0);
    }
    for (uint32_t i = 0; i < TG18_MOST_STEPS; i++) {
        step(&script, TG18_NEXT, 0, 0, 0);
    }
    run_all_ways("most", &script);
}

// ---- at random: both entries over the same, with the same outcome

static void check_alike(const struct unit *a, const struct unit *b) {
    for (int i = 0; i < MEMORIES; i++) {
        if (memcmp(a->memory[i].at, b->memory[i].at, memory_bytes[i]) != 0) {
            fail("plain and scrubbed leave another %s", memory_names[i]);
        }
    }
}

void test_any(void) {
    struct unit unit[ENTRIES] = {unit_made(), unit_made()};
    for (int i = 0; i < MEMORIES; i++) {
        fill_any(&unit[0].memory[i], 100 + (uint64_t)i);
        memcpy(unit[1].memory[i].at, unit[0].memory[i].at, memory_bytes[i]);
    }
    for (uint64_t i = 0; i < 3000; i++) {
        uint64_t state = i;
        struct script script = script_at(desk);
        script_any(&script, &state, 60);
        struct lent lent = lend(script_length(&script), (enum edge)(i & 1));
        struct lent out[ENTRIES];
        memcpy(lent.at, script.at, lent.bytes);
        for (int entry = 0; entry < ENTRIES; entry++) {
            now_at("script %lu at random, %s", (unsigned long)i, entry_names[entry]);
            out[entry] = lend(out_length(&script), (enum edge)(i >> 1 & 1));
            uint32_t answer = run_over(entries[entry], &unit[entry], &lent, lent.bytes, &out[entry]);
            check_answered(answer, &out[entry], &script);
        }
        if (memcmp(out[0].at, out[1].at, out[0].bytes) != 0) {
            fail("plain and scrubbed answer differently");
        }
        give_back(&lent);
        give_back(&out[0]);
        give_back(&out[1]);
        if (i % 100 == 99) {
            check_alike(&unit[0], &unit[1]);
        }
    }
}
