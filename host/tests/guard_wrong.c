// Slices of wrong lengths: the right refusal, and no byte of any slice changes.
#include "guard.h"
#include "scripts.h"
#include "tg18.h"
#include <string.h>

enum { LATER = 9 };

static struct unit unit;
static uint8_t desk[4096];

// One of each that answers something, so that anything that is done shows.
static struct script short_script(void) {
    struct script script = script_at(desk);
    press(&script, 1, 0);
    put_word(&script, FLASH_BASE, 0x01020304);
    step(&script, TG18_WIPE, 0, 0, 0);
    return script;
}

static void unit_kept(void) {
    unit = unit_made();
    for (int i = 0; i < MEMORIES; i++) {
        fill_any(&unit.memory[i], 50 + (uint64_t)i);
        keep(&unit.memory[i]);
    }
}

static void check_refused(int entry, uint32_t expected, struct lent *script, struct lent *out) {
    fill_any(out, 3);
    keep(out);
    keep(script);
    uint32_t refusal = run_over(entries[entry], &unit, script, script->bytes, out);
    if (refusal != expected) {
        fail("refusal %u, not %u", refusal, expected);
    }
    for (int i = 0; i < MEMORIES; i++) {
        if (!is_kept(&unit.memory[i])) {
            fail("%s has changed", memory_names[i]);
        }
    }
    if (!is_kept(out) || !is_kept(script)) {
        fail("%s has changed", is_kept(out) ? "script" : "out");
    }
    count_case();
}

// As many bytes of a script as there are, whatever the script's own length.
static struct lent lent_script(const struct script *script, size_t bytes, enum edge edge) {
    struct lent lent = lend(bytes, edge);
    size_t own = script_length(script);
    memcpy(lent.at, script->at, bytes < own ? bytes : own);
    return lent;
}

// ---- 7

static void try_memory(int which, size_t bytes, enum edge edge) {
    struct script script = short_script();
    struct lent right = unit.memory[which];
    struct lent lent = lent_script(&script, script_length(&script), edge), out = lend(out_length(&script), edge);
    unit.memory[which] = lend(bytes, edge);
    fill_any(&unit.memory[which], 4);
    keep(&unit.memory[which]);
    for (int entry = 0; entry < ENTRIES; entry++) {
        now_at("%s of %zu bytes %s, %s", memory_names[which], bytes, edge_names[edge], entry_names[entry]);
        check_refused(entry, TG18_BAD_MEMORY, &lent, &out);
    }
    give_back(&unit.memory[which]);
    give_back(&lent);
    give_back(&out);
    unit.memory[which] = right;
}

void test_memory_lengths(void) {
    unit_kept();
    for (int which = 0; which < MEMORIES; which++) {
        for (int edge = AFTER_GUARD; edge <= BEFORE_GUARD; edge++) {
            try_memory(which, 0, (enum edge)edge);
            try_memory(which, 1, (enum edge)edge);
            try_memory(which, memory_bytes[which] - 1, (enum edge)edge);
            try_memory(which, memory_bytes[which] + 1, (enum edge)edge);
            for (int other = 0; other < MEMORIES; other++) {
                if (other != which) {
                    try_memory(which, memory_bytes[other], (enum edge)edge);
                }
            }
        }
    }
}

// ---- 10

static void try_script(const struct script *script, size_t bytes) {
    for (int edge = AFTER_GUARD; edge <= BEFORE_GUARD; edge++) {
        struct lent lent = lent_script(script, bytes, (enum edge)edge), out = lend(out_length(script), (enum edge)edge);
        for (int entry = 0; entry < ENTRIES; entry++) {
            now_at("script of %zu bytes, %s, %s", bytes, edge_names[edge], entry_names[entry]);
            check_refused(entry, TG18_BAD_SCRIPT, &lent, &out);
        }
        give_back(&lent);
        give_back(&out);
    }
}

void test_script_lengths(void) {
    struct script script = short_script();
    unit_kept();
    for (size_t bytes = 0; bytes < script_length(&script); bytes++) {
        try_script(&script, bytes);
    }
    try_script(&script, script_length(&script) + 1);
    try_script(&script, script_length(&script) + TG18_STEP_BYTES);
}

// One word of the short script in another way.
static void try_changed(size_t place, uint32_t word, size_t bytes) {
    struct script script = short_script();
    memcpy(desk + place, &word, bytes);
    now_at("byte %zu changed to %x", place, word);
    try_script(&script, script_length(&script));
}

void test_counts_and_kinds(void) {
    static const uint32_t counts[] = {4096, 4097, 0x7FFFFFFF, 0x80000000, 0xFFFFFFFF};
    unit_kept();
    for (size_t i = 0; i < sizeof counts / sizeof *counts; i++) {
        try_changed(0, counts[i], 4);
        try_changed(4 + TG18_PRESS_BYTES, counts[i], 4);
    }
    static const uint8_t kinds[] = {0, 13, 255};
    for (size_t i = 0; i < sizeof kinds; i++) {
        try_changed(8 + TG18_PRESS_BYTES, kinds[i], 1);
        try_changed(8 + TG18_PRESS_BYTES + TG18_STEP_BYTES, kinds[i], 1);
    }
}

// ---- 11, and what out has behind the answers

static void try_later(const struct script *script, struct lent *lent, enum edge edge) {
    for (int entry = 0; entry < ENTRIES; entry++) {
        struct lent out = lend(out_length(script) + LATER, edge);
        now_at("later bytes, %s, %s", edge_names[edge], entry_names[entry]);
        fill_any(&out, 6);
        keep(&out);
        uint32_t refusal = run_over(entries[entry], &unit, lent, lent->bytes, &out);
        if (refusal != TG18_DONE || memcmp(out.at + out.bytes - LATER, out.copy + out.bytes - LATER, LATER) != 0) {
            fail("refusal %u, or bytes behind the answers have changed", refusal);
        }
        count_case();
        give_back(&out);
    }
}

void test_out_lengths(void) {
    struct script script = short_script();
    unit_kept();
    for (int edge = AFTER_GUARD; edge <= BEFORE_GUARD; edge++) {
        struct lent lent = lent_script(&script, script_length(&script), (enum edge)edge);
        for (size_t bytes = 0; bytes < out_length(&script); bytes++) {
            struct lent out = lend(bytes, (enum edge)edge);
            for (int entry = 0; entry < ENTRIES; entry++) {
                now_at("out of %zu bytes %s, %s", bytes, edge_names[edge], entry_names[entry]);
                check_refused(entry, TG18_OUT_TOO_SHORT, &lent, &out);
            }
            give_back(&out);
        }
        give_back(&lent);
    }
    struct lent lent = lent_script(&script, script_length(&script), AFTER_GUARD);
    try_later(&script, &lent, AFTER_GUARD);
    try_later(&script, &lent, BEFORE_GUARD);
}

// ---- 7 before 10 before 11

static void try_order(int which, size_t script_cut, uint32_t expected) {
    struct script script = short_script();
    struct lent right = unit.memory[GPIO];
    struct lent lent = lent_script(&script, script_length(&script) - script_cut, BEFORE_GUARD);
    struct lent out = lend(3, BEFORE_GUARD);
    if (which == GPIO) {
        unit.memory[GPIO] = lend(5, BEFORE_GUARD);
        keep(&unit.memory[GPIO]);
    }
    for (int entry = 0; entry < ENTRIES; entry++) {
        now_at("%u is due, %s", expected, entry_names[entry]);
        check_refused(entry, expected, &lent, &out);
    }
    unit.memory[GPIO] = right;
}

void test_order(void) {
    unit_kept();
    try_order(GPIO, 1, TG18_BAD_MEMORY);
    try_order(GPIO, 0, TG18_BAD_MEMORY);
    try_order(MEMORIES, 1, TG18_BAD_SCRIPT);
    try_order(MEMORIES, 0, TG18_OUT_TOO_SHORT);
}

// ---- length 0 with a null pointer

static const struct lent nothing = {NULL, 0, NULL, 0, NULL};

void test_null(void) {
    struct script script = short_script();
    struct lent lent = lent_script(&script, script_length(&script), AFTER_GUARD);
    struct lent out = lend(out_length(&script), AFTER_GUARD);
    unit_kept();
    for (int entry = 0; entry < ENTRIES; entry++) {
        struct lent no_script = nothing, no_out = nothing;
        now_at("null, %s", entry_names[entry]);
        check_refused(entry, TG18_BAD_SCRIPT, &no_script, &out);
        check_refused(entry, TG18_OUT_TOO_SHORT, &lent, &no_out);
        for (int i = 0; i < MEMORIES; i++) {
            struct lent right = unit.memory[i];
            unit.memory[i] = nothing;
            check_refused(entry, TG18_BAD_MEMORY, &lent, &out);
            unit.memory[i] = right;
        }
    }
}
