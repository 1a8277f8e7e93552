#include "key_ways.h"
#include "key_search.h"
#include "tg18.h"

static uint32_t key_word(uint32_t i) {
    return key_byte(i) | (uint32_t)key_byte(i + 1) << 8 | (uint32_t)key_byte(i + 2) << 16 |
           (uint32_t)key_byte(i + 3) << 24;
}

enum { FLASH_PLACE = 0x123440, RAM_PLACE = 0xA00010, SRAM_PLACE = 0x5550, RTC_MEMORY = 0x80 };

// Erases a sector and sends a program of the key, which is not ended.
static void by_open_program(struct script *script) {
    flash_enable(script);
    flash_begin_at(script, 0x20, FLASH_PLACE);
    flash_end(script);
    flash_enable(script);
    flash_begin_at(script, 0x02, FLASH_PLACE);
    for (uint32_t i = 0; i < KEY_BYTES; i++) {
        flash_send(script, key_byte(i));
    }
}

static void by_program(struct script *script) {
    by_open_program(script);
    flash_end(script);
}

// Programs the key and reads it back.
static void by_flash(struct script *script) {
    by_program(script);
    flash_begin_at(script, 0x03, FLASH_PLACE);
    for (uint32_t i = 0; i < KEY_BYTES; i++) {
        flash_send(script, 0);
        step(script, TG18_READ, 4, SPIFC_ANSWER, 0);
    }
    flash_end(script);
}

// The key's words, each so many bytes behind the one before it.
static void words_to(struct script *script, uint32_t address, uint32_t apart) {
    for (uint32_t i = 0; i < KEY_BYTES; i += 4, address += apart) {
        put_word(script, address, key_word(i));
        step(script, TG18_READ, 4, address, 0);
    }
}

static void by_ram(struct script *script) {
    words_to(script, FLASH_BASE + RAM_PLACE, 4);
    words_to(script, SRAM_BASE + SRAM_PLACE, 4);
}

// From RAM to the framebuffer, 32,768 bytes at once.
static void by_picture(struct script *script) {
    words_to(script, FLASH_BASE + RAM_PLACE, 4);
    picture(script, FLASH_BASE + RAM_PLACE);
}

static void by_clock_chip(struct script *script) {
    for (uint32_t i = 0; i < KEY_BYTES; i++) {
        put_word(script, RTC_ADDRESS, RTC_MEMORY + i);
        put_word(script, RTC_DATA, key_byte(i));
        put_word(script, RTC_COMMAND, 1);
    }
}

// Words without storage of their own stand one after the other in the room for others, that of the highest address
// first: so the key is a row there.
static void by_registers(struct script *script) { words_to(script, 0xC0100000 + KEY_BYTES, -4U); }

const struct way ways[WAYS] = {
    {"flash", by_flash, {{RAM, FLASH_PLACE}}, 1, 0},
    {"program", by_program, {{RAM, FLASH_PLACE}}, 1, 1},
    {"open program", by_open_program, {{RAM, 0}}, 0, 1},
    {"words", by_ram, {{RAM, RAM_PLACE}, {SRAM, SRAM_PLACE}}, 2, 0},
    {"picture", by_picture, {{RAM, RAM_PLACE}, {FRAMEBUFFER, 0}}, 2, 0},
    {"clock chip", by_clock_chip, {{RAM, 0}}, 0, 1},
    {"registers", by_registers, {{RAM, 0}}, 0, 1},
};
