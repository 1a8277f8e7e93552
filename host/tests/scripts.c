#include "scripts.h"
#include "tg18.h"

static void lay(uint8_t *at, uint64_t number, int bytes) {
    for (int i = 0; i < bytes; i++) {
        at[i] = (uint8_t)(number >> (8 * i));
    }
}

static void lay_counts(const struct script *script) {
    lay(script->at, script->presses, 4);
    lay(script->at + 4 + TG18_PRESS_BYTES * script->presses, script->steps, 4);
}

struct script script_at(uint8_t *at) {
    struct script script = {at, 0, 0};
    lay_counts(&script);
    return script;
}

size_t script_length(const struct script *script) { return TG18_SCRIPT_BYTES(script->presses, script->steps); }

size_t out_length(const struct script *script) { return TG18_OUT_BYTES(script->presses, script->steps); }

void press(struct script *script, uint8_t key, uint64_t time_bits) {
    uint8_t *at = script->at + 4 + TG18_PRESS_BYTES * script->presses;
    at[0] = key;
    lay(at + 1, time_bits, 8);
    script->presses++;
    lay_counts(script);
}

void step(struct script *script, uint8_t kind, uint8_t size, uint32_t address, uint64_t value) {
    uint8_t *at = script->at + script_length(script);
    at[0] = kind;
    at[1] = size;
    at[2] = at[3] = 0;
    lay(at + 4, address, 4);
    lay(at + 8, value, 8);
    script->steps++;
    lay_counts(script);
}

void put_word(struct script *script, uint32_t address, uint32_t value) { step(script, TG18_WRITE, 4, address, value); }

// ---- transactions of the flash, and of the panel

void flash_begin(struct script *script, uint8_t command) {
    put_word(script, SPIFC_SELECT, 0x40);
    flash_send(script, command);
}

void flash_send(struct script *script, uint8_t byte) { put_word(script, SPIFC_SEND, byte); }

void flash_end(struct script *script) { put_word(script, SPIFC_SELECT, 0); }

void flash_enable(struct script *script) {
    flash_begin(script, 0x06);
    flash_end(script);
}

void flash_begin_at(struct script *script, uint8_t command, uint32_t address) {
    flash_begin(script, command);
    flash_send(script, (uint8_t)(address >> 16));
    flash_send(script, (uint8_t)(address >> 8));
    flash_send(script, (uint8_t)address);
}

void panel_command(struct script *script, uint8_t command) {
    put_word(script, LCD_DATA, command);
    put_word(script, LCD_CONTROL, 0x81);
}

// 0x2A for columns, 0x2B for rows
void panel_window(struct script *script, uint8_t command, uint32_t low, uint32_t high) {
    panel_command(script, command);
    put_word(script, LCD_DATA, low);
    put_word(script, LCD_CONTROL, 0xA1);
    put_word(script, LCD_DATA, high);
    put_word(script, LCD_CONTROL, 0xA1);
}

void picture(struct script *script, uint32_t source) {
    put_word(script, LCD_DMA, source);
    put_word(script, LCD_CONTROL, 0xD1);
}

// ---- at random

const uint32_t places[PLACES] = {
    0, FLASH_BASE, FLASH_BASE + 0x800000, FLASH_BASE + 0xFF8000, FLASH_BASE + TG18_RAM_BYTES, GPIO_BASE,
    GPIO_BASE + 0x20, GPIO_END, 0xC1000000, 0xD0000000, 0xD1000000, SRAM_BASE, SYSCLK_VAR, SRAM_END,
    0xFF000000, REGISTERS_END,
};

const uint32_t registers[REGISTERS] = {
    TIMER_BASE, TIMER_RELOAD, TIMER_BASE + 0x10, SOUND_CONTROL, SOUND_RELOAD, SOUND_COMPARE, RTC_SECONDS,
    RTC_MINUTES, RTC_HOURS, RTC_IRQ_STATUS, RTC_IRQ_ENABLE, SPI2_SEND, SPI2_STATUS, SPI2_ANSWER, RTC_ADDRESS,
    RTC_DATA, RTC_COMMAND, RTC_OUT, ADC_CONTROL, ADC_RESULT, SPIFC_SELECT, SPIFC_STATUS, SPIFC_SEND,
    SPIFC_ANSWER, CLOCK_SWITCH, CLOCK_STATUS, INTC_PENDING, INTC_MASK, INTC_DISABLE, LCD_CONTROL, LCD_DATA,
    LCD_ENABLE, LCD_STATUS, LCD_DMA, 0xC0100000, 0xC0200000,
};

uint64_t any(uint64_t *state) {
    uint64_t z = *state += 0x9E3779B97F4A7C15u;
    z = (z ^ z >> 30) * 0xBF58476D1CE4E5B9u;
    z = (z ^ z >> 27) * 0x94D049BB133111EBu;
    return z ^ z >> 31;
}

uint64_t below(uint64_t *state, uint64_t n) { return any(state) % n; }

static uint32_t near_place(uint64_t *state) { return places[below(state, PLACES)] + (uint32_t)below(state, 17) - 8; }

uint32_t any_address(uint64_t *state) {
    switch (below(state, 6)) {
    case 0:
        return (uint32_t)any(state);
    case 1:
    case 2:
        return registers[below(state, REGISTERS)] + (uint32_t)below(state, 4);
    default:
        return near_place(state);
    }
}

uint64_t any_time(uint64_t *state) {
    uint64_t exponent = 1023 - 8 + below(state, 14);
    return below(state, 8) == 0 ? any(state) : exponent << 52 | any(state) >> 12;
}

static void any_flash(struct script *script, uint64_t *state) {
    static const uint8_t commands[] = {0x02, 0x02, 0x02, 0x03, 0x03, 0x0B, 0x20, 0x52, 0xD8, 0x90};
    static const uint32_t edges[] = {0, 0x100, 0x1000, 0x7F0000, 0x7FFF00, 0x800000, 0x1000000};
    uint32_t address = edges[below(state, 7)] + (uint32_t)below(state, 9) - 4;
    flash_enable(script);
    flash_begin_at(script, commands[below(state, sizeof commands)], address);
    for (uint64_t n = below(state, 12); n > 0; n--) {
        flash_send(script, (uint8_t)any(state));
    }
    step(script, TG18_READ, 4, SPIFC_ANSWER, 0);
    flash_end(script);
}

static void any_panel(struct script *script, uint64_t *state) {
    static const uint32_t edges[] = {0, 1, 126, 127, 128, 129, 255, 0xFFFF};
    panel_window(script, 0x2A, edges[below(state, 8)], edges[below(state, 8)]);
    panel_window(script, 0x2B, edges[below(state, 8)], edges[below(state, 8)]);
    panel_command(script, 0x2C);
    for (uint64_t n = below(state, 12); n > 0; n--) {
        put_word(script, LCD_DATA, (uint32_t)any(state));
        put_word(script, LCD_CONTROL, 0xA1);
    }
}

// A step of a kind that has an address which is neither a key nor a pixel, or of one that has none.
static void any_plain(struct script *script, uint64_t *state) {
    static const uint8_t sizes[] = {1, 2, 4, 4, 1, 2, 4, 0, 3, 8};
    uint8_t kind = (uint8_t)(1 + below(state, 11)), size = sizes[below(state, sizeof sizes)];
    if (kind == TG18_ADVANCE || kind == TG18_TURBO) {
        step(script, kind, size, 0, any_time(state));
    } else if (kind == TG18_KEY || kind == TG18_HOLD) {
        step(script, kind, size, (uint32_t)below(state, 4), any_time(state));
    } else {
        step(script, below(state, 2) ? kind : TG18_WRITE, size, any_address(state), any(state) >> below(state, 64));
    }
}

void script_any(struct script *script, uint64_t *state, uint32_t steps) {
    for (uint64_t n = below(state, 8); n > 0; n--) {
        press(script, (uint8_t)below(state, 4), any_time(state));
    }
    while (script->steps < steps) {
        switch (below(state, 16)) {
        case 0:
            any_flash(script, state);
            break;
        case 1:
            any_panel(script, state);
            break;
        case 2:
            picture(script, below(state, 2) ? near_place(state) : near_place(state) - TG18_FRAMEBUFFER_BYTES);
            break;
        default:
            any_plain(script, state);
        }
    }
    if (below(state, 32) == 0) {
        flash_enable(script);
        flash_begin(script, 0xC7);
        flash_end(script);
    }
    if (below(state, 32) == 0) {
        step(script, TG18_WIPE, 0, 0, 0);
    }
}
