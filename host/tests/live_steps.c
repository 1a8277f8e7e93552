#include "live_steps.h"
#include <string.h>

struct answer {
    uint32_t refusal;
    uint64_t a, b, c;
};

double double_of(uint64_t bits) {
    double number;
    memcpy(&number, &bits, sizeof number);
    return number;
}

static uint64_t bits_of(double number) {
    uint64_t bits;
    memcpy(&bits, &number, sizeof bits);
    return bits;
}

struct tg18_memories memories_of(const struct unit *unit) {
    const struct lent *m = unit->memory;
    return (struct tg18_memories){m[RAM].at,  m[RAM].bytes,  m[SRAM].at,        m[SRAM].bytes,
                                  m[GPIO].at, m[GPIO].bytes, m[FRAMEBUFFER].at, m[FRAMEBUFFER].bytes};
}

// ---- what answers something

static struct answer a_read(struct tg18_unit *state, const struct tg18_memories *m, uint32_t address, uint8_t size) {
    uint32_t value = 1;
    uint32_t refusal = tg18_read(state, m, address, size, &value);
    return (struct answer){refusal, value, 0, 0};
}

static struct answer a_next(const struct tg18_unit *state, const struct tg18_memories *m) {
    double time = 1;
    uint32_t refusal = tg18_next_event(state, m, &time);
    return (struct answer){refusal, bits_of(time), 0, 0};
}

static struct answer a_sound(struct tg18_unit *state) {
    struct tg18_event event;
    if (tg18_take_events(state, &event, 1) == 0) {
        return (struct answer){TG18_NO_EVENT, 0, 0, 0};
    }
    return (struct answer){TG18_DONE, bits_of(event.time), bits_of(event.frequency), bits_of(event.duty)};
}

static struct answer a_count(const struct tg18_unit *state) {
    uint64_t frames, writes;
    uint32_t off;
    tg18_counters(state, &frames, &writes, &off);
    return (struct answer){TG18_DONE, frames, writes, off};
}

static struct answer a_colour(const struct tg18_memories *m, uint32_t pixel, uint8_t *rgb) {
    uint32_t refusal = tg18_screen(m, rgb, TG18_SCREEN_BYTES);
    const uint8_t *at = rgb + 3 * (pixel % (TG18_SCREEN_WIDTH * TG18_SCREEN_HEIGHT));
    return (struct answer){refusal, (uint64_t)at[0] << 16 | (uint64_t)at[1] << 8 | at[2], 0, 0};
}

static struct answer only(uint32_t refusal) { return (struct answer){refusal, 0, 0, 0}; }

// ---- entries

static struct answer step_done(struct tg18_unit *state, const struct tg18_memories *m, const uint8_t *step,
                               uint8_t *rgb) {
    uint32_t address;
    uint64_t value;
    memcpy(&address, step + 4, sizeof address);
    memcpy(&value, step + 8, sizeof value);
    switch (step[0]) {
    case TG18_READ:
        return a_read(state, m, address, step[1]);
    case TG18_WRITE:
        return only(tg18_write(state, m, address, step[1], (uint32_t)value));
    case TG18_ADVANCE:
        return only(tg18_advance(state, m, double_of(value)));
    case TG18_NEXT:
        return a_next(state, m);
    case TG18_PENDING:
        return (struct answer){TG18_DONE, tg18_pending_irq(state), 0, 0};
    case TG18_TURBO:
        return only(tg18_turbo(state, double_of(value)));
    case TG18_KEY:
        return only(tg18_live_key(state, address, value != 0));
    case TG18_HOLD:
        return only(tg18_hold_until(state, address, double_of(value)));
    case TG18_SOUND:
        return a_sound(state);
    case TG18_COUNTERS:
        return a_count(state);
    case TG18_COLOUR:
        return a_colour(m, address, rgb);
    default:
        return only(tg18_wipe(state, m));
    }
}

static struct answer press_done(struct tg18_unit *state, const uint8_t *press) {
    uint64_t time;
    memcpy(&time, press + 1, sizeof time);
    return only(tg18_press(state, press[0], double_of(time)));
}

static uint8_t *laid(uint8_t *out, struct answer answer) {
    out[0] = (uint8_t)answer.refusal;
    memcpy(out + 1, &answer.a, 8);
    memcpy(out + 9, &answer.b, 8);
    memcpy(out + 17, &answer.c, 8);
    return out + TG18_ANSWER_BYTES;
}

static uint32_t word_at(const uint8_t *at) {
    uint32_t word;
    memcpy(&word, at, sizeof word);
    return word;
}

void do_script(struct tg18_unit *state, const struct tg18_memories *memories, const uint8_t *script, uint8_t *out,
               uint8_t rgb[TG18_SCREEN_BYTES]) {
    uint32_t presses = word_at(script), steps = word_at(script + 4 + TG18_PRESS_BYTES * presses);
    uint32_t count = presses + steps;
    memcpy(out, &count, sizeof count);
    out += sizeof count;
    for (uint32_t i = 0; i < presses; i++) {
        out = laid(out, press_done(state, script + 4 + TG18_PRESS_BYTES * i));
    }
    for (uint32_t i = 0; i < steps; i++) {
        const uint8_t *step = script + 8 + TG18_PRESS_BYTES * presses + TG18_STEP_BYTES * i;
        out = laid(out, step_done(state, memories, step, rgb));
    }
}

// ---- runners

uint32_t run_continued(uint8_t *ram, size_t ram_len, uint8_t *sram, size_t sram_len, uint8_t *gpio, size_t gpio_len,
                       uint8_t *framebuffer, size_t framebuffer_len, const uint8_t *script, size_t script_len,
                       uint8_t *out, size_t out_len) {
    const struct tg18_memories m = {ram, ram_len, sram, sram_len, gpio, gpio_len, framebuffer, framebuffer_len};
    struct tg18_unit state;
    tg18_fresh(&state);
    return tg18_continue_script(&state, &m, script, script_len, out, out_len);
}

// Not tg18_read_block: its block would lie on the stack.
static uint32_t look(const struct tg18_unit *state, const struct tg18_memories *m, uint32_t address, uint8_t *rgb) {
    uint64_t frames, writes;
    int64_t ticks;
    double time;
    uint32_t value, off, refusal = tg18_screen(m, rgb, TG18_SCREEN_BYTES) | tg18_next_event(state, m, &time);
    uint8_t byte;
    for (uint32_t i = 0; i < 32; i += 4) {
        refusal |= tg18_peek8(state, m, address + i, &byte) | tg18_peek32(state, m, address + i, &value);
    }
    tg18_counters(state, &frames, &writes, &off);
    tg18_pending_irq(state);
    tg18_irq_wanted(state);
    tg18_keys_held(state);
    tg18_tod(state);
    tg18_ticks(state);
    tg18_alarm_ticks(state, &ticks);
    return refusal;
}

uint32_t call_the_rest(struct tg18_unit *state, const struct tg18_memories *m, uint32_t address,
                       uint8_t rgb[TG18_SCREEN_BYTES]) {
    struct tg18_event events[2];
    uint32_t refusal = look(state, m, address, rgb);
    refusal |= tg18_turbo(state, 2.0) | tg18_live_key(state, 0, 1) | tg18_live_key(state, 0, 0);
    refusal |= tg18_hold_until(state, 1, 0.5) | tg18_press(state, 2, 0.25) | tg18_advance(state, m, 0.75);
    tg18_take_events(state, events, 2);
    return refusal | look(state, m, address, rgb);
}

uint32_t run_live(uint8_t *ram, size_t ram_len, uint8_t *sram, size_t sram_len, uint8_t *gpio, size_t gpio_len,
                  uint8_t *framebuffer, size_t framebuffer_len, const uint8_t *script, size_t script_len, uint8_t *out,
                  size_t out_len) {
    const struct tg18_memories m = {ram, ram_len, sram, sram_len, gpio, gpio_len, framebuffer, framebuffer_len};
    struct tg18_unit state;
    static uint8_t rgb[TG18_SCREEN_BYTES];
    (void)script_len;
    (void)out_len;
    tg18_fresh(&state);
    do_script(&state, &m, script, out, rgb);
    return TG18_DONE;
}
