// The live entries of tg18.h: C that takes structs apart. Each calls one proved function of the archive (crates/live,
// chain, saving and resuming), which has the same name but for `lent`: arrays go as pointers, slices as pointer and
// length, in the order of its parameters. Nothing here reads or writes a byte of the unit or of a memory.
#include "tg18.h"

_Static_assert(sizeof(struct tg18_unit) == 10120, "a unit has no padding");
_Static_assert(_Alignof(struct tg18_unit) == 8, "a unit is 8-aligned");
_Static_assert(sizeof(struct tg18_event) == 3 * sizeof(double), "an event has no padding");

// docs/SESSIONS.md: what has one length, and the three tables full.
_Static_assert(TG18_SAVE_MOST == 1109 + TG18_RAM_BYTES + TG18_SRAM_BYTES + TG18_GPIO_BYTES + TG18_FRAMEBUFFER_BYTES +
                                     8 * 256 + 9 * 64 + 24 * 256,
               "the greatest session");

typedef const uint32_t *words;
typedef const double *doubles;
typedef const uint64_t *bank;
typedef const uint8_t *bytes;

// The memories: to change, and to look at.
#define MEMORIES uint8_t *, size_t, uint8_t *, size_t, uint8_t *, size_t, uint8_t *, size_t
#define SEEN bytes, size_t, bytes, size_t, bytes, size_t, bytes, size_t
#define IN(m) \
    (m)->ram, (m)->ram_len, (m)->sram, (m)->sram_len, (m)->gpio, (m)->gpio_len, (m)->framebuffer, (m)->framebuffer_len

// Every array of a unit.
#define ARRAYS \
    uint32_t *, uint32_t *, uint32_t *, uint8_t *, uint8_t *, double *, double *, double *, double *, uint8_t *, \
        uint64_t *, double *
#define OF(u) \
    (u)->slots, (u)->addresses, (u)->values, (u)->rtc, (u)->page, (u)->onsets, (u)->frequencies, (u)->duties, \
        (u)->starts, (u)->codes, (u)->cells, (u)->floats

void tg18_lent_fresh(ARRAYS);
uint32_t tg18_lent_wipe(ARRAYS, MEMORIES);
uint32_t tg18_lent_read(uint32_t *, words, words, bank, doubles, SEEN, uint32_t, uint32_t, uint32_t *);
uint32_t tg18_lent_write(uint32_t *, uint32_t *, uint32_t *, uint8_t *, uint8_t *, double *, double *, double *,
                         uint64_t *, double *, MEMORIES, uint32_t, uint32_t, uint32_t);
uint32_t tg18_lent_advance(uint32_t *, doubles, bytes, uint64_t *, double *, bytes, size_t, bytes, size_t, uint8_t *,
                           size_t, bytes, size_t, double);
uint32_t tg18_lent_next_event(words, doubles, bank, doubles, SEEN, double *);
uint32_t tg18_lent_pending_irq(words, bank);
uint32_t tg18_lent_irq_wanted(words, bank);
uint32_t tg18_lent_turbo(double *, double);
uint32_t tg18_lent_live_key(uint64_t *, double *, uint32_t, uint32_t);
uint32_t tg18_lent_hold_until(uint64_t *, double *, uint32_t, double);
uint32_t tg18_lent_press(double *, uint8_t *, uint64_t *, doubles, uint32_t, double);
uint32_t tg18_lent_keys_held(doubles, bytes, bank, doubles);
size_t tg18_lent_take_events(double *, double *, double *, uint64_t *, struct tg18_event *, size_t);
void tg18_lent_counters(bank, uint64_t *, uint64_t *, uint32_t *);
uint32_t tg18_lent_screen(SEEN, uint8_t *, size_t);
uint32_t tg18_lent_peek8(words, words, words, SEEN, uint32_t, uint8_t *);
uint32_t tg18_lent_peek32(words, words, words, SEEN, uint32_t, uint32_t *);
uint32_t tg18_lent_read_block(words, words, words, SEEN, uint32_t, uint8_t *, size_t, uint32_t *);
uint32_t tg18_lent_poke(uint8_t *, size_t, uint8_t *, size_t, uint8_t *, size_t, bytes, size_t, uint32_t, bytes,
                        size_t);
uint64_t tg18_lent_tod(bank, doubles);
uint64_t tg18_lent_ticks(bank, doubles);
uint32_t tg18_lent_alarm_ticks(bytes, uint64_t *);
uint32_t tg18_lent_continue_script(ARRAYS, MEMORIES, bytes, size_t, uint8_t *, size_t);
uint32_t tg18_lent_save(words, words, words, bytes, bytes, doubles, doubles, doubles, doubles, bytes, bank, doubles,
                        SEEN, uint8_t *, size_t, uint64_t *);
uint32_t tg18_lent_resume(ARRAYS, MEMORIES, bytes, size_t);

size_t tg18_unit_bytes(void) {
    return sizeof(struct tg18_unit);
}

void tg18_fresh(struct tg18_unit *u) {
    tg18_lent_fresh(OF(u));
}

uint32_t tg18_wipe(struct tg18_unit *u, const struct tg18_memories *m) {
    return tg18_lent_wipe(OF(u), IN(m));
}

uint32_t tg18_read(struct tg18_unit *u, const struct tg18_memories *m, uint32_t address, uint32_t size,
                   uint32_t *value) {
    return tg18_lent_read(u->slots, u->addresses, u->values, u->cells, u->floats, IN(m), address, size, value);
}

uint32_t tg18_write(struct tg18_unit *u, const struct tg18_memories *m, uint32_t address, uint32_t size,
                    uint32_t value) {
    return tg18_lent_write(u->slots, u->addresses, u->values, u->rtc, u->page, u->onsets, u->frequencies, u->duties,
                           u->cells, u->floats, IN(m), address, size, value);
}

uint32_t tg18_advance(struct tg18_unit *u, const struct tg18_memories *m, double now) {
    return tg18_lent_advance(u->slots, u->starts, u->codes, u->cells, u->floats, IN(m), now);
}

uint32_t tg18_next_event(const struct tg18_unit *u, const struct tg18_memories *m, double *time) {
    return tg18_lent_next_event(u->slots, u->starts, u->cells, u->floats, IN(m), time);
}

uint32_t tg18_pending_irq(const struct tg18_unit *u) {
    return tg18_lent_pending_irq(u->slots, u->cells);
}

uint32_t tg18_irq_wanted(const struct tg18_unit *u) {
    return tg18_lent_irq_wanted(u->slots, u->cells);
}

uint32_t tg18_turbo(struct tg18_unit *u, double factor) {
    return tg18_lent_turbo(u->floats, factor);
}

uint32_t tg18_live_key(struct tg18_unit *u, uint32_t key, uint32_t down) {
    return tg18_lent_live_key(u->cells, u->floats, key, down);
}

uint32_t tg18_hold_until(struct tg18_unit *u, uint32_t key, double until) {
    return tg18_lent_hold_until(u->cells, u->floats, key, until);
}

uint32_t tg18_press(struct tg18_unit *u, uint32_t key, double at) {
    return tg18_lent_press(u->starts, u->codes, u->cells, u->floats, key, at);
}

uint32_t tg18_keys_held(const struct tg18_unit *u) {
    return tg18_lent_keys_held(u->starts, u->codes, u->cells, u->floats);
}

size_t tg18_take_events(struct tg18_unit *u, struct tg18_event *records, size_t count) {
    return tg18_lent_take_events(u->onsets, u->frequencies, u->duties, u->cells, records, count);
}

void tg18_counters(const struct tg18_unit *u, uint64_t *frames, uint64_t *flash_writes, uint32_t *off) {
    tg18_lent_counters(u->cells, frames, flash_writes, off);
}

uint32_t tg18_screen(const struct tg18_memories *m, uint8_t *rgb, size_t count) {
    return tg18_lent_screen(IN(m), rgb, count);
}

uint32_t tg18_peek8(const struct tg18_unit *u, const struct tg18_memories *m, uint32_t address, uint8_t *value) {
    return tg18_lent_peek8(u->slots, u->addresses, u->values, IN(m), address, value);
}

uint32_t tg18_peek32(const struct tg18_unit *u, const struct tg18_memories *m, uint32_t address, uint32_t *value) {
    return tg18_lent_peek32(u->slots, u->addresses, u->values, IN(m), address, value);
}

uint32_t tg18_read_block(const struct tg18_unit *u, const struct tg18_memories *m, uint32_t address, uint8_t *to,
                         size_t count, uint32_t *whole) {
    return tg18_lent_read_block(u->slots, u->addresses, u->values, IN(m), address, to, count, whole);
}

// The unit is lent although nothing of it is changed or read today: 02 gives stray writes a home in it.
uint32_t tg18_poke(struct tg18_unit *u, const struct tg18_memories *m, uint32_t address, const uint8_t *from,
                   size_t count) {
    (void)u;
    return tg18_lent_poke(IN(m), address, from, count);
}

int64_t tg18_tod(const struct tg18_unit *u) {
    return (int64_t)tg18_lent_tod(u->cells, u->floats);
}

int64_t tg18_ticks(const struct tg18_unit *u) {
    return (int64_t)tg18_lent_ticks(u->cells, u->floats);
}

uint32_t tg18_alarm_ticks(const struct tg18_unit *u, int64_t *ticks) {
    return tg18_lent_alarm_ticks(u->rtc, (uint64_t *)ticks);
}

uint32_t tg18_continue_script(struct tg18_unit *u, const struct tg18_memories *m, const uint8_t *script,
                              size_t script_len, uint8_t *out, size_t out_len) {
    return tg18_lent_continue_script(OF(u), IN(m), script, script_len, out, out_len);
}

uint32_t tg18_save(const struct tg18_unit *u, const struct tg18_memories *m, uint8_t *out, size_t out_len,
                   uint64_t *written) {
    return tg18_lent_save(OF(u), IN(m), out, out_len, written);
}

uint32_t tg18_resume(struct tg18_unit *u, const struct tg18_memories *m, const uint8_t *saved, size_t saved_len) {
    return tg18_lent_resume(OF(u), IN(m), saved, saved_len);
}
