// What live calls say that no step of a script does, beside what the bus says of the same: the time of day, ticks and
// alarm of the clock chip, interrupts, keys. The bus is asked over a copy of the unit.
#include "lent.h"
#include "live_steps.h"
#include "scripts.h"
#include "tg18.h"
#include <stdio.h>
#include <stdlib.h>
#include <string.h>

enum { ROUNDS = 4000, KEY_WORD = 0x20, FIRST_KEY = 5, CHIP_SET = 1, CHIP_GET = 2 };
enum { STAGED = 0x10, ALARM = 0x20, TICKS = 0x30, ALARM_ON = 0x40 };

static struct unit unit;
static struct tg18_memories memories;
static struct tg18_unit state, copy;
static uint64_t chance = 1;
static unsigned rounds, keys_seen, alarms_seen, wanted_seen;

static void same(const char *what, int64_t here, int64_t bus) {
    if (here != bus) {
        printf("FAILED live: round %u: %s is %ld, the bus says %ld\n", rounds, what, (long)here, (long)bus);
        exit(1);
    }
}

static uint32_t get(struct tg18_unit *from, uint32_t address) {
    uint32_t value;
    same("a read's refusal", tg18_read(from, &memories, address, 4, &value), TG18_DONE);
    return value;
}

static void put(struct tg18_unit *to, uint32_t address, uint32_t value) {
    same("a write's refusal", tg18_write(to, &memories, address, 4, value), TG18_DONE);
}

static void chip_set(uint32_t at, uint32_t value) {
    put(&state, RTC_ADDRESS, at);
    put(&state, RTC_DATA, value);
    put(&state, RTC_COMMAND, CHIP_SET);
}

// Six bytes of the chip, the lowest first.
static int64_t chip_six(uint32_t at) {
    int64_t all = 0;
    for (uint32_t i = 0; i < 6; i++) {
        put(&copy, RTC_ADDRESS, at + i);
        put(&copy, RTC_COMMAND, CHIP_GET);
        all |= (int64_t)(get(&copy, RTC_OUT) & 0xFF) << (8 * i);
    }
    return all;
}

static uint32_t chip_byte(uint32_t at) { return (uint32_t)chip_six(at) & 0xFF; }

// ---- what happens

static void any_clock(void) {
    static const uint32_t fields[] = {RTC_SECONDS, RTC_MINUTES, RTC_HOURS};
    put(&state, fields[below(&chance, 3)], (uint32_t)below(&chance, 100));
    chip_set((below(&chance, 2) ? STAGED : ALARM) + (uint32_t)below(&chance, 6), (uint32_t)any(&chance));
    chip_set(ALARM_ON, (uint32_t)below(&chance, 8));
    put(&state, INTC_DISABLE, (uint32_t)below(&chance, 4));
    put(&state, INTC_MASK, below(&chance, 2) ? 0 : (uint32_t)any(&chance));
    put(&state, RTC_IRQ_ENABLE, (uint32_t)below(&chance, 4));
}

// Times are in eighths of a second; a press is over after 0.15.
static void any_key(double now) {
    uint32_t key = (uint32_t)below(&chance, 3);
    double soon = now + (double)below(&chance, 4) / 8;
    switch (below(&chance, 3)) {
    case 0:
        tg18_live_key(&state, key, (uint32_t)below(&chance, 2));
        break;
    case 1:
        tg18_hold_until(&state, key, soon);
        break;
    default:
        tg18_press(&state, key, soon);
    }
}

// ---- what is said

static void compare_clocks(void) {
    int64_t day = 3600 * (int64_t)get(&copy, RTC_HOURS) + 60 * get(&copy, RTC_MINUTES) + get(&copy, RTC_SECONDS);
    same("the second of the day", tg18_tod(&state), day);
    same("the ticks' low 48 bits", tg18_ticks(&state) & 0xFFFFFFFFFFFF, chip_six(TICKS));
    int64_t at = 1;
    uint32_t is_on = tg18_alarm_ticks(&state, &at), expected = (chip_byte(ALARM_ON) & 6) != 0;
    same("the alarm", is_on, expected);
    same("its ticks", at, expected ? chip_six(ALARM) : 0);
    alarms_seen += expected;
}

static void compare_lines(void) {
    uint32_t line = tg18_pending_irq(&state), wanted = line != 0 && (get(&copy, INTC_DISABLE) & 1) == 0;
    same("the interrupt", line, get(&copy, INTC_PENDING));
    same("whether one is wanted", tg18_irq_wanted(&state), wanted);
    uint32_t lines = get(&copy, GPIO_BASE + KEY_WORD) >> FIRST_KEY & 7, keys = tg18_keys_held(&state);
    same("the keys", keys, lines);
    keys_seen += keys != 0;
    wanted_seen += wanted;
}

int main(void) {
    unit = unit_made();
    memories = memories_of(&unit);
    tg18_fresh(&state);
    for (rounds = 0; rounds < ROUNDS; rounds++) {
        double now = (double)rounds / 8;
        any_clock();
        any_key(now);
        same("an advance's refusal", tg18_advance(&state, &memories, now), TG18_DONE);
        copy = state;
        compare_clocks();
        compare_lines();
    }
    int seen = keys_seen > 0 && alarms_seen > 0 && wanted_seen > 0 && tg18_ticks(&state) != 0;
    printf("%s live: clocks, interrupts and keys are as the bus says, %d times\n", seen ? "ok" : "FAILED", ROUNDS);
    return !seen;
}
