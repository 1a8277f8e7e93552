#include "guard_live.h"
#include "live_steps.h"
#include "scripts.h"
#include <string.h>

enum { PATTERN = 0xA5 };

struct tg18_unit *state_of(struct stage *s) { return (struct tg18_unit *)s->state.at; }

static const struct tg18_memories *table_of(struct stage *s) { return (const struct tg18_memories *)s->table.at; }

void relend(struct stage *stage, struct lent *lent, size_t bytes) {
    if (lent->mapped != NULL) {
        give_back(lent);
    }
    *lent = lend(bytes, stage->edge);
    fill_any(lent, bytes + 11);
}

struct stage stage_made(enum edge edge) {
    struct stage s = {.edge = edge, .unit = unit_made()};
    s.state = lend(sizeof(struct tg18_unit), edge);
    s.table = lend(sizeof(struct tg18_memories), edge);
    s.byte = lend(1, edge);
    s.word = lend(4, edge);
    s.wide = lend(8, edge);
    s.wide2 = lend(8, edge);
    relend(&s, &s.bytes, TG18_SCREEN_BYTES);
    relend(&s, &s.records, 3 * sizeof(struct tg18_event));
    s.script = lend(TG18_SCRIPT_BYTES(1, 2), edge);
    struct script script = script_at(s.script.at);
    press(&script, 1, 0);
    put_word(&script, FLASH_BASE, 0x01020304);
    step(&script, TG18_WIPE, 0, 0, 0);
    tg18_fresh(state_of(&s));
    s.address = FLASH_BASE + 5;
    s.size = 4;
    s.value = 0x89ABCDEF;
    s.key = 1;
    s.number = 2.5;
    return s;
}

void stage_given_back(struct stage *s) {
    struct lent *all[] = {&s->state, &s->table, &s->byte, &s->word, &s->wide, &s->wide2, &s->bytes, &s->records,
                          &s->script, &s->unit.memory[RAM], &s->unit.memory[SRAM], &s->unit.memory[GPIO],
                          &s->unit.memory[FRAMEBUFFER]};
    for (size_t i = 0; i < sizeof all / sizeof *all; i++) {
        give_back(all[i]);
    }
}

// ---- the calls

static uint32_t fresh(struct stage *s) {
    tg18_fresh(state_of(s));
    return TG18_DONE;
}

static uint32_t wipe(struct stage *s) { return tg18_wipe(state_of(s), table_of(s)); }

static uint32_t read(struct stage *s) {
    return tg18_read(state_of(s), table_of(s), s->address, s->size, (uint32_t *)s->word.at);
}

static uint32_t write(struct stage *s) {
    return tg18_write(state_of(s), table_of(s), s->address, s->size, s->value);
}

static uint32_t advance(struct stage *s) { return tg18_advance(state_of(s), table_of(s), s->number); }

static uint32_t next_event(struct stage *s) {
    return tg18_next_event(state_of(s), table_of(s), (double *)s->wide.at);
}

static uint32_t pending_irq(struct stage *s) {
    uint32_t line = tg18_pending_irq(state_of(s));
    if (line != 0 && line != 1 && line != 8 && line != 27 && line != 29) {
        fail("interrupt %u waits", line);
    }
    return TG18_DONE;
}

static uint32_t irq_wanted(struct stage *s) {
    uint32_t wanted = tg18_irq_wanted(state_of(s));
    if (wanted > 1 || (wanted == 1 && tg18_pending_irq(state_of(s)) == 0)) {
        fail("an interrupt is wanted, %u, and none waits", wanted);
    }
    return TG18_DONE;
}

static uint32_t turbo(struct stage *s) { return tg18_turbo(state_of(s), s->number); }

static uint32_t live_key(struct stage *s) { return tg18_live_key(state_of(s), s->key, s->value); }

static uint32_t hold_until(struct stage *s) { return tg18_hold_until(state_of(s), s->key, s->number); }

static uint32_t press_key(struct stage *s) { return tg18_press(state_of(s), s->key, s->number); }

static uint32_t keys_held(struct stage *s) {
    if (tg18_keys_held(state_of(s)) > 7) {
        fail("more keys than there are");
    }
    return TG18_DONE;
}

static uint32_t take_events(struct stage *s) {
    size_t room = s->records.bytes / sizeof(struct tg18_event);
    if (tg18_take_events(state_of(s), (struct tg18_event *)s->records.at, room) > room) {
        fail("more events than there is room for");
    }
    return TG18_DONE;
}

static uint32_t counters(struct stage *s) {
    tg18_counters(state_of(s), (uint64_t *)s->wide.at, (uint64_t *)s->wide2.at, (uint32_t *)s->word.at);
    if (*(const uint32_t *)s->word.at > 1) {
        fail("neither on nor off");
    }
    return TG18_DONE;
}

static uint32_t screen(struct stage *s) { return tg18_screen(table_of(s), s->bytes.at, s->bytes.bytes); }

static uint32_t peek8(struct stage *s) { return tg18_peek8(state_of(s), table_of(s), s->address, s->byte.at); }

static uint32_t peek32(struct stage *s) {
    return tg18_peek32(state_of(s), table_of(s), s->address, (uint32_t *)s->word.at);
}

static uint32_t read_block(struct stage *s) {
    return tg18_read_block(state_of(s), table_of(s), s->address, s->bytes.at, s->bytes.bytes,
                           (uint32_t *)s->word.at);
}

static uint32_t poke(struct stage *s) {
    return tg18_poke(state_of(s), table_of(s), s->address, s->bytes.at, s->bytes.bytes);
}

static uint32_t clocks(struct stage *s) {
    int64_t day = tg18_tod(state_of(s));
    if (day < 0 || day >= 86400) {
        fail("second %ld of the day", (long)day);
    }
    tg18_ticks(state_of(s));
    return TG18_DONE;
}

static uint32_t alarm_ticks(struct stage *s) {
    uint32_t is_on = tg18_alarm_ticks(state_of(s), (int64_t *)s->wide.at);
    if (is_on > 1 || (is_on == 0 && *(const int64_t *)s->wide.at != 0)) {
        fail("alarm %u, or its ticks", is_on);
    }
    return TG18_DONE;
}

static uint32_t continue_script(struct stage *s) {
    return tg18_continue_script(state_of(s), table_of(s), s->script.at, s->script.bytes, s->bytes.at, s->bytes.bytes);
}

static uint32_t save(struct stage *s) {
    return tg18_save(state_of(s), table_of(s), s->bytes.at, s->bytes.bytes, (uint64_t *)s->wide.at);
}

static uint32_t save_scrubbed(struct stage *s) {
    return tg18_save_scrubbed(state_of(s), table_of(s), s->bytes.at, s->bytes.bytes, (uint64_t *)s->wide.at);
}

static uint32_t resume(struct stage *s) {
    return tg18_resume(state_of(s), table_of(s), s->bytes.at, s->bytes.bytes);
}

static uint32_t resume_scrubbed(struct stage *s) {
    return tg18_resume_scrubbed(state_of(s), table_of(s), s->bytes.at, s->bytes.bytes);
}

const struct live_call live_calls[LIVE_CALLS] = {
    {"fresh", fresh, 0, 0, 0},
    {"wipe", wipe, 1, 0, 0},
    {"read", read, 1, 0, 4},
    {"write", write, 1, 0, 0},
    {"advance", advance, 1, 0, 0},
    {"next event", next_event, 1, 1, 8},
    {"pending irq", pending_irq, 0, 1, 0},
    {"irq wanted", irq_wanted, 0, 1, 0},
    {"turbo", turbo, 0, 0, 0},
    {"live key", live_key, 0, 0, 0},
    {"hold until", hold_until, 0, 0, 0},
    {"press", press_key, 0, 0, 0},
    {"keys held", keys_held, 0, 1, 0},
    {"take events", take_events, 0, 0, 0},
    {"counters", counters, 0, 1, 0},
    {"screen", screen, 1, 1, 0},
    {"peek8", peek8, 1, 1, 1},
    {"peek32", peek32, 1, 1, 4},
    {"read block", read_block, 1, 1, 4},
    {"poke", poke, 1, 0, 0},
    {"tod and ticks", clocks, 0, 1, 0},
    {"alarm ticks", alarm_ticks, 0, 1, 0},
    {"continue script", continue_script, 1, 0, 0},
    {"save", save, 1, 1, 8},
    {"save scrubbed", save_scrubbed, 1, 1, 8},
    {"resume", resume, 1, 0, 0},
    {"resume scrubbed", resume_scrubbed, 1, 0, 0},
};

// ---- what holds of every call

static int is_all(const struct lent *lent, uint8_t byte) {
    for (size_t i = 0; i < lent->bytes; i++) {
        if (lent->at[i] != byte) {
            return 0;
        }
    }
    return 1;
}

uint32_t call_checked(struct stage *s, const struct live_call *call) {
    const struct tg18_memories memories = memories_of(&s->unit);
    struct lent *const answers[] = {&s->byte, &s->word, &s->wide};
    memcpy(s->table.at, &memories, sizeof memories);
    keep(&s->table);
    keep(&s->state);
    for (int i = 0; i < 3; i++) {
        memset(answers[i]->at, PATTERN, answers[i]->bytes);
    }
    uint32_t refusal = call->call(s);
    if (refusal > TG18_SAVE_TOO_SHORT) {
        fail("refusal %u", refusal);
    }
    if (!is_kept(&s->table) || ((refusal != TG18_DONE || call->keeps_unit) && !is_kept(&s->state))) {
        fail("refusal %u, and the unit or the table of memories has changed", refusal);
    }
    for (int i = 0; refusal != TG18_DONE && i < 3; i++) {
        if (!is_all(answers[i], answers[i]->bytes == call->answer_bytes ? 0 : PATTERN)) {
            fail("refusal %u, and what it answers is not 0", refusal);
        }
    }
    count_case();
    return refusal;
}
