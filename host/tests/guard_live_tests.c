// Live calls with lengths that are right and wrong, at every edge, with every kind of number and any unit.
#include "guard_live.h"
#include "live_steps.h"
#include "scripts.h"
#include <string.h>

// ---- memories of other lengths

static void check_kept(struct stage *s) {
    struct lent *const all[] = {&s->unit.memory[RAM], &s->unit.memory[SRAM], &s->unit.memory[GPIO],
                                &s->unit.memory[FRAMEBUFFER], &s->bytes, &s->records, &s->script};
    for (size_t i = 0; i < sizeof all / sizeof *all; i++) {
        if (!is_kept(all[i])) {
            fail("%s has changed", i < MEMORIES ? memory_names[i] : "another slice");
        }
    }
}

static void keep_all(struct stage *s) {
    for (int i = 0; i < MEMORIES; i++) {
        keep(&s->unit.memory[i]);
    }
    keep(&s->bytes);
    keep(&s->records);
    keep(&s->script);
}

// Every call that is lent memories: refused with 7, also where its other arguments are wrong.
static void expect_bad_memory(struct stage *s, const char *what) {
    for (int i = 0; i < LIVE_CALLS; i++) {
        if (!live_calls[i].is_lent_memories) {
            continue;
        }
        for (s->size = 4; s->size < 6; s->size++) {
            now_at("live, %s, %s, %s, size %u", live_calls[i].name, what, edge_names[s->edge], s->size);
            s->number = s->size == 4 ? 2.5 : -1;
            uint32_t refusal = call_checked(s, &live_calls[i]);
            if (refusal != TG18_BAD_MEMORY) {
                fail("refusal %u", refusal);
            }
        }
        check_kept(s);
    }
}

static void try_length(struct stage *s, int which, size_t bytes) {
    struct lent right = s->unit.memory[which];
    struct lent *wrong = &s->unit.memory[which];
    *wrong = lend(bytes, s->edge);
    fill_any(wrong, 4);
    keep(wrong);
    expect_bad_memory(s, memory_names[which]);
    give_back(wrong);
    if (bytes == 0) {
        *wrong = (struct lent){NULL, 0, NULL, 0, NULL};
        expect_bad_memory(s, "no memory at no address");
    }
    *wrong = right;
}

void test_live_lengths(void) {
    for (int edge = AFTER_GUARD; edge <= BEFORE_GUARD; edge++) {
        struct stage s = stage_made((enum edge)edge);
        fill_any(&s.state, 5);
        for (int i = 0; i < MEMORIES; i++) {
            fill_any(&s.unit.memory[i], 60 + (uint64_t)i);
        }
        keep_all(&s);
        for (int which = 0; which < MEMORIES; which++) {
            try_length(&s, which, 0);
            try_length(&s, which, 1);
            try_length(&s, which, memory_bytes[which] - 1);
            try_length(&s, which, memory_bytes[which] + 1);
            try_length(&s, which, memory_bytes[(which + 1) % MEMORIES]);
        }
        stage_given_back(&s);
    }
}

// ---- other slices of other lengths

static const struct live_call *named(const char *name) {
    int i = 0;
    while (strcmp(live_calls[i].name, name) != 0) {
        i++;
    }
    return &live_calls[i];
}

static void expect(struct stage *s, const char *name, uint32_t expected) {
    keep(&s->bytes);
    keep(&s->script);
    now_at("live, %s, %zu bytes, script of %zu, %s", name, s->bytes.bytes, s->script.bytes, edge_names[s->edge]);
    uint32_t refusal = call_checked(s, named(name));
    if (refusal != expected) {
        fail("refusal %u, not %u", refusal, expected);
    }
    if (!is_kept(&s->script) || (refusal != TG18_DONE && !is_kept(&s->bytes))) {
        fail("refusal %u, and a slice has changed", refusal);
    }
}

// What stands behind the answers stays.
static void expect_later(struct stage *s, size_t used) {
    relend(s, &s->bytes, used + 9);
    expect(s, "continue script", TG18_DONE);
    if (memcmp(s->bytes.at + used, s->bytes.copy + used, 9) != 0) {
        fail("bytes behind have changed");
    }
}

static void try_slices(struct stage *s) {
    static const size_t others[] = {0, 1, TG18_SCREEN_BYTES - 1, TG18_SCREEN_BYTES + 1};
    for (size_t i = 0; i < sizeof others / sizeof *others; i++) {
        relend(s, &s->bytes, others[i]);
        expect(s, "screen", TG18_BAD_MEMORY);
    }
    relend(s, &s->bytes, TG18_SCREEN_BYTES);
    expect(s, "screen", TG18_DONE);
    for (size_t i = 0; i < TG18_OUT_BYTES(1, 2); i++) {
        relend(s, &s->bytes, i);
        expect(s, "continue script", TG18_OUT_TOO_SHORT);
    }
    expect_later(s, TG18_OUT_BYTES(1, 2));
    struct lent right = s->script;
    for (size_t i = 0; i < right.bytes; i++) {
        s->script = lend(i, s->edge);
        memcpy(s->script.at, right.at, i);
        expect(s, "continue script", TG18_BAD_SCRIPT);
        give_back(&s->script);
    }
    s->script = right;
}

// Length 0 with a null pointer.
static void try_nothing(struct stage *s) {
    struct lent bytes = s->bytes, script = s->script, records = s->records;
    s->bytes = s->script = s->records = (struct lent){NULL, 0, NULL, 0, NULL};
    expect(s, "screen", TG18_BAD_MEMORY);
    expect(s, "read block", TG18_DONE);
    expect(s, "poke", TG18_DONE);
    expect(s, "take events", TG18_DONE);
    expect(s, "continue script", TG18_BAD_SCRIPT);
    expect(s, "save", TG18_SAVE_TOO_SHORT);
    expect(s, "resume", TG18_BAD_SAVE);
    s->script = script;
    expect(s, "continue script", TG18_OUT_TOO_SHORT);
    s->bytes = bytes;
    s->records = records;
}

void test_live_slices(void) {
    for (int edge = AFTER_GUARD; edge <= BEFORE_GUARD; edge++) {
        struct stage s = stage_made((enum edge)edge);
        try_slices(&s);
        try_nothing(&s);
        stage_given_back(&s);
    }
}

// ---- sessions

enum { AN_EVENT = 24, MORE = 9 };

// Some presses, other words and sound events, so that every section has something. The length is odd, so that before a
// guard the address is too.
static void session_begun(struct stage *s) {
    tg18_fresh(state_of(s));
    for (uint32_t i = 0; i < 4; i++) {
        s->key = i % 3;
        s->number = i;
        call_checked(s, named("press"));
        s->address = 0xC0100000 + 4 * i;
        call_checked(s, named("write"));
        s->address = SOUND_CONTROL;
        s->value = i % 2 ? 0 : 0x2000;
        call_checked(s, named("write"));
    }
}

// The bytes that stand there are kept, but for the first so many.
static void check_behind(struct stage *s, size_t used) {
    if (memcmp(s->bytes.at + used, s->bytes.copy + used, s->bytes.bytes - used) != 0) {
        fail("bytes behind have changed");
    }
}

static void try_saves(struct stage *s, const char *name, const struct lent *right) {
    const size_t shorter[] = {0, 1, 57, 1109, right->bytes - AN_EVENT, right->bytes - 1};
    for (size_t i = 0; i < sizeof shorter / sizeof *shorter; i++) {
        relend(s, &s->bytes, shorter[i]);
        expect(s, name, TG18_SAVE_TOO_SHORT);
    }
    for (size_t more = 0; more <= MORE; more += MORE) {
        relend(s, &s->bytes, right->bytes + more);
        expect(s, name, TG18_DONE);
        if (memcmp(s->bytes.at, right->at, right->bytes) != 0 || *(const uint64_t *)s->wide.at != right->bytes) {
            fail("another session, or another length");
        }
        check_behind(s, right->bytes);
    }
}

static void try_resumes(struct stage *s, const char *name, const struct lent *right) {
    const size_t others[] = {0, 1, 57, 1109, right->bytes - AN_EVENT, right->bytes - 1, right->bytes + 1,
                             right->bytes + AN_EVENT};
    fill_any(&s->state, 3);
    keep_all(s);
    for (size_t i = 0; i < sizeof others / sizeof *others; i++) {
        relend(s, &s->bytes, others[i]);
        memcpy(s->bytes.at, right->at, others[i] < right->bytes ? others[i] : right->bytes);
        expect(s, name, TG18_BAD_SAVE);
        check_kept(s);
    }
    relend(s, &s->bytes, right->bytes);
    memcpy(s->bytes.at, right->at, right->bytes);
    expect(s, name, TG18_DONE);
    check_behind(s, 0);
}

void test_live_sessions(void) {
    for (int edge = AFTER_GUARD; edge <= BEFORE_GUARD; edge++) {
        struct stage s = stage_made((enum edge)edge);
        struct lent right = lend(TG18_SAVE_MOST, AFTER_GUARD);
        for (int i = 0; i < MEMORIES; i++) {
            fill_any(&s.unit.memory[i], 90 + (uint64_t)i);
        }
        session_begun(&s);
        const struct tg18_memories memories = memories_of(&s.unit);
        uint64_t written = 0;
        if (tg18_save(state_of(&s), &memories, right.at, right.bytes, &written) != TG18_DONE) {
            fail("no session");
        }
        right.bytes = (size_t)written;
        try_saves(&s, "save", &right);
        try_resumes(&s, "resume", &right);
        try_saves(&s, "save scrubbed", &right);
        try_resumes(&s, "resume scrubbed", &right);
        try_saves(&s, "save", &right);
        stage_given_back(&s);
    }
}

// ---- addresses and sizes

static int is_size(uint32_t size) { return size == 1 || size == 2 || size == 4; }

static void try_address(struct stage *s, uint32_t address) {
    s->address = address;
    for (s->size = 0; s->size <= 5; s->size++) {
        now_at("live, address %x, size %u, %s", address, s->size, edge_names[s->edge]);
        uint32_t written = call_checked(s, named("write")), read = call_checked(s, named("read"));
        if ((written == TG18_BAD_SIZE) != !is_size(s->size) || read != (is_size(s->size) ? TG18_DONE : TG18_BAD_SIZE)) {
            fail("a write's refusal is %u, a read's %u", written, read);
        }
    }
    if (call_checked(s, named("peek8")) != TG18_DONE || call_checked(s, named("peek32")) != TG18_DONE) {
        fail("a peek is refused");
    }
    uint32_t low;
    memcpy(&low, s->word.at, sizeof low);
    s->address++;
    if (call_checked(s, named("peek8")) == TG18_DONE && s->byte.at[0] != (uint8_t)(low >> 8)) {
        fail("peek8 and peek32 differ");
    }
}

void test_live_addresses(void) {
    for (int edge = AFTER_GUARD; edge <= BEFORE_GUARD; edge++) {
        struct stage s = stage_made((enum edge)edge);
        for (int place = 0; place < PLACES; place++) {
            for (uint32_t address = places[place] - 8; address != places[place] + 9; address++) {
                try_address(&s, address);
            }
        }
        for (uint32_t i = 0; i < REGISTERS; i++) {
            for (uint32_t byte = 0; byte < 4; byte++) {
                try_address(&s, registers[i] + byte);
            }
        }
        stage_given_back(&s);
    }
}

// ---- blocks

enum { STRAY_PAGE = 65536 };

static int is_register(uint32_t address) {
    return (address >= GPIO_END && address < 0xC1000000) || (address >= 0xD0000000 && address < 0xD1000000) ||
           (address >= 0xFF000000 && address < REGISTERS_END);
}

// All in one memory, or beside memories and registers in one of the Rust device's pages for what is stray.
static uint32_t is_whole(uint32_t address, size_t bytes) {
    static const uint32_t bases[] = {FLASH_BASE, SRAM_BASE, GPIO_BASE};
    for (int i = RAM; i <= GPIO; i++) {
        if (address - bases[i] < memory_bytes[i]) {
            return address - bases[i] + bytes <= memory_bytes[i];
        }
    }
    return !is_register(address) && address % STRAY_PAGE + bytes <= STRAY_PAGE;
}

static int is_memory(uint32_t address) {
    return address - FLASH_BASE < TG18_RAM_BYTES || address - SRAM_BASE < TG18_SRAM_BYTES ||
           address - GPIO_BASE < TG18_GPIO_BYTES;
}

// Each byte is the one that peek8 says.
static void check_block(struct stage *s, uint32_t address) {
    s->address = address;
    now_at("live, block of %zu at %x, %s", s->bytes.bytes, address, edge_names[s->edge]);
    uint32_t refusal = call_checked(s, named("read block")), whole = *(const uint32_t *)s->word.at;
    if (refusal != TG18_DONE || whole != is_whole(address, s->bytes.bytes)) {
        fail("refusal %u, whole %u", refusal, whole);
    }
    for (size_t i = 0; i < s->bytes.bytes; i += 1 + i / 50) {
        s->address = address + (uint32_t)i;
        if (call_checked(s, named("peek8")) != TG18_DONE || s->byte.at[0] != s->bytes.at[i]) {
            fail("byte %zu is another than peek8's", i);
        }
    }
}

// Bytes that are laid down and read back: those that lie in a memory are the same.
static void try_block(struct stage *s, uint32_t address, size_t bytes) {
    relend(s, &s->bytes, bytes);
    check_block(s, address);
    relend(s, &s->bytes, bytes);
    s->address = address;
    now_at("live, poke of %zu at %x, %s", bytes, address, edge_names[s->edge]);
    keep(&s->bytes);
    if (call_checked(s, named("poke")) != TG18_DONE || !is_kept(&s->bytes)) {
        fail("refused, or what was to be laid has changed");
    }
    if (call_checked(s, named("read block")) != TG18_DONE) {
        fail("refused");
    }
    if (is_memory(address) && is_whole(address, bytes) && !is_kept(&s->bytes)) {
        fail("what lies in one memory was not laid there");
    }
}

// Registers near the places hold something; what is stray is refused.
static void words_laid(struct stage *s) {
    for (int place = 0; place < PLACES; place++) {
        for (s->address = places[place] - 8; s->address != places[place] + 8; s->address += 4) {
            s->value = 0x01234567 * (s->address / 4);
            call_checked(s, named("write"));
        }
    }
}

void test_live_blocks(void) {
    static const size_t sizes[] = {0, 1, 2, 3, 7, 8, 9, 4095, 4096, 4097};
    for (int edge = AFTER_GUARD; edge <= BEFORE_GUARD; edge++) {
        struct stage s = stage_made((enum edge)edge);
        words_laid(&s);
        for (int place = 0; place < PLACES; place++) {
            for (size_t i = 0; i < sizeof sizes / sizeof *sizes; i++) {
                try_block(&s, places[place] - (uint32_t)sizes[i], sizes[i]);
                try_block(&s, places[place] - (uint32_t)(sizes[i] / 2), sizes[i]);
                try_block(&s, places[place], sizes[i]);
            }
        }
        try_block(&s, FLASH_BASE, TG18_RAM_BYTES);
        try_block(&s, 0xFFFFFFFE, 5);
        stage_given_back(&s);
    }
}

// ---- doubles and keys

static const uint64_t numbers[] = {
    0, 1, 0x000FFFFFFFFFFFFF, 0x3F50000000000000, 0x3F4FFFFFFFFFFFFF, 0x3FF0000000000000, 0x4090000000000000,
    0x4090000000000001, 0x4140000000000000, 0x4140000000000001, 0x41E0000000000000, 0x7FEFFFFFFFFFFFFF,
    0x7FF0000000000000, 0x7FF0000000000001, 0x7FF8000000000000, 0x7FFFFFFFFFFFFFFF, 0x8000000000000000,
    0x8000000000000001, 0xBFF0000000000000, 0xC140000000000000, 0xFFF0000000000000, 0xFFF8000000000000,
    0xFFFFFFFFFFFFFFFF,
};

// Bits rise as numbers do where the sign bit is clear; 2,097,152.0 is the last good time, 1/1024 to 1024 are turbos.
static uint32_t time_refusal(uint64_t bits) { return bits <= 0x4140000000000000 ? TG18_DONE : TG18_BAD_TIME; }

static uint32_t turbo_refusal(uint64_t bits) {
    return bits >= 0x3F50000000000000 && bits <= 0x4090000000000000 ? TG18_DONE : TG18_BAD_TURBO;
}

static void expect_number(struct stage *s, const char *name, uint64_t bits, uint32_t expected) {
    s->number = double_of(bits);
    tg18_fresh(state_of(s));
    now_at("live, %s, bits %lx, key %u", name, (unsigned long)bits, s->key);
    uint32_t refusal = call_checked(s, named(name));
    if (refusal != expected) {
        fail("refusal %u, not %u", refusal, expected);
    }
}

void test_live_numbers(void) {
    static const uint32_t keys[] = {0, 1, 2, 3, 4, 5, 0x100, 0x80000000, 0xFFFFFFFF};
    struct stage s = stage_made(BEFORE_GUARD);
    for (size_t i = 0; i < sizeof numbers / sizeof *numbers; i++) {
        expect_number(&s, "advance", numbers[i], time_refusal(numbers[i]));
        expect_number(&s, "turbo", numbers[i], turbo_refusal(numbers[i]));
        for (size_t k = 0; k < sizeof keys / sizeof *keys; k++) {
            s.key = keys[k];
            uint32_t expected = s.key > 2 ? TG18_BAD_KEY : time_refusal(numbers[i]);
            expect_number(&s, "hold until", numbers[i], expected);
            expect_number(&s, "press", numbers[i], expected);
            expect_number(&s, "live key", numbers[i], s.key > 2 ? TG18_BAD_KEY : TG18_DONE);
        }
    }
    stage_given_back(&s);
}

// ---- sound events

static void events_made(struct stage *s, uint32_t count) {
    static const uint32_t controls[2] = {0, 0x6000};
    tg18_fresh(state_of(s));
    s->size = 4;
    for (uint32_t i = 0; i < count; i++) {
        s->address = i == 0 ? SOUND_COMPARE : SOUND_CONTROL;
        s->value = i == 0 ? 100 : controls[i % 2];
        call_checked(s, named("write"));
    }
}

// As many as wait or as there are records are taken, and later records stay.
static void try_events(struct stage *s, uint32_t made, size_t room) {
    struct tg18_unit *state = state_of(s);
    static struct tg18_event all[257];
    size_t waiting = 0;
    events_made(s, made);
    while (waiting < 257 && tg18_take_events(state, &all[waiting], 1) == 1) {
        waiting++;
    }
    events_made(s, made);
    relend(s, &s->records, room * sizeof(struct tg18_event));
    keep(&s->records);
    now_at("live, %zu events and %zu records, %s", waiting, room, edge_names[s->edge]);
    size_t taken = tg18_take_events(state, (struct tg18_event *)s->records.at, room);
    size_t bytes = taken * sizeof(struct tg18_event);
    if (taken != (waiting < room ? waiting : room) || memcmp(s->records.at, all, bytes) != 0) {
        fail("%zu were taken, or others", taken);
    }
    if (room > taken && memcmp(s->records.at + bytes, s->records.copy + bytes, s->records.bytes - bytes) != 0) {
        fail("later records have changed");
    }
    count_case();
}

void test_live_events(void) {
    static const size_t rooms[] = {0, 1, 2, 127, 255, 256, 257, 300};
    static const uint32_t made[] = {0, 1, 3, 200, 600};
    for (int edge = AFTER_GUARD; edge <= BEFORE_GUARD; edge++) {
        struct stage s = stage_made((enum edge)edge);
        for (size_t i = 0; i < sizeof rooms / sizeof *rooms; i++) {
            for (size_t j = 0; j < sizeof made / sizeof *made; j++) {
                try_events(&s, made[j], rooms[i]);
            }
        }
        stage_given_back(&s);
    }
}

// ---- units of any bytes

// Random, or all alike, or a fresh one with a piece that is random.
static void any_state(struct stage *s, uint64_t *chance) {
    struct lent piece = s->state;
    switch (below(chance, 4)) {
    case 0:
        memset(s->state.at, (uint8_t)any(chance), s->state.bytes);
        return;
    case 1:
        tg18_fresh(state_of(s));
        piece.at += below(chance, s->state.bytes);
        piece.bytes = below(chance, (size_t)(s->state.at + s->state.bytes - piece.at) + 1);
        break;
    default:
        break;
    }
    fill_any(&piece, any(chance));
}

static void any_arguments(struct stage *s, uint64_t *chance) {
    static const size_t lengths[] = {0, 1, 5, TG18_OUT_BYTES(1, 2), 4099, TG18_SCREEN_BYTES};
    s->address = any_address(chance);
    s->size = (uint32_t)below(chance, 6);
    s->value = (uint32_t)any(chance);
    s->key = (uint32_t)below(chance, 6);
    s->number = double_of(below(chance, 3) ? any_time(chance) : numbers[below(chance, 23)]);
    if (below(chance, 8) == 0) {
        relend(s, &s->bytes, lengths[below(chance, 6)]);
        relend(s, &s->records, below(chance, 300) * sizeof(struct tg18_event));
    }
}

void test_live_units(void) {
    for (int edge = AFTER_GUARD; edge <= BEFORE_GUARD; edge++) {
        struct stage s = stage_made((enum edge)edge);
        uint64_t chance = 77 + (uint64_t)edge;
        for (int i = 0; i < MEMORIES; i++) {
            fill_any(&s.unit.memory[i], 80 + (uint64_t)i);
        }
        for (unsigned i = 0; i < 30000; i++) {
            const struct live_call *call = &live_calls[below(&chance, LIVE_CALLS)];
            if (below(&chance, 4) == 0) {
                any_state(&s, &chance);
            }
            any_arguments(&s, &chance);
            now_at("live, any unit %u, %s, address %x, size %u", i, call->name, s.address, s.size);
            call_checked(&s, call);
        }
        stage_given_back(&s);
    }
}

// ---- memories and slices at odd addresses

static void odd(struct lent *lent, size_t bytes) {
    *lent = lend(bytes + 3, BEFORE_GUARD);
    fill_any(lent, bytes);
    lent->bytes = bytes;
}

// The same scripts over memories at odd addresses and over others, by live calls.
void test_live_odd(void) {
    struct unit even = unit_made(), uneven;
    static uint8_t desk[16384], answers[16384], rgb[TG18_SCREEN_BYTES];
    static struct tg18_unit states[2];
    struct lent out = {.mapped = NULL};
    odd(&out, sizeof answers);
    for (int i = 0; i < MEMORIES; i++) {
        odd(&uneven.memory[i], memory_bytes[i]);
        memcpy(even.memory[i].at, uneven.memory[i].at, memory_bytes[i]);
    }
    const struct tg18_memories m[2] = {memories_of(&even), memories_of(&uneven)};
    for (uint64_t i = 0; i < 400; i++) {
        uint64_t chance = i;
        struct script script = script_at(desk + i % 8);
        script_any(&script, &chance, 60);
        now_at("live, odd addresses, script %u", (unsigned)i);
        tg18_fresh(&states[0]);
        tg18_fresh(&states[1]);
        do_script(&states[0], &m[0], script.at, answers, rgb);
        size_t bytes = script_length(&script);
        uint32_t refusal = tg18_continue_script(&states[1], &m[1], script.at, bytes, out.at, out.bytes);
        if (refusal != TG18_DONE || memcmp(answers, out.at, out_length(&script)) != 0) {
            fail("refusal %u, or other answers", refusal);
        }
        count_case();
    }
    for (int i = 0; i < MEMORIES; i++) {
        if (memcmp(even.memory[i].at, uneven.memory[i].at, memory_bytes[i]) != 0) {
            fail("another %s", memory_names[i]);
        }
    }
}
