// How deep the port's stack goes: a stack full of one byte, scripts of every kind in three ways, and the lowest place
// that has changed. It fails if an eighth of the scrubbed calls' stack is less.
#include "addresses.h"
#include "lent.h"
#include "live_steps.h"
#include "scripts.h"
#include "scrubbed.h"
#include "tg18.h"
#include <stdio.h>
#include <string.h>

enum { UNTOUCHED = 0xA7, ROOM = 1048576, SCRIPTS = 1500, SESSIONS = 60 };

struct turn {
    struct tg18_unit state;
    struct unit unit;
    struct lent script, out, rgb, session;
    size_t script_bytes;
    uint32_t refusal;
};

static void whole(void *argument) {
    struct turn *turn = argument;
    turn->refusal = run_over(tg18_run_script, &turn->unit, &turn->script, turn->script_bytes, &turn->out);
}

static void continued(void *argument) {
    struct turn *turn = argument;
    const struct tg18_memories memories = memories_of(&turn->unit);
    turn->refusal = tg18_continue_script(&turn->state, &memories, turn->script.at, turn->script_bytes, turn->out.at,
                                         turn->out.bytes);
}

static void live(void *argument) {
    struct turn *turn = argument;
    const struct tg18_memories memories = memories_of(&turn->unit);
    uint32_t whole;
    do_script(&turn->state, &memories, turn->script.at, turn->out.at, turn->rgb.at);
    call_the_rest(&turn->state, &memories, FLASH_BASE, turn->rgb.at);
    tg18_poke(&turn->state, &memories, FLASH_BASE, turn->script.at, turn->script_bytes);
    tg18_read_block(&turn->state, &memories, FLASH_BASE, turn->out.at, turn->out.bytes, &whole);
}

// The unit goes on by a script, and is saved and resumed.
static void sessions(void *argument) {
    struct turn *turn = argument;
    const struct tg18_memories memories = memories_of(&turn->unit);
    uint64_t written;
    continued(turn);
    turn->refusal |= tg18_save(&turn->state, &memories, turn->session.at, turn->session.bytes, &written);
    turn->refusal |= tg18_resume(&turn->state, &memories, turn->session.at, (size_t)written);
}

static size_t depth_of(const struct lent *stack) {
    size_t i = 0;
    while (i < stack->bytes && stack->at[i] == UNTOUCHED) {
        i++;
    }
    return stack->bytes - i;
}

// Bytes that the deepest of many scripts goes; 0 if one is refused.
static size_t deepest(void (*work)(void *), int scripts, struct turn *turn, struct lent *stack) {
    uint64_t state = 1;
    memset(stack->at, UNTOUCHED, stack->bytes);
    tg18_fresh(&turn->state);
    for (int i = 0; i < scripts; i++) {
        struct script script = script_at(turn->script.at);
        script_any(&script, &state, 100);
        turn->script_bytes = script_length(&script);
        tg18_call_on(work, turn, stack->at + stack->bytes, TG18_XMM);
        if (turn->refusal != TG18_DONE) {
            return 0;
        }
    }
    return depth_of(stack);
}

static const struct {
    const char *name;
    void (*work)(void *);
    int scripts;
} ways[] = {{"scripts", whole, SCRIPTS},
            {"scripts that continue a unit", continued, SCRIPTS},
            {"scripts by live calls", live, SCRIPTS},
            {"scripts that continue a unit, saved and resumed,", sessions, SESSIONS}};

int main(void) {
    static struct turn turn;
    struct lent stack = lend(ROOM, AFTER_GUARD);
    int good = 1;
    turn.unit = unit_made();
    turn.script = lend(65536, AFTER_GUARD);
    turn.out = lend(131072, AFTER_GUARD);
    turn.rgb = lend(TG18_SCREEN_BYTES, AFTER_GUARD);
    turn.session = lend(TG18_SAVE_MOST, AFTER_GUARD);
    for (size_t i = 0; i < sizeof ways / sizeof *ways; i++) {
        size_t depth = deepest(ways[i].work, ways[i].scripts, &turn, &stack);
        int enough = depth > 0 && 8 * depth <= TG18_STACK_BYTES;
        printf("%s depth: %d %s go %zu bytes deep; the scrubbed stack has %d\n", enough ? "ok" : "FAILED",
               ways[i].scripts, ways[i].name, depth, TG18_STACK_BYTES);
        good &= enough;
    }
    return !good;
}
