// Runs the scripts of each line of a list on standard input, one after the other, from memories that are zero. After
// each but the last the session is saved and resumed: in another unit, whose bytes are anything, over memories of which
// no byte is right. Compares what is returned, answered, saved and left with the Rust device's, which went on where it
// was. `oracle/session/compare -l` writes the list, replay_session.list; a line of it is
//     FAMILY SCRIPTS RAM SRAM GPIO FRAMEBUFFER
// (how many scripts, and digests of the memories at the end, in hex), and after it for each of its scripts
//     OUT RETURNED ANSWERS SIZE HEAD SCRIPT
// OUT is the length of the slice for the answers, whose byte i is 37 * i before, and ANSWERS its digest afterwards.
// SIZE is that of the session and HEAD the digest of what comes before its memories; both are 0 after the last script.
#include "lent.h"
#include "list.h"
#include "live_steps.h"
#include "tg18.h"
#include <stdio.h>
#include <string.h>

enum { MEMORY_SECTIONS = 17862672 };
static const char *family;
static uint32_t scripts_run, steps_run, sessions;

// A unit, and its memories.
struct side {
    struct lent state;
    struct unit unit;
};

struct script {
    struct lent bytes, out;
    uint32_t returned;
    uint64_t answers, size, head;
};

// ---- reading

// The next script of the line, and what the Rust device made of it.
static struct script script_of(char **text) {
    struct script script;
    script.out = lend(number(text, 10), BEFORE_GUARD);
    script.returned = (uint32_t)number(text, 10);
    script.answers = number(text, 16);
    script.size = number(text, 10);
    script.head = number(text, 16);
    script.bytes = hex_bytes(text);
    for (size_t i = 0; i < script.out.bytes; i++) {
        script.out.at[i] = (uint8_t)(37 * i);
    }
    return script;
}

// ---- comparing

static int same(const char *what, uint64_t here, uint64_t rust) {
    if (here != rust) {
        printf("FAILED replay_session: line %u (%s): %s %lx, the Rust's %lx\n", line_number, family, what, here, rust);
    }
    return here == rust;
}

static struct side side_made(void) {
    return (struct side){lend(sizeof(struct tg18_unit), BEFORE_GUARD), unit_made()};
}

static struct tg18_unit *unit_of(const struct side *side) {
    return (struct tg18_unit *)(void *)side->state.at;
}

// Every byte of the one's memories is another than in the other's; their lengths are multiples of eight.
static void make_wrong(struct side *side, const struct side *than) {
    for (int i = 0; i < MEMORIES; i++) {
        for (size_t at = 0; at < side->unit.memory[i].bytes; at += sizeof(uint64_t)) {
            uint64_t eight;
            memcpy(&eight, than->unit.memory[i].at + at, sizeof eight);
            eight = ~eight;
            memcpy(side->unit.memory[i].at + at, &eight, sizeof eight);
        }
    }
}

static int ran(struct side *side, struct script *script) {
    struct tg18_memories memories = memories_of(&side->unit);
    uint32_t answers = 0, returned = tg18_continue_script(unit_of(side), &memories, script->bytes.at,
                                                          script->bytes.bytes, script->out.at, script->out.bytes);
    int good = same("returned", returned, script->returned);
    good &= same("digest of the answers", digest(script->out.at, script->out.bytes), script->answers);
    // presses and steps, as they are counted where the script is not refused
    if (returned == TG18_DONE) {
        memcpy(&answers, script->out.at, sizeof answers);
    }
    scripts_run++;
    steps_run += answers;
    return good;
}

// The session of the one is the other's, by way of exactly as many bytes as it has; and what the other saves are these.
static int carried(const struct side *from, struct side *to, const struct script *script) {
    struct lent saved = lend(script->size, BEFORE_GUARD), again = lend(script->size, BEFORE_GUARD);
    struct tg18_memories of = memories_of(&from->unit), over = memories_of(&to->unit);
    uint64_t written = 0;
    fill_any(&to->state, script->head);
    make_wrong(to, from);
    int good = same("saving answers", tg18_save(unit_of(from), &of, saved.at, saved.bytes, &written), TG18_DONE);
    good &= same("size of the session", written, script->size);
    good = good && same("digest of what comes before the memories", digest(saved.at, written - MEMORY_SECTIONS),
                        script->head);
    good = good && same("resuming answers", tg18_resume(unit_of(to), &over, saved.at, saved.bytes), TG18_DONE);
    good = good && same("saving again answers", tg18_save(unit_of(to), &over, again.at, again.bytes, &written),
                        TG18_DONE);
    good = good && same("what is saved again", memcmp(saved.at, again.at, saved.bytes) != 0, 0);
    sessions++;
    give_back(&saved);
    give_back(&again);
    return good;
}

static int left(struct side *side, const uint64_t memory[MEMORIES]) {
    int good = 1;
    for (int i = 0; i < MEMORIES; i++) {
        struct lent *here = &side->unit.memory[i];
        good &= same(memory_names[i], digest(here->at, here->bytes), memory[i]);
    }
    return good;
}

// A line; the two sides take turns.
static int replayed(char *text, struct side sides[2]) {
    uint64_t memory[MEMORIES];
    int at = 0, good = 1;
    family = word(&text);
    uint64_t scripts = number(&text, 10);
    for (int i = 0; i < MEMORIES; i++) {
        memory[i] = number(&text, 16);
        memset(sides[at].unit.memory[i].at, 0, sides[at].unit.memory[i].bytes);
    }
    tg18_fresh(unit_of(&sides[at]));
    for (uint64_t n = 1; n <= scripts && good; n++) {
        struct script script = script_of(&text);
        good = ran(&sides[at], &script);
        if (n < scripts && good) {
            good = carried(&sides[at], &sides[1 - at], &script);
            at = 1 - at;
        }
        give_back(&script.bytes);
        give_back(&script.out);
    }
    return good && left(&sides[at], memory);
}

int main(void) {
    struct side sides[2] = {side_made(), side_made()};
    int good = 1;
    list_read("replay_session");
    for (char *text = next_line(); text != NULL && good; text = next_line()) {
        good = replayed(text, sides);
    }
    if (good) {
        printf("ok replay_session: lines: %u, scripts: %u, presses and steps in them: %u, sessions between them: %u; "
               "they answer, hold and leave what the Rust device did\n",
               line_number, scripts_run, steps_run, sessions);
    }
    return !good;
}
