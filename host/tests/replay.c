// Runs the scripts of a list on standard input in four ways, from memories that are zero, and compares what is
// returned and what is left with the Rust device's. No live call refuses a script as a whole, so live calls do only
// those that are not refused. `oracle/script/compare -l` writes the list, replay.list; a line of it is
//     FAMILY OUT RETURNED ANSWERS RAM SRAM GPIO FRAMEBUFFER SCRIPT
// OUT is the length of the slice for the answers, whose byte i is 37 * i before; ANSWERS and the next four are
// digests of all of it and of the memories afterwards, in hex, as is the script; one of no bytes is -.
#include "lent.h"
#include "list.h"
#include "live_steps.h"
#include "tg18.h"
#include <stdio.h>
#include <string.h>

enum { ENTRIES = 4 };

struct line {
    const char *family;
    struct lent script, out;
    uint32_t returned;
    uint64_t answers, memory[MEMORIES];
};

static runner *const entries[ENTRIES] = {tg18_run_script, tg18_run_script_scrubbed, run_continued, run_live};
static const char *const entry_names[ENTRIES] = {"plain", "scrubbed", "continued", "live"};
static uint32_t steps_run;

// ---- reading

static struct line line_of(char *text) {
    struct line line;
    line.family = word(&text);
    line.out = lend(number(&text, 10), BEFORE_GUARD);
    line.returned = (uint32_t)number(&text, 10);
    line.answers = number(&text, 16);
    for (int i = 0; i < MEMORIES; i++) {
        line.memory[i] = number(&text, 16);
    }
    line.script = hex_bytes(&text);
    return line;
}

// ---- comparing

static int same(const struct line *line, int entry, const char *what, uint64_t here, uint64_t rust) {
    if (here != rust) {
        printf("FAILED replay: line %u (%s), %s: %s %lx, the Rust's %lx\n", line_number, line->family,
               entry_names[entry], what, here, rust);
    }
    return here == rust;
}

static int replayed(struct line *line, struct unit *unit, int entry) {
    for (size_t i = 0; i < line->out.bytes; i++) {
        line->out.at[i] = (uint8_t)(37 * i);
    }
    uint32_t returned = run_over(entries[entry], unit, &line->script, line->script.bytes, &line->out);
    int good = same(line, entry, "returned", returned, line->returned);
    good &= same(line, entry, "digest of the answers", digest(line->out.at, line->out.bytes), line->answers);
    for (int i = 0; i < MEMORIES; i++) {
        struct lent *here = &unit->memory[i];
        good &= same(line, entry, memory_names[i], digest(here->at, here->bytes), line->memory[i]);
        memset(here->at, 0, here->bytes);
    }
    return good;
}

// Of a script that was not refused: presses and steps, as its answers count them.
static uint32_t answers_in(const struct line *line) {
    uint32_t count = 0;
    if (line->returned == TG18_DONE) {
        memcpy(&count, line->out.at, sizeof count);
    }
    return count;
}

int main(void) {
    struct unit unit = unit_made();
    int good = 1;
    list_read("replay");
    for (char *text = next_line(); text != NULL && good; text = next_line()) {
        struct line line = line_of(text);
        for (int entry = 0; entry < ENTRIES; entry++) {
            good &= (entries[entry] == run_live && line.returned != TG18_DONE) || replayed(&line, &unit, entry);
        }
        steps_run += good ? answers_in(&line) : 0;
        give_back(&line.script);
        give_back(&line.out);
    }
    if (good) {
        printf("ok replay: scripts: %u, presses and steps in them: %u; "
               "plain, scrubbed, continued and live calls leave what the Rust device left\n",
               line_number, steps_run);
    }
    return !good;
}
