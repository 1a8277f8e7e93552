// Presses and steps of scripts, done by live calls.
#ifndef LIVE_STEPS_H
#define LIVE_STEPS_H

#include "lent.h"
#include "tg18.h"

double double_of(uint64_t bits);

struct tg18_memories memories_of(const struct unit *unit);

// All of a script that is one: answers are laid out as tg18_run_script lays them. A colour is taken from the whole
// screen, for which `rgb` has room.
void do_script(struct tg18_unit *state, const struct tg18_memories *memories, const uint8_t *script, uint8_t *out,
               uint8_t rgb[TG18_SCREEN_BYTES]);

// Every live call that do_script does not make, and those that it seldom makes, at these 32 bytes. What they answer
// goes nowhere; the refusals of all are or-ed.
uint32_t call_the_rest(struct tg18_unit *state, const struct tg18_memories *memories, uint32_t address,
                       uint8_t rgb[TG18_SCREEN_BYTES]);

// Two runners from the fresh state: tg18_continue_script, and do_script of what is no refused script.
runner run_continued, run_live;

#endif
