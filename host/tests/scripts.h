// Scripts for the tests: laid out in place, by hand or at random.
#ifndef SCRIPTS_H
#define SCRIPTS_H

#include "addresses.h"
#include <stddef.h>
#include <stdint.h>

struct script {
    uint8_t *at;
    uint32_t presses, steps;
};

struct script script_at(uint8_t *at);
// before the first step
void press(struct script *script, uint8_t key, uint64_t time_bits);
void step(struct script *script, uint8_t kind, uint8_t size, uint32_t address, uint64_t value);
void put_word(struct script *script, uint32_t address, uint32_t value);
size_t script_length(const struct script *script);
size_t out_length(const struct script *script);

// ---- transactions of the flash, and of the panel

void flash_begin(struct script *script, uint8_t command);
void flash_send(struct script *script, uint8_t byte);
void flash_end(struct script *script);
void flash_enable(struct script *script);
void flash_begin_at(struct script *script, uint8_t command, uint32_t address);
void panel_command(struct script *script, uint8_t command);
void panel_window(struct script *script, uint8_t command, uint32_t low, uint32_t high);
void picture(struct script *script, uint32_t source);

// ---- at random

// Where a memory, the flash's array or the registers begin or end.
enum { PLACES = 16 };
extern const uint32_t places[PLACES];

// Registers that do something, and two that only store.
enum { REGISTERS = 36 };
extern const uint32_t registers[REGISTERS];

uint64_t any(uint64_t *state);               // splitmix64
uint64_t below(uint64_t *state, uint64_t n); // 0 to n - 1
uint32_t any_address(uint64_t *state);
uint64_t any_time(uint64_t *state); // the bits of one that is mostly a good one: 2^-8 to below 2^6 seconds
// At least `steps` of them, of all kinds, with addresses near those places; some presses before them.
void script_any(struct script *script, uint64_t *state, uint32_t steps);

#endif
