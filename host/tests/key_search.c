// The searcher holds the key nowhere: it has a table that gives for each byte its place in the key, and counts how
// many bytes in a row have places in a row. A byte stands at one place only, so that is exact. It reads memory in
// place, by volatile, one byte at a time.
#define _GNU_SOURCE
#include "key_search.h"
#include <fcntl.h>
#include <stdio.h>
#include <stdlib.h>
#include <string.h>
#include <unistd.h>

// Volatile, so that no compiler works the key out and stores it with its constants.
static volatile uint32_t key_seed = 41;

uint8_t key_byte(uint32_t i) { return (uint8_t)((i * 77 + key_seed) ^ 0x5C); }

static volatile uint8_t place_of[256]; // 1 + place, 0 if the key has no such byte

static void places_made(void) {
    for (uint32_t i = 0; i < KEY_BYTES; i++) {
        place_of[key_byte(i)] = (uint8_t)(i + 1);
    }
}

static void note(struct found *found, const uint8_t *at, size_t run, const char *where) {
    if (run > found->longest) {
        found->longest = run;
    }
    if (run < ROW) {
        return;
    }
    if (found->rows < MOST_FOUND) {
        found->row[found->rows].at = at;
        found->row[found->rows].bytes = run;
        snprintf(found->row[found->rows].where, sizeof found->row[0].where, "%s", where);
    }
    found->rows++;
}

void search_part(struct found *found, const struct part *part) {
    const volatile uint8_t *bytes = part->at;
    size_t run = 0;
    uint8_t last = 0;
    places_made();
    for (size_t i = 0; i < part->bytes; i++) {
        uint8_t place = place_of[bytes[i]];
        if (run > 0 && place != last + 1) {
            note(found, part->at + i - run, run, part->name);
            run = 0;
        }
        run += place != 0;
        last = place;
    }
    if (run > 0) {
        note(found, part->at + part->bytes - run, run, part->name);
    }
    found->searched += part->bytes;
}

// ---- the mappings

static char maps[1 << 18];

static void maps_read(void) {
    int file = open("/proc/self/maps", O_RDONLY | O_CLOEXEC);
    size_t have = 0;
    ssize_t got = 1;
    while (file >= 0 && got > 0 && have < sizeof maps - 1) {
        got = read(file, maps + have, sizeof maps - 1 - have);
        have += got > 0 ? (size_t)got : 0;
    }
    maps[have] = 0;
    if (have == 0 || have == sizeof maps - 1) {
        printf("FAILED key: /proc/self/maps cannot be read\n");
        exit(1);
    }
    close(file);
}

static void search_around(struct found *found, struct part part, const struct part *aside, size_t asides) {
    const uint8_t *end = part.at + part.bytes;
    for (size_t i = 0; i < asides; i++) {
        const uint8_t *from = aside[i].at, *to = aside[i].at + aside[i].bytes;
        if (from < end && to > part.at) {
            const size_t before = from > part.at ? (size_t)(from - part.at) : 0;
            search_around(found, (struct part){part.name, part.at, before}, aside, asides);
            search_around(found, (struct part){part.name, to, to < end ? (size_t)(end - to) : 0}, aside, asides);
            return;
        }
    }
    search_part(found, &part);
}

// A line is FROM-TO RIGHTS OFFSET DEVICE INODE and then a name, if it has one.
static void search_line(struct found *found, const char *line, const struct part *aside, size_t asides) {
    char *rest;
    const uint8_t *from = (const uint8_t *)strtoul(line, &rest, 16);
    const uint8_t *to = (const uint8_t *)strtoul(rest + 1, &rest, 16);
    if (rest[1] != 'r') {
        return;
    }
    const char *name = strchr(line, '[');
    const char *file = strchr(line, '/');
    while (file != NULL && strchr(file + 1, '/') != NULL) {
        file = strchr(file + 1, '/');
    }
    name = name != NULL ? name : file != NULL ? file + 1 : "no name";
    // The kernel's own pages for the clock: some of them answer a read with a fault.
    if (strncmp(name, "[vvar", 5) == 0 || strncmp(name, "[vsyscall", 9) == 0) {
        size_t have = strlen(found->skipped);
        snprintf(found->skipped + have, sizeof found->skipped - have, " %s", name);
        return;
    }
    search_around(found, (struct part){name, from, (size_t)(to - from)}, aside, asides);
}

void search_all(struct found *found, const struct part *aside, size_t asides) {
    maps_read();
    for (char *line = maps; *line != 0;) {
        char *end = strchr(line, '\n');
        *end = 0;
        search_line(found, line, aside, asides);
        line = end + 1;
    }
}
