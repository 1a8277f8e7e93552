// A key of 32 bytes, and the search for it in all that the process can read.
#ifndef KEY_SEARCH_H
#define KEY_SEARCH_H

#include <stddef.h>
#include <stdint.h>

enum { KEY_BYTES = 32, ROW = 8 };

// One byte of it: the program never has two of them side by side but in the script.
uint8_t key_byte(uint32_t i);

// a part of memory by its name
struct part {
    const char *name;
    const uint8_t *at;
    size_t bytes;
};

enum { MOST_FOUND = 64 };

// A row: ROW or more bytes of the key that follow each other as they do in it.
struct found {
    size_t rows;    // how many
    size_t longest; // of all that follow each other, shorter ones too
    struct {
        const uint8_t *at;
        size_t bytes;
        char where[48];
    } row[MOST_FOUND];
    size_t searched; // bytes
    char skipped[96]; // names of mappings that may not be read like others
};

// Searches one part.
void search_part(struct found *found, const struct part *part);
// Searches every readable mapping but for the parts that are set aside.
void search_all(struct found *found, const struct part *aside, size_t asides);

#endif
