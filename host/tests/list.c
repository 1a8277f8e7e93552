#include "list.h"
#include <stdio.h>
#include <stdlib.h>
#include <string.h>
#include <unistd.h>

enum { LIST_ROOM = 1 << 20 };
static char list[LIST_ROOM], *unread = list;
static const char *name;
uint32_t line_number;

static __attribute__((noreturn)) void unreadable(const char *what) {
    printf("FAILED %s: line %u: %s cannot be read\n", name, line_number, what);
    exit(1);
}

// The list without the ends at which a line goes on; its length.
static size_t unfold(void) {
    char *to = list;
    for (const char *from = list; *from != 0;) {
        if (from[0] == '\\' && from[1] == '\n') {
            from += 2;
        } else {
            *to++ = *from++;
        }
    }
    *to = 0;
    return (size_t)(to - list);
}

void list_read(const char *program) {
    size_t have = 0;
    ssize_t got = 1;
    while (got > 0 && have < sizeof list - 1) {
        got = read(0, list + have, sizeof list - 1 - have);
        have += got > 0 ? (size_t)got : 0;
    }
    name = program;
    int is_text = got == 0 && strlen(list) == have;
    size_t length = unfold();
    if (!is_text || length == 0 || list[length - 1] != '\n') {
        printf("FAILED %s: the list is empty, too long, without its end or no text\n", name);
        exit(1);
    }
}

char *next_line(void) {
    char *line = unread;
    if (*line == 0) {
        return NULL;
    }
    char *end = strchr(line, '\n');
    *end = 0;
    unread = end + 1;
    line_number++;
    return line;
}

char *word(char **at) {
    char *begin = *at, *end = strchr(begin, ' ');
    if (*begin == 0 || end == begin) {
        unreadable("a word");
    }
    *at = end == NULL ? begin + strlen(begin) : end + 1;
    if (end != NULL) {
        *end = 0;
    }
    return begin;
}

uint64_t number(char **at, int base) {
    char *end, *digits = word(at);
    uint64_t read = strtoul(digits, &end, base);
    if (*end != 0) {
        unreadable("a number");
    }
    return read;
}

static uint8_t digit(char from) {
    static const char digits[] = "0123456789abcdef";
    const char *at = strchr(digits, from);
    if (from == 0 || at == NULL) {
        unreadable("a script");
    }
    return (uint8_t)(at - digits);
}

struct lent hex_bytes(char **at) {
    const char *text = word(at);
    size_t bytes = strcmp(text, "-") == 0 ? 0 : (strlen(text) + 1) / 2;
    struct lent read = lend(bytes, BEFORE_GUARD);
    for (size_t i = 0; i < bytes; i++) {
        read.at[i] = (uint8_t)(digit(text[2 * i]) << 4 | digit(text[2 * i + 1]));
    }
    return read;
}

// Eight zeros at once, for most of a memory is zero.
uint64_t digest(const uint8_t *at, size_t bytes) {
    const uint64_t eight = 852891037441u; // 31 to the 8th
    uint64_t h = 0;
    for (size_t i = 0; i < bytes;) {
        uint64_t next = 1;
        if (bytes - i >= sizeof next) {
            memcpy(&next, at + i, sizeof next);
        }
        h = next == 0 ? h * eight : h * 31 + at[i];
        i += next == 0 ? sizeof next : 1;
    }
    return h;
}
