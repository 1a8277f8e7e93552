// A list of what the Rust device did, on standard input: lines of words with one space between them. A line that ends
// with a backslash goes on in the next one.
#ifndef LIST_H
#define LIST_H

#include "lent.h"

extern uint32_t line_number;

// What cannot be read ends the program, which is named so.
void list_read(const char *program);
// The next line without its end; NULL behind the last.
char *next_line(void);
// What stands before the next space or the end of the line, and goes on behind it.
char *word(char **at);
uint64_t number(char **at, int base);
// Bytes in hex; none are -.
struct lent hex_bytes(char **at);

// From 0 each byte makes it 31 times itself and the byte, modulo 2^64.
uint64_t digest(const uint8_t *at, size_t bytes);

#endif
