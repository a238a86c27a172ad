// Blocks as text and as hex.
#ifndef TEXT_H
#define TEXT_H

#include <limits.h>
#include <stdbool.h>
#include <stddef.h>
#include <stdint.h>

// The size of the UTF-8 character at the start of the bytes, 0 where there is none.
size_t utf8_size(const uint8_t *bytes, size_t length);

// Whether the character is one that steers a terminal.
bool is_control(const uint8_t *character);

// Copies a text so that it can be shown on one line: control characters, bytes that are not UTF-8
// and backslashes become \n, \t, \xNN and \\. What does not fit is left off.
enum { LONGEST_SHOWN = 4 * PATH_MAX }; // of a file's name
void escape(char *shown, size_t limit, const char *text);

// Whether the bytes are text: UTF-8 with no control characters but tab and newline.
bool is_text(const uint8_t *bytes, size_t length);

// The length of a block without the zeros at its end.
size_t unpadded(const uint8_t *block);

// The name of a file that could be opened, on standard output.
void print_name(const char *name);

// Two digits for each byte, on standard output.
void print_hex(const uint8_t *bytes, size_t length);

#endif
