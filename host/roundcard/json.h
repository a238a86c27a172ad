// One JSON object on standard output, name by name.
#ifndef JSON_H
#define JSON_H

#include <stdbool.h>
#include <stddef.h>
#include <stdint.h>

// Starts it with the command, null where there is none, the exit status and whether the call was
// accepted.
void json_open(const char *command, int status);

void json_number(const char *name, uint64_t number);

void json_null(const char *name);
void json_truth(const char *name, bool is_so);

// A string that ends with a zero byte, and one of some length. What is not UTF-8 in it becomes
// U+FFFD.
void json_string(const char *name, const char *text);
void json_text(const char *name, const uint8_t *text, size_t length);

void json_hex(const char *name, const uint8_t *bytes, size_t length);

// An array, whose members the caller prints.
void json_list_open(const char *name);
void json_list_close(void);

// What an anchor says of its card: depth, blocks, T, H, how many writes, wipes and lost attempts
// there were together, since each raises H by the depth, and the card's length.
void json_state(uint64_t depth, uint64_t root, uint64_t reserved);

// An object: how many AES calls each accepted call on a card of that depth makes.
void json_aes_calls(uint64_t depth);

// An array of pairs of start and length.
void json_ranges(const char *name, const uint8_t *ranges, size_t count);

void json_close(void);

#endif
