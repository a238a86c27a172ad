#include "json.h"
#include "pat.h"
#include "text.h"

#include <inttypes.h>
#include <stdio.h>
#include <string.h>

static void put_name(const char *name) {
    printf(", \"%s\": ", name);
}

void json_open(const char *command, int status) {
    const char *quote = command == NULL ? "" : "\"";
    printf("{\"command\": %s%s%s, \"status\": %d, \"accepted\": %s", quote,
           command == NULL ? "null" : command, quote, status, status == 0 ? "true" : "false");
}

void json_number(const char *name, uint64_t number) {
    put_name(name);
    printf("%" PRIu64, number);
}

void json_null(const char *name) {
    put_name(name);
    fputs("null", stdout);
}

void json_truth(const char *name, bool is_so) {
    put_name(name);
    fputs(is_so ? "true" : "false", stdout);
}

void json_string(const char *name, const char *text) {
    json_text(name, (const uint8_t *)text, strlen(text));
}

void json_text(const char *name, const uint8_t *text, size_t length) {
    put_name(name);
    putchar('"');
    for (size_t k = 0; k < length;) {
        size_t size = utf8_size(text + k, length - k);
        if (size == 0)
            fputs("\\ufffd", stdout);
        else if (is_control(text + k))
            printf("\\u%04x", text[k + size - 1]);
        else if (text[k] == '"' || text[k] == '\\')
            printf("\\%c", text[k]);
        else
            fwrite(text + k, 1, size, stdout);
        k += size == 0 ? 1 : size;
    }
    putchar('"');
}

void json_hex(const char *name, const uint8_t *bytes, size_t length) {
    put_name(name);
    putchar('"');
    print_hex(bytes, length);
    putchar('"');
}

void json_list_open(const char *name) {
    put_name(name);
    putchar('[');
}

void json_list_close(void) {
    putchar(']');
}

void json_state(uint64_t depth, uint64_t root, uint64_t reserved) {
    json_number("depth", depth);
    json_number("blocks", (uint64_t)1 << depth);
    json_number("root_nonce", root);
    json_number("reserved_nonce", reserved);
    json_number("changes", reserved / depth);
    json_number("card_bytes", pat_card_bytes(depth));
}

void json_aes_calls(uint64_t depth) {
    put_name("aes_calls");
    printf("{\"read\": %zu, \"write\": %zu, \"check\": %zu, \"wipe\": %zu}", PAT_AES_READ(depth),
           PAT_AES_WRITE(depth), PAT_AES_CHECK(depth), PAT_AES_WIPE(depth));
}

void json_ranges(const char *name, const uint8_t *ranges, size_t count) {
    json_list_open(name);
    for (size_t k = 0; k < count; k++)
        printf("%s[%" PRIu32 ", %" PRIu32 "]", k == 0 ? "" : ", ", pat_range_start(ranges, k),
               pat_range_length(ranges, k));
    json_list_close();
}

void json_close(void) {
    fputs("}\n", stdout);
}
