#include "text.h"
#include "pat.h"

#include <stdio.h>
#include <string.h>

// The size that a first byte announces.
static size_t announced(uint8_t first) {
    if (first < 0x80)
        return 1;
    if (first < 0xc0 || first >= 0xf8)
        return 0;
    return first < 0xe0 ? 2 : first < 0xf0 ? 3 : 4;
}

size_t utf8_size(const uint8_t *bytes, size_t length) {
    static const uint32_t least[] = {0, 0, 0x80, 0x800, 0x10000};
    size_t size = length == 0 ? 0 : announced(*bytes);
    if (size <= 1 || size > length)
        return size > length ? 0 : size;
    uint32_t character = *bytes & (0x7fu >> size);
    for (size_t k = 1; k < size; k++) {
        if ((bytes[k] & 0xc0) != 0x80)
            return 0;
        character = character << 6 | (bytes[k] & 0x3f);
    }
    bool surrogate = character >= 0xd800 && character < 0xe000;
    return character < least[size] || surrogate || character > 0x10ffff ? 0 : size;
}

bool is_control(const uint8_t *character) {
    if (character[0] == 0xc2)
        return character[1] < 0xa0;
    return *character < 0x20 || *character == 0x7f;
}

// One character, or a byte that is none, as it is shown.
static void escape_one(char *shown, size_t limit, const uint8_t *character, size_t size) {
    if (*character == '\n' || *character == '\t')
        snprintf(shown, limit, "\\%c", *character == '\n' ? 'n' : 't');
    else if (*character == '\\')
        snprintf(shown, limit, "\\\\");
    else if (size == 0 || (size == 1 && is_control(character)))
        snprintf(shown, limit, "\\x%02x", *character);
    else if (is_control(character))
        snprintf(shown, limit, "\\x%02x\\x%02x", character[0], character[1]);
    else
        snprintf(shown, limit, "%.*s", (int)size, (const char *)character);
}

void escape(char *shown, size_t limit, const char *text) {
    const uint8_t *bytes = (const uint8_t *)text;
    size_t length = strlen(text), used = 0;
    shown[0] = '\0';
    for (size_t k = 0; k < length;) {
        char one[16];
        size_t size = utf8_size(bytes + k, length - k);
        escape_one(one, sizeof one, bytes + k, size);
        if (used + strlen(one) >= limit)
            return;
        used += (size_t)snprintf(shown + used, limit - used, "%s", one);
        k += size == 0 ? 1 : size;
    }
}

bool is_text(const uint8_t *bytes, size_t length) {
    for (size_t k = 0; k < length;) {
        size_t size = utf8_size(bytes + k, length - k);
        bool layout = bytes[k] == '\t' || bytes[k] == '\n';
        if (size == 0 || (!layout && is_control(bytes + k)))
            return false;
        k += size;
    }
    return true;
}

size_t unpadded(const uint8_t *block) {
    size_t length = PAT_BLOCK_BYTES;
    while (length > 0 && block[length - 1] == 0)
        length--;
    return length;
}

void print_name(const char *name) {
    char shown[LONGEST_SHOWN];
    escape(shown, sizeof shown, name);
    fputs(shown, stdout);
}

void print_hex(const uint8_t *bytes, size_t length) {
    for (size_t k = 0; k < length; k++)
        printf("%02x", bytes[k]);
}
