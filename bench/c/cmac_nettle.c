// Nettle's CMAC. With NETTLE_FAT_OVERRIDE=vendor:amd in the environment it does without AES
// instructions.
#include "cmac.h"

#include <nettle/cmac.h>
#include <stdlib.h>

const char cmac_name[] = "Nettle";

static void set_key(void *context, const uint8_t *key) {
    cmac_aes128_set_key(context, key);
}

static void tag(void *context, const uint8_t *message, size_t length, uint8_t *tag_bytes) {
    cmac_aes128_update(context, length, message);
    cmac_aes128_digest(context, CMAC128_DIGEST_SIZE, tag_bytes);
}

struct tree_cmac make_cmac(void) {
    void *context = malloc(sizeof(struct cmac_aes128_ctx));
    if (context == NULL)
        abort();
    return (struct tree_cmac){context, set_key, tag};
}
