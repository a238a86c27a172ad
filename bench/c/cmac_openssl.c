// OpenSSL's CMAC through EVP_MAC.
#include "cmac.h"

#include <openssl/core_names.h>
#include <openssl/evp.h>
#include <openssl/params.h>
#include <stdlib.h>

const char cmac_name[] = "OpenSSL";

static void must(int done) {
    if (done != 1)
        abort();
}

static void set_key(void *context, const uint8_t *key) {
    must(EVP_MAC_init(context, key, 16, NULL));
}

// Without a key, init makes the context ready for another message under the same one.
static void tag(void *context, const uint8_t *message, size_t length, uint8_t *tag_bytes) {
    size_t made;
    must(EVP_MAC_init(context, NULL, 0, NULL));
    must(EVP_MAC_update(context, message, length));
    must(EVP_MAC_final(context, tag_bytes, &made, 16));
}

struct tree_cmac make_cmac(void) {
    char cipher[] = "AES-128-CBC";
    OSSL_PARAM parameters[] = {
        OSSL_PARAM_construct_utf8_string(OSSL_MAC_PARAM_CIPHER, cipher, 0),
        OSSL_PARAM_construct_end(),
    };
    EVP_MAC *method = EVP_MAC_fetch(NULL, "CMAC", NULL);
    EVP_MAC_CTX *context = EVP_MAC_CTX_new(method);
    if (context == NULL)
        abort();
    must(EVP_MAC_CTX_set_params(context, parameters));
    EVP_MAC_free(method);
    return (struct tree_cmac){context, set_key, tag};
}
