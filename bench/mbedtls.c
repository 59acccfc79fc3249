/* AES-128-GCM of mbedTLS, with a context set up anew for each node's key. */
#include "nodes.h"

#include <mbedtls/gcm.h>

void seal(const uint8_t key[KEY_LEN], uint8_t text[NODE_LEN], uint8_t tag[TAG_LEN])
{
    mbedtls_gcm_context context;
    mbedtls_gcm_init(&context);
    check(mbedtls_gcm_setkey(&context, MBEDTLS_CIPHER_ID_AES, key, 8 * KEY_LEN) == 0);
    check(mbedtls_gcm_crypt_and_tag(&context, MBEDTLS_GCM_ENCRYPT, NODE_LEN, ZERO_IV, IV_LEN,
                                    NULL, 0, text, text, TAG_LEN, tag) == 0);
    mbedtls_gcm_free(&context);
}

int open_sealed(const uint8_t key[KEY_LEN], uint8_t text[NODE_LEN], const uint8_t tag[TAG_LEN])
{
    mbedtls_gcm_context context;
    mbedtls_gcm_init(&context);
    check(mbedtls_gcm_setkey(&context, MBEDTLS_CIPHER_ID_AES, key, 8 * KEY_LEN) == 0);
    int answer = mbedtls_gcm_auth_decrypt(&context, NODE_LEN, ZERO_IV, IV_LEN, NULL, 0, tag,
                                          TAG_LEN, text, text);
    mbedtls_gcm_free(&context);
    return answer == 0;
}
