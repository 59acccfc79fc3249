/* AES-128-GCM of OpenSSL, with one context that takes each node's key. */
#include "nodes.h"

#include <openssl/evp.h>

static EVP_CIPHER_CTX *context(void)
{
    static EVP_CIPHER_CTX *made;
    if (made == NULL) {
        made = EVP_CIPHER_CTX_new();
        check(made != NULL);
    }
    return made;
}

static const EVP_CIPHER *cipher(void)
{
    static EVP_CIPHER *fetched;
    if (fetched == NULL) {
        fetched = EVP_CIPHER_fetch(NULL, "AES-128-GCM", NULL);
        check(fetched != NULL);
    }
    return fetched;
}

void seal(const uint8_t key[KEY_LEN], uint8_t text[NODE_LEN], uint8_t tag[TAG_LEN])
{
    int len;
    check(EVP_EncryptInit_ex2(context(), cipher(), key, ZERO_IV, NULL) == 1);
    check(EVP_EncryptUpdate(context(), text, &len, text, NODE_LEN) == 1);
    check(EVP_EncryptFinal_ex(context(), text + len, &len) == 1);
    check(EVP_CIPHER_CTX_ctrl(context(), EVP_CTRL_AEAD_GET_TAG, TAG_LEN, tag) == 1);
}

int open_sealed(const uint8_t key[KEY_LEN], uint8_t text[NODE_LEN], const uint8_t tag[TAG_LEN])
{
    int len;
    uint8_t wanted[TAG_LEN];
    memcpy(wanted, tag, TAG_LEN);
    check(EVP_DecryptInit_ex2(context(), cipher(), key, ZERO_IV, NULL) == 1);
    check(EVP_DecryptUpdate(context(), text, &len, text, NODE_LEN) == 1);
    check(EVP_CIPHER_CTX_ctrl(context(), EVP_CTRL_AEAD_SET_TAG, TAG_LEN, wanted) == 1);
    return EVP_DecryptFinal_ex(context(), text + len, &len) == 1;
}
