// OpenSSL's Poly1305 and AES-128-CMAC.
#include <openssl/core_names.h>
#include <openssl/crypto.h>
#include <openssl/evp.h>
#include <openssl/params.h>
#include <stdio.h>
#include <stdlib.h>

#include "peers.h"

const char *openssl_version(void)
{
    return OpenSSL_version(OPENSSL_VERSION);
}

static EVP_MAC_CTX *context(const char *name, const char *cipher)
{
    EVP_MAC *mac = EVP_MAC_fetch(NULL, name, NULL);
    EVP_MAC_CTX *made = mac ? EVP_MAC_CTX_new(mac) : NULL;
    OSSL_PARAM with_cipher[] = {
        OSSL_PARAM_construct_utf8_string(OSSL_MAC_PARAM_CIPHER, (char *)cipher, 0),
        OSSL_PARAM_construct_end(),
    };
    if (!made || (cipher && !EVP_MAC_CTX_set_params(made, with_cipher))) {
        printf("bench: OpenSSL has no %s\n", name);
        exit(1);
    }
    return made;
}

static void tagged(EVP_MAC_CTX *mac, const uint8_t *key, size_t key_bytes, const uint8_t *text, size_t length,
                   uint8_t tag[16])
{
    size_t written;
    if (!EVP_MAC_init(mac, key, key_bytes, NULL) || !EVP_MAC_update(mac, text, length)
        || !EVP_MAC_final(mac, tag, &written, 16)) {
        printf("bench: OpenSSL refuses a call\n");
        exit(1);
    }
}

void openssl_poly1305(const uint8_t key[32], const uint8_t *text, size_t length, uint8_t tag[16])
{
    static EVP_MAC_CTX *mac;
    if (!mac)
        mac = context("POLY1305", NULL);
    tagged(mac, key, 32, text, length, tag);
}

void openssl_cmac(const uint8_t key[16], const uint8_t *text, size_t length, uint8_t tag[16])
{
    static EVP_MAC_CTX *mac;
    if (!mac)
        mac = context("CMAC", "AES-128-CBC");
    tagged(mac, key, 16, text, length, tag);
}
