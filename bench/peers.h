// What the library is measured beside. Every peer is held to published vectors or to the library before it is timed.
#include <stddef.h>
#include <stdint.h>

// The hash over M61 in C: with the products of 32-bit limbs that crates/m61 makes, and with one 128-bit product. The
// ring has a subkey below 2^61 - 1 for each chunk of the text.
uint64_t m61_by_limbs(const uint64_t *ring, const uint8_t *text, size_t length);
uint64_t m61_by_wide_product(const uint64_t *ring, const uint8_t *text, size_t length);

uint64_t siphash_2_4(const uint8_t key[16], const uint8_t *text, size_t length);

// The first eight bytes of the MAC Chaskey-12, the first of them highest.
uint64_t chaskey_12(const uint8_t key[16], const uint8_t *text, size_t length);

// OpenSSL's, by EVP_MAC, with the key set up for each text. Absent where OpenSSL is.
const char *openssl_version(void);
void openssl_poly1305(const uint8_t key[32], const uint8_t *text, size_t length, uint8_t tag[16]);
void openssl_cmac(const uint8_t key[16], const uint8_t *text, size_t length, uint8_t tag[16]);
