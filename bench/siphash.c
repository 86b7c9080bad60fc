// SipHash-2-4 with an answer of 64 bits, after its published description.
#include <string.h>

#include "peers.h"

#define ROTATED(x, n) ((x) << (n) | (x) >> (64 - (n)))

#define ROUND                                                                                                          \
    do {                                                                                                               \
        v0 += v1, v1 = ROTATED(v1, 13) ^ v0, v0 = ROTATED(v0, 32);                                                     \
        v2 += v3, v3 = ROTATED(v3, 16) ^ v2;                                                                           \
        v0 += v3, v3 = ROTATED(v3, 21) ^ v0;                                                                           \
        v2 += v1, v1 = ROTATED(v1, 17) ^ v2, v2 = ROTATED(v2, 32);                                                     \
    } while (0)

static uint64_t word(const uint8_t *bytes)
{
    uint64_t number;
    memcpy(&number, bytes, sizeof number);
    return number;
}

uint64_t siphash_2_4(const uint8_t key[16], const uint8_t *text, size_t length)
{
    uint64_t k0 = word(key), k1 = word(key + 8);
    uint64_t v0 = k0 ^ 0x736f6d6570736575, v1 = k1 ^ 0x646f72616e646f6d;
    uint64_t v2 = k0 ^ 0x6c7967656e657261, v3 = k1 ^ 0x7465646279746573;
    size_t i = 0;
    for (; i + 8 <= length; i += 8) {
        uint64_t m = word(text + i);
        v3 ^= m;
        ROUND;
        ROUND;
        v0 ^= m;
    }
    uint64_t last = (uint64_t)length << 56;
    for (size_t j = 0; i + j < length; j++)
        last |= (uint64_t)text[i + j] << (8 * j);
    v3 ^= last;
    ROUND;
    ROUND;
    v0 ^= last;
    v2 ^= 0xff;
    ROUND;
    ROUND;
    ROUND;
    ROUND;
    return v0 ^ v1 ^ v2 ^ v3;
}
