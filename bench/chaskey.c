// The MAC Chaskey-12, after its published description.
#include <string.h>

#include "peers.h"

#define ROTATED(x, n) ((x) << (n) | (x) >> (32 - (n)))

static void permute(uint32_t v[4])
{
    uint32_t v0 = v[0], v1 = v[1], v2 = v[2], v3 = v[3];
    for (int i = 0; i < 12; i++) {
        v0 += v1, v1 = ROTATED(v1, 5) ^ v0, v0 = ROTATED(v0, 16);
        v2 += v3, v3 = ROTATED(v3, 8) ^ v2;
        v0 += v3, v3 = ROTATED(v3, 13) ^ v0;
        v2 += v1, v1 = ROTATED(v1, 7) ^ v2, v2 = ROTATED(v2, 16);
    }
    v[0] = v0, v[1] = v1, v[2] = v2, v[3] = v3;
}

static void add(uint32_t v[4], const uint32_t w[4])
{
    for (int i = 0; i < 4; i++)
        v[i] ^= w[i];
}

static void doubled(uint32_t to[4], const uint32_t from[4])
{
    uint32_t top = 0u - (from[3] >> 31);
    for (int i = 3; i > 0; i--)
        to[i] = from[i] << 1 | from[i - 1] >> 31;
    to[0] = from[0] << 1 ^ (top & 0x87);
}

uint64_t chaskey_12(const uint8_t key[16], const uint8_t *text, size_t length)
{
    uint32_t k[4], once[4], twice[4], v[4], block[4];
    memcpy(k, key, sizeof k);
    doubled(once, k);
    doubled(twice, once);
    memcpy(v, k, sizeof v);
    size_t i = 0;
    for (; i + 16 < length; i += 16) {
        memcpy(block, text + i, sizeof block);
        add(v, block);
        permute(v);
    }
    uint8_t last[16] = {0};
    memcpy(last, text + i, length - i);
    int whole = length - i == 16;
    if (!whole)
        last[length - i] = 1;
    memcpy(block, last, sizeof block);
    add(v, block);
    add(v, whole ? once : twice);
    permute(v);
    add(v, whole ? once : twice);
    return __builtin_bswap64((uint64_t)v[1] << 32 | v[0]);
}
