// See leaky.h. Refusals, and the field that a call does not leak over, are left to the library.
#include "leaky.h"

enum { BLOCK = 7, CHUNK = 7168 };

static uint64_t block_at(const uint8_t *text, size_t length, size_t at)
{
    uint64_t number = 0;
    for (size_t i = 0; i < BLOCK && at + i < length; i++)
        number |= (uint64_t)text[at + i] << (8 * i);
    return number;
}

static const uint64_t PRIME = ((uint64_t)1 << 61) - 1;

static uint64_t fold(uint64_t x)
{
    return (x >> 61) + (x & PRIME);
}

uint8_t hash_with_branch(uint8_t field, const uint64_t *ring, size_t ring_places, const uint8_t *text,
                         size_t text_length, uint64_t *hash)
{
    uint8_t answer = hemmuzhan_hash(field, ring, ring_places, text, text_length, hash);
    if (answer != 0 || field != HEMMUZHAN_M61)
        return answer;
    uint64_t x = 0;
    for (size_t at = 0; at < text_length; at += BLOCK) {
        unsigned __int128 wide = (unsigned __int128)(x + block_at(text, text_length, at)) * ring[at / CHUNK];
        x = fold(((uint64_t)wide & PRIME) + (uint64_t)(wide >> 61));
    }
    x = fold(x + text_length);
    if (x >= PRIME) {
        __asm__ volatile(""); // keeps the compiler from making a move of the branch
        x -= PRIME;
    }
    *hash = x;
    return 0;
}

static const uint64_t LOW = ((uint64_t)1 << 63) - 1;

static uint64_t times_z(uint64_t x)
{
    return ((x << 1) & LOW) ^ (x >> 62) * 3;
}

static uint64_t product_by_table(uint64_t x, uint64_t y)
{
    uint64_t table[16] = {0}, r = 0;
    for (int i = 1; i < 16; i++)
        table[i] = times_z(table[i >> 1]) ^ (i & 1 ? y : 0);
    for (int shift = 60; shift >= 0; shift -= 4)
        r = times_z(times_z(times_z(times_z(r)))) ^ table[x >> shift & 15];
    return r;
}

uint8_t hash_with_table(uint8_t field, const uint64_t *ring, size_t ring_places, const uint8_t *text,
                        size_t text_length, uint64_t *hash)
{
    uint8_t answer = hemmuzhan_hash(field, ring, ring_places, text, text_length, hash);
    if (answer != 0 || field != HEMMUZHAN_B63)
        return answer;
    uint64_t x = 0;
    for (size_t at = 0; at < text_length; at += BLOCK)
        x = product_by_table(x ^ block_at(text, text_length, at), ring[at / CHUNK]);
    *hash = x ^ text_length;
    return 0;
}

uint8_t check_with_early_end(uint8_t field, uint8_t cipher, uint64_t key_first, uint64_t key_second, uint64_t draw,
                             const uint8_t *text, size_t text_length, uint64_t seal, uint64_t *ring, size_t ring_places)
{
    uint64_t expected = 0;
    uint8_t answer =
        hemmuzhan_seal(field, cipher, key_first, key_second, draw, text, text_length, ring, ring_places, &expected, 1);
    if (answer != 0)
        return answer;
    for (int i = 0; i < 8; i++)
        if ((uint8_t)(seal >> 8 * i) != (uint8_t)(expected >> 8 * i))
            return HEMMUZHAN_SEAL_WRONG;
    return 0;
}
