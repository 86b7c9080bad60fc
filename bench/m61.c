// The polynomial hash over M61, block by block, as one would write it in C.
#include <string.h>

#include "peers.h"

static const uint64_t PRIME = ((uint64_t)1 << 61) - 1;

enum { BLOCK = 7, CHUNK = 7168 };

static uint64_t fold(uint64_t x)
{
    return (x >> 61) + (x & PRIME);
}

static uint64_t reduce(uint64_t x)
{
    uint64_t y = fold(x);
    return (y + ((y + 1) >> 61)) & PRIME;
}

// The sum and the product of crates/m61, fold by fold.
static uint64_t sum(uint64_t a, uint64_t b)
{
    return fold(fold(a) + fold(b));
}

static uint64_t product(uint64_t x, uint64_t y)
{
    x = fold(x);
    y = fold(y);
    uint32_t a = x >> 32, b = x, c = y >> 32, d = y;
    uint64_t high = (uint64_t)a * c, middle = (uint64_t)a * d + (uint64_t)b * c, low = (uint64_t)b * d;
    return fold((high << 3) + (middle >> 29) + ((middle & 0x1fffffff) << 32) + fold(low));
}

static uint64_t step_by_limbs(uint64_t x, uint64_t block, uint64_t subkey)
{
    return product(sum(x, block), subkey);
}

// No more is folded than has to be: x is at most 2^61 + 1 after each step.
static uint64_t step_by_wide_product(uint64_t x, uint64_t block, uint64_t subkey)
{
    unsigned __int128 wide = (unsigned __int128)(x + block) * subkey;
    return fold(((uint64_t)wide & PRIME) + (uint64_t)(wide >> 61));
}

// A block of seven bytes, of which at least one more byte follows.
static uint64_t block_before_more(const uint8_t *text)
{
    uint64_t number;
    memcpy(&number, text, sizeof number);
    return number & 0x00ffffffffffffff;
}

static uint64_t last_block(const uint8_t *text, size_t length)
{
    uint64_t number = 0;
    for (size_t i = 0; i < length; i++)
        number |= (uint64_t)text[i] << (8 * i);
    return number;
}

// One hash for each form of the step x = (x + block) * subkey.
#define HASH(NAME, STEP)                                                                                               \
    uint64_t NAME(const uint64_t *ring, const uint8_t *text, size_t length)                                            \
    {                                                                                                                  \
        uint64_t x = 0;                                                                                                \
        for (size_t at = 0; at < length; at += CHUNK) {                                                                \
            size_t end = length - at < CHUNK ? length : at + CHUNK, i = at;                                            \
            for (; i + BLOCK < end; i += BLOCK)                                                                        \
                x = STEP(x, block_before_more(text + i), ring[at / CHUNK]);                                            \
            x = STEP(x, last_block(text + i, end - i), ring[at / CHUNK]);                                              \
        }                                                                                                              \
        return reduce(x + length);                                                                                     \
    }

HASH(m61_by_limbs, step_by_limbs)
HASH(m61_by_wide_product, step_by_wide_product)
