// Times the library's calls beside other hashes and MACs, on the same texts, and prints a table of nanoseconds a byte.
// Each number is the best of several rounds; a round times every call at every length once, so that what else the
// machine does hits all of them alike. The noise is how far the median of the rounds lies above the best.
#include <stdint.h>
#include <stdio.h>
#include <stdlib.h>
#include <string.h>
#include <time.h>

#include "hemmuzhan.h"
#include "peers.h"

enum { PLACES = 8, LONGEST = 57344, ROUNDS = 101 };

// What one timing lasts, in nanoseconds, at least.
static const double LASTS = 1e6;

static const size_t LENGTHS[] = {56, 896, 7168, 57344};

enum { LENGTHS_IN_ALL = sizeof LENGTHS / sizeof *LENGTHS, AT_7168 = 2 };

static uint8_t text[LONGEST];
static uint8_t key[32];
static uint64_t subkeys[PLACES];

static uint64_t key_word(int i)
{
    uint64_t number;
    memcpy(&number, key + 8 * i, sizeof number);
    return number;
}

static void must(int holds, const char *what, size_t length)
{
    if (!holds) {
        printf("bench: %s, at %zu bytes\n", what, length);
        exit(1);
    }
}

static uint64_t library_hash(uint8_t field, size_t length)
{
    uint64_t hash = 0;
    must(hemmuzhan_hash(field, subkeys, PLACES, text, length, &hash) == 0, "the library refuses to hash", length);
    return hash;
}

static uint64_t library_seal(uint8_t field, uint8_t cipher, size_t length)
{
    uint64_t ring[PLACES], seal = 0;
    uint8_t answer =
        hemmuzhan_seal(field, cipher, key_word(0), key_word(1), length, text, length, ring, PLACES, &seal, 1);
    must(answer == 0, "the library refuses to seal", length);
    return seal;
}

static uint64_t m61_hash(size_t length) { return library_hash(0, length); }
static uint64_t b63_hash(size_t length) { return library_hash(1, length); }
static uint64_t m61_noekeon(size_t length) { return library_seal(0, 0, length); }
static uint64_t m61_chaskey(size_t length) { return library_seal(0, 1, length); }
static uint64_t b63_noekeon(size_t length) { return library_seal(1, 0, length); }
static uint64_t b63_chaskey(size_t length) { return library_seal(1, 1, length); }
static uint64_t limbs(size_t length) { return m61_by_limbs(subkeys, text, length); }
static uint64_t wide(size_t length) { return m61_by_wide_product(subkeys, text, length); }
static uint64_t chaskey(size_t length) { return chaskey_12(key, text, length); }
static uint64_t siphash(size_t length) { return siphash_2_4(key, text, length); }

#ifdef OPENSSL
static uint64_t poly1305(size_t length)
{
    uint8_t tag[16];
    openssl_poly1305(key, text, length, tag);
    return tag[0];
}

static uint64_t cmac(size_t length)
{
    uint8_t tag[16];
    openssl_cmac(key, text, length, tag);
    return tag[0];
}
#endif

static const struct {
    const char *name;
    uint64_t (*call)(size_t length);
} ROWS[] = {
    {"Hemmuzhan's hash over M61", m61_hash},
    {"Hemmuzhan's hash over B63", b63_hash},
    {"Hemmuzhan's seal, M61 and Noekeon", m61_noekeon},
    {"Hemmuzhan's seal, M61 and Chaskey", m61_chaskey},
    {"Hemmuzhan's seal, B63 and Noekeon", b63_noekeon},
    {"Hemmuzhan's seal, B63 and Chaskey", b63_chaskey},
    {"the M61 hash in C, 32-bit products", limbs},
    {"the M61 hash in C, 128-bit product", wide},
    {"Chaskey-12 in C", chaskey},
    {"SipHash-2-4 in C", siphash},
#ifdef OPENSSL
    {"OpenSSL's Poly1305", poly1305},
    {"OpenSSL's AES-128-CMAC", cmac},
#endif
};

enum { ROWS_IN_ALL = sizeof ROWS / sizeof *ROWS, SIPHASH_ROW = 9 };

// Every peer gives the published answers, and both hashes in C those of the library.
static void hold_peers(void)
{
    static const struct { size_t length; uint64_t tag; } CHASKEY[] = {
        {0, 0xdd3e1849d6824555}, {1, 0xed1da89ec93179ca}, {15, 0x6a3ee3d35c043397},
        {16, 0xd13970d7be9b2350}, {17, 0x32acd914bfda3bc8}, {32, 0xb465c2412610bf84},
    };
    uint8_t counted[64], doubles[16];
    for (int i = 0; i < 64; i++)
        counted[i] = i;
    for (int i = 0; i < 16; i++)
        doubles[i] = 0x11 * i;
    for (size_t i = 0; i < sizeof CHASKEY / sizeof *CHASKEY; i++)
        must(chaskey_12(doubles, counted, CHASKEY[i].length) == CHASKEY[i].tag, "Chaskey-12 misses a vector",
             CHASKEY[i].length);
    must(siphash_2_4(counted, counted, 0) == 0x726fdb47dd0e0e31, "SipHash-2-4 misses a vector", 0);
    must(siphash_2_4(counted, counted, 15) == 0xa129ca6149be45e5, "SipHash-2-4 misses a vector", 15);
#ifdef OPENSSL
    static const uint8_t POLY_KEY[32] = {0x85, 0xd6, 0xbe, 0x78, 0x57, 0x55, 0x6d, 0x33, 0x7f, 0x44, 0x52,
                                         0xfe, 0x42, 0xd5, 0x06, 0xa8, 0x01, 0x03, 0x80, 0x8a, 0xfb, 0x0d,
                                         0xb2, 0xfd, 0x4a, 0xbf, 0xf6, 0xaf, 0x41, 0x49, 0xf5, 0x1b};
    static const uint8_t POLY_TAG[16] = {0xa8, 0x06, 0x1d, 0xc1, 0x30, 0x51, 0x36, 0xc6,
                                         0xc2, 0x2b, 0x8b, 0xaf, 0x0c, 0x01, 0x27, 0xa9};
    static const uint8_t CMAC_KEY[16] = {0x2b, 0x7e, 0x15, 0x16, 0x28, 0xae, 0xd2, 0xa6,
                                         0xab, 0xf7, 0x15, 0x88, 0x09, 0xcf, 0x4f, 0x3c};
    static const uint8_t CMAC_TAG[16] = {0xbb, 0x1d, 0x69, 0x29, 0xe9, 0x59, 0x37, 0x28,
                                         0x7f, 0xa3, 0x7d, 0x12, 0x9b, 0x75, 0x67, 0x46};
    uint8_t tag[16];
    openssl_poly1305(POLY_KEY, (const uint8_t *)"Cryptographic Forum Research Group", 34, tag);
    must(memcmp(tag, POLY_TAG, 16) == 0, "Poly1305 misses a vector", 34);
    openssl_cmac(CMAC_KEY, text, 0, tag);
    must(memcmp(tag, CMAC_TAG, 16) == 0, "AES-128-CMAC misses a vector", 0);
#endif
    // every length up to 100 and about the end of the first chunk, and some of the others
    for (size_t length = 0; length <= LONGEST;
         length += length < 100 ? 1 : length < 7100 ? 500 : length < 7200 ? 1 : 997) {
        must(limbs(length) == m61_hash(length), "the hash with 32-bit products differs from the library's", length);
        must(wide(length) == m61_hash(length), "the hash with a 128-bit product differs from the library's", length);
    }
    must(limbs(LONGEST) == m61_hash(LONGEST), "the hash with 32-bit products differs from the library's", LONGEST);
    must(wide(LONGEST) == m61_hash(LONGEST), "the hash with a 128-bit product differs from the library's", LONGEST);
}

// The time that this process has had, so that what others take of the machine counts little.
static double now(void)
{
    struct timespec t;
    clock_gettime(CLOCK_PROCESS_CPUTIME_ID, &t);
    return t.tv_sec * 1e9 + t.tv_nsec;
}

static volatile uint64_t kept;

// What so many calls take, in nanoseconds.
static double timed(int row, size_t length, long calls)
{
    double start = now();
    for (long i = 0; i < calls; i++)
        kept += ROWS[row].call(length);
    return now() - start;
}

static int ascending(const void *a, const void *b)
{
    double x = *(const double *)a, y = *(const double *)b;
    return (x > y) - (x < y);
}

int main(void)
{
    static long calls[ROWS_IN_ALL][LENGTHS_IN_ALL];
    static double taken[ROWS_IN_ALL][LENGTHS_IN_ALL][ROUNDS];
    uint32_t chance = 1;
    for (size_t i = 0; i < LONGEST; i++)
        text[i] = (chance = chance * 1664525 + 1013904223) >> 24;
    for (size_t i = 0; i < sizeof key; i++)
        key[i] = (chance = chance * 1664525 + 1013904223) >> 24;
    for (size_t i = 0; i < PLACES; i++)
        subkeys[i] = 0x0123456789abcdef + 0x00fedcba98765432 * i;
    hold_peers();
#ifdef OPENSSL
    printf("- OpenSSL: %s, by EVP_MAC, the key set up for each text\n", openssl_version());
#endif

    for (int row = 0; row < ROWS_IN_ALL; row++)
        for (int l = 0; l < LENGTHS_IN_ALL; l++)
            for (calls[row][l] = 1; timed(row, LENGTHS[l], calls[row][l]) < LASTS; calls[row][l] *= 2)
                ;
    for (int round = 0; round < ROUNDS; round++)
        for (int row = 0; row < ROWS_IN_ALL; row++)
            for (int l = 0; l < LENGTHS_IN_ALL; l++)
                taken[row][l][round] = timed(row, LENGTHS[l], calls[row][l]) / calls[row][l] / LENGTHS[l];

    for (int row = 0; row < ROWS_IN_ALL; row++)
        for (int l = 0; l < LENGTHS_IN_ALL; l++)
            qsort(taken[row][l], ROUNDS, sizeof(double), ascending);
    printf("\nBest of %d rounds; the noise is how far the median of a row's worst length is above its best.\n\n",
           ROUNDS);
    printf("| Nanoseconds a byte, at a length of |");
    for (int l = 0; l < LENGTHS_IN_ALL; l++)
        printf(" %zu |", LENGTHS[l]);
    printf(" Noise | SipHash-2-4 = 1, at 7168 |\n|---|---|---|---|---|---|---|\n");
    for (int row = 0; row < ROWS_IN_ALL; row++) {
        double noise = 0;
        printf("| %s |", ROWS[row].name);
        for (int l = 0; l < LENGTHS_IN_ALL; l++) {
            double best = taken[row][l][0], above = taken[row][l][ROUNDS / 2] / best - 1;
            printf(" %.3f |", best);
            noise = above > noise ? above : noise;
        }
        printf(" %.0f %% | %.2f |\n", 100 * noise, taken[row][AT_7168][0] / taken[SIPHASH_ROW][AT_7168][0]);
    }
    return 0;
}
