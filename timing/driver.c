// Makes the library's calls under valgrind with every secret marked as undefined. Valgrind then reports each jump and
// each address that depends on a secret, and this program counts the reports of each call.
//
// Secret are keys, draws, subkeys, texts and seals; lengths are not. Two verdicts are told to the caller, and each may
// take one jump: whether a seal is the text's, and whether some subkey is too large (refusal 13). A verdict's jump is
// told from others by marking less: the given seal goes nowhere but into the comparison, so what is reported with the
// seal alone marked is the verdict's; and an empty text makes no use of subkeys but the test of refusal 13. With
// everything marked, no call may be reported more often.
#include <stdint.h>
#include <stdio.h>
#include <stdlib.h>
#include <string.h>
#include <valgrind/memcheck.h>

#include "hemmuzhan.h"
#include "leaky.h"

// The same driver is built with a leaky call in place of the library's, to see that it is reported.
#ifdef LEAKY_HASH
#define hemmuzhan_hash LEAKY_HASH
#endif
#ifdef LEAKY_CHECK
#define hemmuzhan_check LEAKY_CHECK
#endif

// A ring that is longer than any text needs, and not a multiple of four: loops over it have a rest to do.
enum { LONGEST = 57344, PLACES = 11 };

// What each subkey of a ring is above the one before it.
enum { STEP = 1000003 };

enum { KEY = 1, TEXT = 2, RING = 4, SEAL = 8, ALL = 15 };

// About the ends of a block, of a few blocks and of a chunk, and the longest.
static const size_t LENGTHS[] = {0, 1, 6, 7, 8, 27, 28, 29, 55, 56, 57, 113, 896, 7168, 7169, 57344};

enum { LENGTHS_IN_ALL = sizeof LENGTHS / sizeof *LENGTHS };

static const char *const FIELDS[] = {"M61", "B63"};
static const char *const CIPHERS[] = {"Noekeon", "Chaskey"};

// How the calls went: made with something marked, and reported by valgrind.
static unsigned calls, reported;
static int failed;

static void fail(const char *what, const char *field, const char *cipher, size_t length, unsigned secret)
{
    printf("timing: %s: %s%s%s, %zu bytes, marked:%s%s%s%s\n", what, field, *cipher ? " with " : "", cipher, length,
           secret & KEY ? " key" : "", secret & TEXT ? " text" : "", secret & RING ? " ring" : "",
           secret & SEAL ? " seal" : "");
    failed = 1;
}

// Whether some bit of the bytes is marked as secret.
static int hidden(const void *bytes, size_t length)
{
    unsigned char marks[LONGEST], any = 0;
    if (length == 0)
        return 0;
    if (VALGRIND_GET_VBITS(bytes, marks, length) != 1) {
        printf("timing: valgrind does not tell what is marked\n");
        exit(2);
    }
    for (size_t i = 0; i < length; i++)
        any |= marks[i];
    return any != 0;
}

static void hide(void *bytes, size_t length)
{
    VALGRIND_MAKE_MEM_UNDEFINED(bytes, length);
    if (length > 0 && !hidden(bytes, length)) {
        printf("timing: marking had no effect\n");
        exit(2);
    }
}

static void reveal(void *bytes, size_t length)
{
    VALGRIND_MAKE_MEM_DEFINED(bytes, length);
    if (hidden(bytes, length)) {
        printf("timing: unmarking had no effect\n");
        exit(2);
    }
}

// What a call is made with. Text and ring have memory of exactly their length, so that valgrind sees a step beyond.
struct inputs {
    uint64_t key[2], draw, seal;
    uint64_t *ring;
    uint8_t *text;
    size_t length;
};

static struct inputs inputs_of(size_t length, uint64_t subkey, uint64_t seal, unsigned secret)
{
    struct inputs in = {{0x0123456789abcdef, 0xfedcba9876543210}, 77, seal, malloc(8 * PLACES), malloc(length), length};
    uint32_t chance = 1;
    for (size_t i = 0; i < length; i++) {
        chance = chance * 1664525 + 1013904223;
        in.text[i] = chance >> 24;
    }
    for (size_t i = 0; i < PLACES; i++)
        in.ring[i] = subkey + STEP * i;
    if (secret & KEY) {
        hide(in.key, sizeof in.key);
        hide(&in.draw, sizeof in.draw);
    }
    if (secret & TEXT)
        hide(in.text, length);
    if (secret & RING)
        hide(in.ring, 8 * PLACES);
    if (secret & SEAL)
        hide(&in.seal, sizeof in.seal);
    return in;
}

static void drop(struct inputs in)
{
    free(in.ring);
    free(in.text);
}

// What a call answered, and how many reports valgrind made of it.
struct outcome {
    uint8_t answer;
    uint64_t number;
    unsigned reports;
    int answer_hidden, number_hidden, ring_hidden;
};

static struct outcome told(unsigned before, uint8_t answer, uint64_t number, struct inputs in, unsigned secret)
{
    struct outcome out = {answer, number, VALGRIND_COUNT_ERRORS - before, 0, 0, 0};
    out.answer_hidden = hidden(&out.answer, sizeof out.answer);
    out.number_hidden = hidden(&out.number, sizeof out.number);
    out.ring_hidden = hidden(in.ring, 8 * PLACES);
    reveal(&out.answer, sizeof out.answer);
    reveal(&out.number, sizeof out.number);
    drop(in);
    calls += secret != 0;
    reported += out.reports;
    return out;
}

static struct outcome hash(uint8_t field, size_t length, uint64_t subkey, unsigned secret)
{
    struct inputs in = inputs_of(length, subkey, 0, secret);
    uint64_t number = 0;
    unsigned before = VALGRIND_COUNT_ERRORS;
    uint8_t answer = hemmuzhan_hash(field, in.ring, PLACES, in.text, in.length, &number);
    return told(before, answer, number, in, secret);
}

static struct outcome seal(uint8_t field, uint8_t cipher, size_t length, unsigned secret)
{
    struct inputs in = inputs_of(length, 5, 0, secret);
    uint64_t number = 0;
    unsigned before = VALGRIND_COUNT_ERRORS;
    uint8_t answer =
        hemmuzhan_seal(field, cipher, in.key[0], in.key[1], in.draw, in.text, in.length, in.ring, PLACES, &number,
                       1);
    return told(before, answer, number, in, secret);
}

static struct outcome check(uint8_t field, uint8_t cipher, size_t length, uint64_t seal, unsigned secret)
{
    struct inputs in = inputs_of(length, 5, seal, secret);
    unsigned before = VALGRIND_COUNT_ERRORS;
    uint8_t answer =
        hemmuzhan_check(field, cipher, in.key[0], in.key[1], in.draw, in.text, in.length, in.seal, in.ring, PLACES);
    return told(before, answer, 0, in, secret);
}

// A worked example, so that a leaky call in the library's place is seen to be the same hash.
static void try_example(uint8_t field, uint64_t expected)
{
    const uint64_t ring[] = {3};
    const uint8_t text[] = {1, 0, 0, 0, 0, 0, 0, 2};
    uint64_t number = 0;
    if (hemmuzhan_hash(field, ring, 1, text, sizeof text, &number) != 0 || number != expected)
        fail("hash misses a worked example", FIELDS[field], "", sizeof text, 0);
}

static void try_hashes(uint8_t field)
{
    const char *name = FIELDS[field];
    const uint64_t order = field == HEMMUZHAN_M61 ? ((uint64_t)1 << 61) - 1 : (uint64_t)1 << 63;
    // what the test of refusal 13 takes, wherever it finds a subkey that is too large, and where it finds none
    unsigned verdict = hash(field, 0, 5, RING).reports;
    if (verdict > 1)
        fail("the test of subkeys takes more than one jump", name, "", 0, RING);
    for (uint64_t place = 0; place < PLACES; place++) {
        struct outcome large = hash(field, 0, order - STEP * place, ALL);
        if (large.answer != HEMMUZHAN_SUBKEY_TOO_LARGE || large.reports != verdict)
            fail("the place of a subkey that is too large is told", name, "", 0, ALL);
    }
    for (size_t i = 0; i < LENGTHS_IN_ALL; i++) {
        size_t length = LENGTHS[i];
        struct outcome open = hash(field, length, 5, 0);
        if (open.answer != 0 || open.reports != 0 || open.number_hidden)
            fail("hash goes wrong with nothing marked", name, "", length, 0);
        for (unsigned secret = TEXT; secret <= (TEXT | RING); secret += TEXT) {
            struct outcome out = hash(field, length, 5, secret);
            if (out.reports != (secret & RING ? verdict : 0))
                fail("hash has a jump or an address that depends on a secret", name, "", length, secret);
            if (out.answer != 0 || out.number != open.number)
                fail("hash answers otherwise with secrets marked", name, "", length, secret);
            if (out.number_hidden != (length > 0))
                fail("the marks did not reach the hash", name, "", length, secret);
        }
    }
}

static void try_seals(uint8_t field, uint8_t cipher, size_t length)
{
    const char *a = FIELDS[field], *b = CIPHERS[cipher];
    struct outcome open = seal(field, cipher, length, 0);
    if (open.answer != 0 || open.reports != 0 || open.number_hidden)
        fail("seal goes wrong with nothing marked", a, b, length, 0);
    struct outcome out = seal(field, cipher, length, ALL);
    if (out.reports != 0 || out.answer_hidden)
        fail("seal has a jump or an address that depends on a secret", a, b, length, ALL);
    if (out.answer != 0 || out.number != open.number)
        fail("seal answers otherwise with secrets marked", a, b, length, ALL);
    if (!out.number_hidden)
        fail("the marks did not reach the seal", a, b, length, ALL);
    if (out.ring_hidden)
        fail("seal leaves secrets in the ring", a, b, length, ALL);

    // the right seal, and one that differs in one bit
    for (int bit = -1; bit < 64; bit += 13) {
        uint64_t given = bit < 0 ? open.number : open.number ^ (uint64_t)1 << bit;
        unsigned verdict = check(field, cipher, length, given, SEAL).reports;
        if (verdict > 1)
            fail("the comparison of seals takes more than one jump", a, b, length, SEAL);
        for (unsigned secret = ALL & ~SEAL; secret <= ALL; secret += SEAL) {
            struct outcome checked = check(field, cipher, length, given, secret);
            if (checked.reports != verdict)
                fail("check has a jump or an address that depends on a secret", a, b, length, secret);
            if (checked.answer != (bit < 0 ? 0 : HEMMUZHAN_SEAL_WRONG))
                fail("check answers otherwise with secrets marked", a, b, length, secret);
            if (checked.reports == 0 && !checked.answer_hidden)
                fail("the marks did not reach the verdict", a, b, length, secret);
            if (checked.ring_hidden)
                fail("check leaves secrets in the ring", a, b, length, secret);
        }
    }
}

int main(void)
{
    if (!RUNNING_ON_VALGRIND) {
        printf("timing: this program says nothing unless it is run by valgrind\n");
        return 2;
    }
    try_example(HEMMUZHAN_M61, 23);
    try_example(HEMMUZHAN_B63, 11);
    for (uint8_t field = 0; field < 2; field++) {
        try_hashes(field);
        for (uint8_t cipher = 0; cipher < 2; cipher++)
            for (size_t i = 0; i < LENGTHS_IN_ALL; i++)
                try_seals(field, cipher, LENGTHS[i]);
    }
    // no report is left over, so none was made of this program's own use of an answer
    if (VALGRIND_COUNT_ERRORS != reported) {
        printf("timing: %u reports stand outside of the calls\n", (unsigned)VALGRIND_COUNT_ERRORS - reported);
        failed = 1;
    }
    if (!failed)
        printf("timing: %u calls with secrets marked: hash over 2 fields, seal and check over 2 fields and 2 ciphers, "
               "%d lengths up to %d bytes; %u reports, all of verdicts\n",
               calls, (int)LENGTHS_IN_ALL, (int)LONGEST, reported);
    return failed;
}
