/*
 * everycall: makes each of the five calls, as C or as C++, and prints what it answers and leaves behind.
 */
#include <inttypes.h>
#include <stdio.h>

#include "hemmuzhan.h"

static void print_bytes(const uint8_t *bytes, size_t length)
{
    size_t i;

    for (i = 0; i < length; i++)
        printf(" %02x", (unsigned)bytes[i]);
    printf("\n");
}

int main(void)
{
    static const uint64_t subkeys[2] = {3, 9};
    static const uint8_t text[8] = {1, 0, 0, 0, 0, 0, 0, 2};
    uint64_t ring[3] = {7, 7, 7};
    uint64_t hash = 1, seal = 1, grave = 1, draw = 1, read_seal = 1, text_length = 1;
    uint8_t record[34];
    unsigned answer;
    size_t i;

    answer = hemmuzhan_hash(HEMMUZHAN_B63, subkeys, 2, text, 8, &hash);
    printf("hash: %u, %" PRIu64 "\n", answer, hash);
    answer = hemmuzhan_seal(HEMMUZHAN_M61, HEMMUZHAN_NOEKEON, 2, 3, 5, text, 8, ring, 3, &seal, 1);
    printf("seal: %u, %016" PRIx64 ", ring %" PRIu64 " %" PRIu64 " %" PRIu64 "\n", answer, seal, ring[0], ring[1], ring[2]);
    answer = hemmuzhan_check(HEMMUZHAN_M61, HEMMUZHAN_NOEKEON, 2, 3, 5, text, 8, seal, ring, 3);
    printf("check: %u\n", answer);
    answer = hemmuzhan_check(HEMMUZHAN_M61, HEMMUZHAN_NOEKEON, 2, 3, 6, text, 8, seal, ring, 3);
    printf("check under another draw: %u\n", answer);
    for (i = 0; i < sizeof record; i++)
        record[i] = 0xee;
    answer = hemmuzhan_write_sheet(200, 5, seal, text, 8, record, sizeof record);
    printf("write_sheet: %u,", answer);
    print_bytes(record, sizeof record);
    answer = hemmuzhan_read_sheet(record, sizeof record, &grave, &draw, &read_seal, &text_length);
    printf("read_sheet: %u, grave %" PRIu64 ", draw %" PRIu64 ", seal %016" PRIx64 ", %" PRIu64 " bytes of text\n", answer,
           grave, draw, read_seal, text_length);
    return 0;
}
