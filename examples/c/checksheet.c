/*
 * checksheet FIELD CIPHER KEY FILE: reads the record of a sealed sheet from a file, and says whether its seal holds.
 *
 * FIELD is m61 or b63, CIPHER is noekeon or chaskey, KEY is 32 hexadecimal digits, its first byte first. (On a command
 * line others can see a key; a reader's firmware has it elsewhere.) The grave's number is not under the seal: the key is
 * the grave's own, and who reads a sheet takes the key of the grave in front of him.
 * Status 0: the seal holds. 1: it does not, or the record is refused. 2: wrong use, or no such file.
 */
#include <errno.h>
#include <inttypes.h>
#include <stdio.h>
#include <string.h>

#include "hemmuzhan.h"

#define LONGEST_RECORD (HEMMUZHAN_SHEET_BYTES + HEMMUZHAN_LONGEST_TEXT)

struct key {
    uint64_t first;
    uint64_t second;
};

static const char *meaning(uint8_t refusal)
{
    switch (refusal) {
    case HEMMUZHAN_GRAVE_OUT_OF_RANGE:
        return "the grave's number is above 255";
    case HEMMUZHAN_TEXT_TOO_LONG:
        return "the text has more than 57,344 bytes";
    case HEMMUZHAN_RING_TOO_SHORT:
        return "the ring has fewer places than the text has chunks";
    case HEMMUZHAN_SEAL_WRONG:
        return "the seal is not the text's";
    case HEMMUZHAN_RECORD_CUT_SHORT:
        return "a part of the record is missing";
    case HEMMUZHAN_UNDEFINED:
        return "the field, the cipher or the record's kind is none that is defined";
    default:
        return "this call does not refuse so";
    }
}

static int usage(const char *why)
{
    fprintf(stderr, "checksheet: %s\n", why);
    fprintf(stderr, "usage: checksheet m61|b63 noekeon|chaskey KEY FILE, where KEY is 32 hexadecimal digits\n");
    return 2;
}

static int refused(uint8_t refusal)
{
    printf("refused %02u: %s\n", (unsigned)refusal, meaning(refusal));
    return 1;
}

/* The value of a hexadecimal digit, or -1. */
static int digit(char c)
{
    if (c >= '0' && c <= '9')
        return c - '0';
    if (c >= 'a' && c <= 'f')
        return c - 'a' + 10;
    if (c >= 'A' && c <= 'F')
        return c - 'A' + 10;
    return -1;
}

/* Whether the word is a key. */
static int read_key(const char *word, struct key *key)
{
    uint64_t numbers[2] = {0, 0};
    size_t i;

    if (strlen(word) != 32)
        return 0;
    for (i = 0; i < 32; i++) {
        int value = digit(word[i]);
        if (value < 0)
            return 0;
        numbers[i / 16] = numbers[i / 16] << 4 | (uint64_t)value;
    }
    key->first = numbers[0];
    key->second = numbers[1];
    return 1;
}

/* Whether the file could be read: its bytes, as many as there is room for. */
static int read_file(const char *name, uint8_t *bytes, size_t room, size_t *length)
{
    FILE *file = fopen(name, "rb");
    int failed;

    if (file == NULL)
        return 0;
    *length = fread(bytes, 1, room, file);
    failed = ferror(file);
    fclose(file);
    return !failed;
}

int main(int count, char **words)
{
    static uint8_t input[LONGEST_RECORD + 1];
    uint64_t ring[HEMMUZHAN_MOST_CHUNKS];
    uint64_t grave, draw, seal, text_length;
    size_t length;
    struct key key;
    uint8_t field, cipher, answer;

    if (count != 5)
        return usage("four words are needed");
    if (strcmp(words[1], "m61") == 0)
        field = HEMMUZHAN_M61;
    else if (strcmp(words[1], "b63") == 0)
        field = HEMMUZHAN_B63;
    else
        return usage("the field is m61 or b63");
    if (strcmp(words[2], "noekeon") == 0)
        cipher = HEMMUZHAN_NOEKEON;
    else if (strcmp(words[2], "chaskey") == 0)
        cipher = HEMMUZHAN_CHASKEY;
    else
        return usage("the cipher is noekeon or chaskey");
    if (!read_key(words[3], &key))
        return usage("the key is not 32 hexadecimal digits");

    errno = 0;
    if (!read_file(words[4], input, sizeof input, &length)) {
        fprintf(stderr, "checksheet: cannot read %s: %s\n", words[4], strerror(errno));
        return 2;
    }
    if (length > LONGEST_RECORD) {
        fprintf(stderr, "checksheet: %s is longer than the record of any sheet\n", words[4]);
        return 2;
    }

    answer = hemmuzhan_read_sheet(input, length, &grave, &draw, &seal, &text_length);
    if (answer != 0)
        return refused(answer);
    printf("grave %" PRIu64 ", draw %" PRIu64 ", seal %016" PRIx64 ", %" PRIu64 " bytes of text\n", grave, draw, seal,
           text_length);
    if (length > HEMMUZHAN_SHEET_BYTES + text_length)
        printf("more bytes follow the record\n");
    answer = hemmuzhan_check(field, cipher, key.first, key.second, draw, input + HEMMUZHAN_SHEET_BYTES,
                             (size_t)text_length, seal, ring, HEMMUZHAN_MOST_CHUNKS);
    if (answer != 0)
        return refused(answer);
    printf("the seal holds\n");
    return 0;
}
