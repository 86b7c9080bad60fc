/*
 * Hemmuzhan for C: the hash, the seal and its check, and the sealed sheet on a chip.
 *
 * Link libhemmuzhan.a: of the C library it needs memmove and memset, and nothing else. What each call does is proved;
 * that these declarations fit the calls is not.
 *
 * Every call answers 0, or the number of the first refusal in the order that is given with the call. A refused call
 * changes nothing, but for the ring list of hemmuzhan_seal and hemmuzhan_check. No call allocates, prints or keeps an
 * address.
 *
 * The caller owes: no address is null, not even that of a list of length 0; each address is aligned for its type and is
 * that of as many elements as the length behind it says (of one, where there is no length); what a call writes overlaps
 * nothing else that is lent to it.
 */
#ifndef HEMMUZHAN_H
#define HEMMUZHAN_H

#include <stddef.h>
#include <stdint.h>

#ifdef __cplusplus
extern "C" {
#endif

#define HEMMUZHAN_LONGEST_TEXT 57344 /* bytes that a text can have */
#define HEMMUZHAN_CHUNK_BYTES 7168   /* bytes of a text to one place of the ring */
#define HEMMUZHAN_MOST_CHUNKS 8      /* places of a ring that are enough for every text */
#define HEMMUZHAN_SHEET_BYTES 24     /* bytes of a sheet's record before its text */

enum hemmuzhan_field {
    HEMMUZHAN_M61 = 0,
    HEMMUZHAN_B63 = 1
};

enum hemmuzhan_cipher {
    HEMMUZHAN_NOEKEON = 0,
    HEMMUZHAN_CHASKEY = 1
};

/* The refusals that these calls can answer; the numbers never change. */
enum hemmuzhan_refusal {
    HEMMUZHAN_GRAVE_OUT_OF_RANGE = 1, /* the grave's number is above 255 */
    HEMMUZHAN_TEXT_TOO_LONG = 9,      /* the text has more than 57,344 bytes */
    HEMMUZHAN_RING_TOO_SHORT = 10,    /* the ring has fewer places than the text has chunks */
    HEMMUZHAN_SEAL_WRONG = 12,        /* the seal is not the text's */
    HEMMUZHAN_SUBKEY_TOO_LARGE = 13,  /* a subkey is no element's own number: 2^61 - 1 or 2^63, or above */
    HEMMUZHAN_RECORD_CUT_SHORT = 14,  /* a part of the record is missing */
    HEMMUZHAN_UNDEFINED = 15,         /* the field, the cipher or the record's kind is none that is defined */
    HEMMUZHAN_BUFFER_TOO_SHORT = 16   /* the buffer is too short for the record, or the seal has no place */
};

/*
 * Writes the hash of the text under the ring's subkeys to *hash. Ring and text are only read.
 * Refuses 15, 9, 10, 13; a refusal leaves *hash.
 */
uint8_t hemmuzhan_hash(uint8_t field, const uint64_t *ring, size_t ring_places,
                       const uint8_t *text, size_t text_length, uint64_t *hash);

/*
 * Writes the seal of the text under the key and the draw to the first place of seal, and nothing beyond it. As bytes, a
 * key is its first number and then its second, each with its highest byte first. The ring list is the caller's memory
 * for subkeys: what it held makes no difference, and it ends as zeros, also where the call is refused.
 * Refuses 15, 16 (seal_places is 0), 9, 10; a refusal leaves seal.
 */
uint8_t hemmuzhan_seal(uint8_t field, uint8_t cipher, uint64_t key_first, uint64_t key_second, uint64_t draw,
                       const uint8_t *text, size_t text_length, uint64_t *ring, size_t ring_places,
                       uint64_t *seal, size_t seal_places);

/*
 * Answers 0 if the seal is that of the text under the key and the draw. The ring list is as for hemmuzhan_seal.
 * Refuses 15, 9, 10, 12.
 */
uint8_t hemmuzhan_check(uint8_t field, uint8_t cipher, uint64_t key_first, uint64_t key_second, uint64_t draw,
                        const uint8_t *text, size_t text_length, uint64_t seal,
                        uint64_t *ring, size_t ring_places);

/*
 * Reads the sheet at the front of the input, which is only read. The text begins at byte 24 of the input, and the
 * record has 24 + *text_length bytes; more may follow it. The seal is not checked.
 * Refuses 14 (no whole record), 15 (another kind), 14 (grave, draw or seal missing), 1, 9; a refusal leaves all four
 * numbers.
 */
uint8_t hemmuzhan_read_sheet(const uint8_t *input, size_t input_length,
                             uint64_t *grave, uint64_t *draw, uint64_t *seal, uint64_t *text_length);

/*
 * Writes the sheet's record, 24 + text_length bytes, to the front of the buffer. All beyond is left as it was.
 * Refuses 1, 9, 16; a refusal leaves the whole buffer.
 */
uint8_t hemmuzhan_write_sheet(uint16_t grave, uint64_t draw, uint64_t seal,
                              const uint8_t *text, size_t text_length, uint8_t *buffer, size_t buffer_length);

#ifdef __cplusplus
}
#endif

#endif
