// Calls that stand in for the library's, give the same answers, and leak on purpose: the check has to report each.
#include "hemmuzhan.h"

// Takes the prime away at the end of the hash by a branch: one jump in a whole call, on the hash.
uint8_t hash_with_branch(uint8_t field, const uint64_t *ring, size_t ring_places, const uint8_t *text,
                         size_t text_length, uint64_t *hash);

// Multiplies in B63 by a table of 16 products, which four bits of a secret choose from.
uint8_t hash_with_table(uint8_t field, const uint64_t *ring, size_t ring_places, const uint8_t *text,
                        size_t text_length, uint64_t *hash);

// Compares seals byte by byte, and ends at the first difference.
uint8_t check_with_early_end(uint8_t field, uint8_t cipher, uint64_t key_first, uint64_t key_second, uint64_t draw,
                             const uint8_t *text, size_t text_length, uint64_t seal, uint64_t *ring,
                             size_t ring_places);
