/*
 * An encoder and an extractor written from the rules alone, to compare the
 * library with. They take and answer what caldurrex_encode and caldurrex_extract
 * do, and share no code or table with them.
 */
#ifndef REFERENCE_CODEC_H
#define REFERENCE_CODEC_H

#include "reference_transform.h"

#include <stddef.h>
#include <stdint.h>

/* 1 where position i is frozen. */
int reference_frozen(const uint8_t *map, size_t i);

/* k: the number of the n positions that are not frozen. */
size_t reference_clear(const uint8_t *map, size_t n);

/* The pairs of a code, as bytes: f and then e, low byte first. */
enum { REFERENCE_PAIR_BYTES = 4, REFERENCE_MAX_PAIRS = 256 };

struct reference_pair {
    size_t f, e;
};

/* Pair number j. */
struct reference_pair reference_pair_at(const uint8_t *pairs, size_t j);

/* The bit at the frozen position i of an input that begins with u: the sum modulo 2 of the
 * bits at all e that stand with i, 0 if none does. The pairs are those of a good code. */
uint8_t reference_frozen_bit(const uint8_t *pairs, size_t pairs_len, size_t i, const uint8_t *u);

/* u becomes the input of n bits for a payload of a good code. */
void reference_input(size_t n, const uint8_t *map, const uint8_t *pairs, size_t pairs_len,
                     const uint8_t *payload, uint8_t *u);

/* The refusals 1, 2, 3 and 15, which every call on a code tests first, whatever its
 * transform; 0 if none applies. */
uint32_t reference_code_refusal(uint32_t m, const uint8_t *map, size_t map_len,
                                const uint8_t *pairs, size_t pairs_len);

uint32_t reference_encode(uint32_t m, uint8_t arikan, const uint8_t *map, size_t map_len,
                          const uint8_t *pairs, size_t pairs_len,
                          const uint8_t *payload, size_t payload_len,
                          uint8_t *word, size_t word_len);

uint32_t reference_extract(uint32_t m, uint8_t arikan, const uint8_t *map, size_t map_len,
                           const uint8_t *pairs, size_t pairs_len,
                           const uint8_t *word, size_t word_len,
                           uint8_t *payload, size_t payload_len);

#endif
