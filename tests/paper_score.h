/*
 * Scores written from the rules alone: the signed maxima, each worked out anew from the soft
 * values. arikan selects the transform as it does in reference_transform.h.
 */
#ifndef PAPER_SCORE_H
#define PAPER_SCORE_H

#include <stddef.h>
#include <stdint.h>

/* A soft value is refused below -2,048 and above 2,047. */
int paper_out_of_range(int16_t soft);

/* A soft value as it is taken: full scale is -2,047. */
int16_t paper_taken(int16_t soft);

/* The correlation of a word of n bits with n soft values. */
int32_t paper_correlation(size_t n, const int16_t *soft, const uint8_t *word);

/* The score of the first len bits of prefix: the largest correlation of a transform over
 * all inputs of n bits that begin with them. n is a power of two up to 1024. */
int32_t paper_score(size_t n, uint8_t arikan, const int16_t *soft, const uint8_t *prefix, size_t len);

/* The same by Arikan's transform. */
int32_t arikan_score(size_t n, const int16_t *soft, const uint8_t *prefix, size_t len);

#endif
