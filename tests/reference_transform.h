/*
 * The two transforms and their inverses, written from the rules alone. arikan selects one of
 * them: 0 the convolutional transform, any other value Arikan's.
 */
#ifndef REFERENCE_TRANSFORM_H
#define REFERENCE_TRANSFORM_H

#include <stddef.h>
#include <stdint.h>

enum { REFERENCE_MAX_M = 10, REFERENCE_MAX_N = 1 << REFERENCE_MAX_M };

/* c becomes the transform of u; both are n bytes of value 0 or 1, n a power of
 * two up to REFERENCE_MAX_N. */
void reference_transform(size_t n, uint8_t arikan, const uint8_t *u, uint8_t *c);

/* u becomes the input of n = 2^m bits whose transform is the word. */
void reference_inverse(uint32_t m, uint8_t arikan, const uint8_t *word, uint8_t *u);

#endif
