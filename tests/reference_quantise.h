/*
 * A quantiser written from the rules alone, to compare the library with. It computes with the
 * machine's own floats and shares no code with the library.
 */
#ifndef REFERENCE_QUANTISE_H
#define REFERENCE_QUANTISE_H

#include <stddef.h>
#include <stdint.h>

/* No soft value that it makes has a larger magnitude. */
enum { REFERENCE_MOST = 2047 };

/* The soft value of a float with these bits. The caller's float mode is the one that a program
 * starts in. */
int16_t reference_soft_value(uint32_t bits);

/* Takes and answers what caldurrex_quantise does. */
uint32_t reference_quantise(uint32_t m, const uint8_t *samples, size_t samples_len,
                            int16_t *soft, size_t soft_len);

#endif
