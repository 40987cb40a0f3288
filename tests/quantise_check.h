/*
 * Makes one call of the quantiser in guarded memory and judges it: by what is known from how the
 * call was made, by the reference's answer and soft values, and by what the call left in both
 * slices and round them.
 */
#ifndef QUANTISE_CHECK_H
#define QUANTISE_CHECK_H

#include "quantise_calls.h"

/* Gets the memory; seed is for messages. */
void quantise_check_open(unsigned long seed);

/* Makes the call, with an output that is dirty before. Ends the program with status 1, and says
 * what differs, if anything is not as it must be. */
void quantise_check(const struct quantise_call *c);

/* What the call made last has given; it is there until the next one. */
const int16_t *quantise_soft(void);

/* The address of the samples in the call made last, modulo 4. */
size_t quantise_remainder(void);

/* Hands the soft values of the call made last, which was served, to the decoder, with a code and
 * a short list drawn at random and dirty tables. Ends the program if they are refused, or if the
 * ceiling is not one of their block: at stop 0 it is the sum of their magnitudes. */
void quantise_decode(const struct quantise_call *c);

/* Says what is wrong with a call and ends the program. */
void quantise_fail(const struct quantise_call *c, const char *what);

#endif
