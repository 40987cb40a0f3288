/*
 * Makes one call of the decoder in guarded memory, twice on differently dirtied
 * memory, and judges it: by what is known from how the call was made, by the paper
 * decoder's answer and outputs, and by what the call left in every lent slice and
 * round it.
 */
#ifndef DECODER_CHECK_H
#define DECODER_CHECK_H

#include "decoder_calls.h"

/* program and seed are for messages. */
void decoder_check_open(const char *program, unsigned long seed);

/* Makes the call. Ends the program with status 1, and says what differs, if anything
 * is not as it must be. Counts the call in decoder_tally.h under sizes_of, the m that
 * the sizes were made for: the m passed may be another. */
void decoder_check(const struct decoder_call *c, uint32_t sizes_of);

/* The same, for a call that must have this refusal, 0 if it must be served. */
void decoder_check_as(struct decoder_call *c, uint32_t sizes_of, uint32_t refusal);

/* The same once, for a call that must be served, without the paper decoder: what the
 * call leaves in its outputs is for the caller to judge. The row count, the limits of the
 * ceiling, that each row follows the pairs, the tables, the inputs and all guards are
 * judged here. */
void decoder_check_served(const struct decoder_call *c, uint32_t sizes_of);

/* What the last call answered and left in its outputs. */
struct decoder_outputs {
    uint32_t rows;
    int32_t ceiling;
    const uint8_t *inputs, *words;
    const int32_t *scores;
};
struct decoder_outputs decoder_check_outputs(void);

/* Prints the call and what is wrong with it, and ends the program. */
void decoder_check_fail(const struct decoder_call *c, const char *what);

#endif
