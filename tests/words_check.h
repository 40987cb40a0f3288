/*
 * Makes one call that lists words in guarded memory and judges it: by what is known from how
 * the call was made, by the reference's answer and outputs or by the number of words and each
 * row for itself, and by what the call left in every lent slice and round it.
 */
#ifndef WORDS_CHECK_H
#define WORDS_CHECK_H

#include "words_calls.h"

#include <stddef.h>
#include <stdint.h>

/* seed is for messages. */
void words_check_open(unsigned long seed);

/* Makes the call twice, on differently dirtied memory, and compares every byte with what the
 * reference leaves. Ends the program with status 1, and says what differs, if anything is not as
 * it must be. A call that is not refused before any word is looked at has k up to
 * REFERENCE_LISTED_K. Counts the call in words_tally.h. */
void words_check(const struct words_call *c);

/* The same, for a call that must have this refusal, 0 if it must be served. */
void words_check_as(struct words_call *c, uint32_t refusal);

/* The same once and without the reference, for a call of which so many words reach the mark and
 * which is not refused before any word is looked at. Each row is judged for itself: it is an
 * input of the code and its word, its score is the word's correlation and at the mark or above,
 * and its input is above that of the row before it. */
void words_check_counted(struct words_call *c, size_t count);

/* For a refused call of n = 4 with nothing frozen, no pairs and soft values of 0, which has a slice
 * longer than any guarded one: this one (as decoder_memory.h numbers them), in memory of its
 * length that is 0 and can only be read. It is not counted. */
void words_check_far(const struct words_call *c, size_t slice, uint8_t *memory);

/* What the last call answered and left in its outputs. */
struct words_outputs {
    uint32_t refusal, count;
    const uint8_t *inputs, *words;
    const int32_t *scores;
};
struct words_outputs words_check_outputs(void);

/* Prints the call and what is wrong with it, and ends the program. */
void words_check_fail(const struct words_call *c, const char *what);

#endif
