/*
 * Makes one call of the library in guarded memory and judges it: by the answer
 * known from how the call was made, by the reference's answer and output, and by
 * what the call left in every lent slice and round it. Keeps count.
 */
#ifndef CODEC_CHECK_H
#define CODEC_CHECK_H

#include "codec_calls.h"

enum { MIN_M = 2, MAX_M = 10 };

/* Gets the memory; seed is for messages. */
void check_open(unsigned long seed);

/* Makes the call with a dirty output. Ends the program with status 1, and says
 * what differs, if anything is not as it must be. Counts the call under sizes_of,
 * the m that the sizes were made for: the m passed may be another. */
void check_call(const struct call *c, uint32_t sizes_of);

/* The same, for a call that must have this answer. */
void check_as(struct call *c, uint32_t sizes_of, uint32_t answer);

/* The output slice of the last call. */
const uint8_t *check_output(void);

/* Prints the call and what is wrong with it, and ends the program. */
void check_fail(const struct call *c, const char *what);

/* All calls, and those by Arikan's transform. */
unsigned long check_count(void);
unsigned long check_arikan_count(void);

/* Prints how often each answer came. Gives 0 if, at some m and by one of both transforms, a
 * refusal that it can have never came, or no call was accepted without pairs, with some, with
 * 256 (or all that a map allows, where n is too small for that), or with a 1 at a frozen
 * position; or if at some m none was accepted that asked for Arikan's transform by another
 * byte than 1. */
int check_report(void);

#endif
