/*
 * Makes one call of the record writer in guarded memory and judges it: by what is known
 * from how the call was made, by the reference's answer and output, and by what the call
 * left in every slice and round it.
 */
#ifndef WRITER_CHECK_H
#define WRITER_CHECK_H

#include "writer_calls.h"

/* Gets the memory; seed is for messages. */
void writer_check_open(unsigned long seed);

/* Makes the call, with an output that is dirty before. Ends the program with status 1, and
 * says what differs, if anything is not as it must be. */
void writer_check(const struct writer_call *c);

/* The output of the call made last; it is there until the next one. */
const uint8_t *writer_output(void);

/* Says what is wrong with a call and ends the program. */
void writer_fail(const struct writer_call *c, const char *what);

#endif
