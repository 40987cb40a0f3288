/*
 * Makes one call of the writer of result records in guarded memory and judges it: by what is
 * known from how the call was made, by the reference's answer and output, and by what the call
 * left in every slice and round it.
 */
#ifndef RESULT_CHECK_H
#define RESULT_CHECK_H

#include "result_calls.h"

/* Gets the memory. */
void result_check_open(void);

/* Makes the call, with an output that is dirty before. Ends the program with status 1, and says
 * what differs, if anything is not as it must be. */
void result_check(const struct result_call *c);

/* The output of the call made last; it is there until the next one. */
const uint8_t *result_output(void);

/* Says what is wrong with a call and ends the program. */
void result_fail(const struct result_call *c, const char *what);

#endif
