/*
 * Makes one call of the test load in guarded memory and judges it: by what is known from how
 * the call was made, by the reference's answer and outputs, and by what the call left in every
 * slice and round it.
 */
#ifndef LOAD_CHECK_H
#define LOAD_CHECK_H

#include "load_calls.h"

/* Gets the memory; seed is for messages. */
void load_check_open(unsigned long seed);

/* Makes the call, with outputs that are dirty before. Ends the program with status 1, and says
 * what differs, if anything is not as it must be. Gives the next state, 0 for a refused call. */
uint32_t load_check(const struct load_call *c);

/* The outputs of the call made last; they are there until the next one. */
const uint8_t *load_record(void);
const uint8_t *load_payload(void);

/* Says what is wrong with a call and ends the program. */
void load_fail(const struct load_call *c, const char *what);

#endif
