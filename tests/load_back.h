/* What a test load has made, read back and decoded. */
#ifndef LOAD_BACK_H
#define LOAD_BACK_H

#include "load_calls.h"

/* Soft values of a load go from -LOAD_MOST to LOAD_MOST. */
enum { LOAD_MOST = 40, LOAD_VALUES = 2 * LOAD_MOST + 1 };

/* Of a served call, and of what it has made: both readers, the library's and the reference's,
 * give the call's code, its frame number, list size 4, stop n and the same soft values; and
 * each of these has the sign of its bit in the payload's code word, by the library's encoder,
 * or is 0. Ends the program if anything is not so. */
void load_back(const struct load_call *c, const uint8_t *record, const uint8_t *payload);

/* Decodes the record that was read last, with a list of this size: the ceiling is the sum of the
 * magnitudes of the soft values, and no score is above it. Ends the program if not. */
void load_decode(const struct load_call *c, uint32_t list_size);

/* How often each soft value was met: -LOAD_MOST is at place 0. */
const unsigned long *load_values(void);

#endif
