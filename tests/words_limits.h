/* Calls that list words, on both sides of every limit. */
#ifndef WORDS_LIMITS_H
#define WORDS_LIMITS_H

#include <stdint.h>

/* Every number that is passed, every length and every kind of pairs on both sides of what is
 * refused, and sets of faults: of all that there are, one in so many. Ends the program if a call
 * is answered wrongly. */
void words_limits(uint32_t m, unsigned one_in);

/* Lengths that look right, or short, to 32 bits. */
void words_above_32_bits(void);

#endif
