/* Calls of the decoder that look at pairs. */
#ifndef DECODER_PAIRS_H
#define DECODER_PAIRS_H

#include "decoder_calls.h"

/* Every kind of pairs at several stop positions, every way to break a rule, one pair with f
 * or e at several places; for n = 4 every pair of every code by each transform. Ends the
 * program if one is answered wrongly. */
void try_decoder_pairs(uint32_t m, unsigned long rounds);

#endif
