/* Calls of the encoder and the extractor that look at pairs. */
#ifndef CODEC_PAIRS_H
#define CODEC_PAIRS_H

#include "codec_calls.h"

/* Every kind of pairs, every way to break a rule, one pair with f or e at each place; for
 * n = 4 every pair, and every two, by each transform. Ends the program if one is answered
 * wrongly. */
void try_pairs(enum call_kind kind, uint32_t m, unsigned long rounds);

#endif
