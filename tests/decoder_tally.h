/* Counts what the compared calls of the decoder have reached. */
#ifndef DECODER_TALLY_H
#define DECODER_TALLY_H

#include "decoder_calls.h"
#include "decoder_check.h"

/* Counts a call that was answered rightly; if it was served, with these outputs. */
void decoder_tally(const struct decoder_call *c, uint32_t sizes_of, const struct decoder_outputs *out);

/* All calls, and those by Arikan's transform. */
unsigned long decoder_tally_calls(void);
unsigned long decoder_tally_arikan_calls(void);

/* Prints the counts. Gives 0 and says so if something was never reached: at some m, by one of
 * both transforms, an accepted call, a refusal that it can have, a kind of stop position (every one at
 * n = 4 to 32, above that 0, 1, odd and even ones, n - 1 and n), a kind of ceiling
 * (above the first score; equal to it where prefixes were dropped, at stop n and before;
 * equal to it because none was), or something of pairs (no pair; some; 256, or all that a map
 * allows where n is too small for that; a row with a 1 at a frozen position; there a 0 in
 * another row of the call); at some m a call that asks for Arikan's transform by another
 * byte than 1; in some range of m a list size (every one up to m = 8, above that 1 and 32),
 * or by one of both transforms a code with no, some or all positions frozen, a cut of the
 * list, or equal scores in it. */
int decoder_tally_report(void);

#endif
