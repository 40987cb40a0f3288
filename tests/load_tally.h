/* Counts what the compared calls of the test load have reached. */
#ifndef LOAD_TALLY_H
#define LOAD_TALLY_H

#include "load_calls.h"
#include "tally_report.h"

/* Counts a call that was answered rightly. */
void load_tally(const struct load_call *c);

/* Counts what was done with a served call: its record was decoded; it went on from the state of
 * the one before. */
void load_tally_decoded(const struct load_call *c);
void load_tally_chained(const struct load_call *c);

struct tally_totals load_tally_totals(void);

/* Prints the counts. Gives 0 and says so if something was not reached a few times: at some m,
 * by one of both transforms, an accepted call, a refusal that it can have, the frame numbers 0,
 * 1 and 2^32 - 1, no pairs, some and 256 (or all that a map allows, where n is too small for
 * that), the states 1, 2^31 and 2^32 - 1, nothing clear and all of it, each of both outputs
 * exactly as long as needed, one byte more, far more, one byte less and none, both too short, a
 * record that was decoded, a load from the state of the one before; at some m a call that asks
 * for Arikan's transform by another byte than 1; a call with two faults at once, for any two
 * that it can have; a way to break the pairs; or a soft value from -40 to 40, of which values
 * has the counts. */
int load_tally_report(const unsigned long *values);

#endif
