/* Counts what the compared calls of the record writer have reached. */
#ifndef WRITER_TALLY_H
#define WRITER_TALLY_H

#include "tally_report.h"
#include "writer_calls.h"

/* Counts a call that was answered rightly. */
void writer_tally(const struct writer_call *c);

struct tally_totals writer_tally_totals(void);

/* Prints the counts. Gives 0 and says so if something was not reached a few times: at some m,
 * by one of both transforms, an accepted call, a refusal that it can have, each of the four
 * fields left out and standing, a soft value of -2,048, 256 pairs (or all that a map allows,
 * where n is too small for that), an output of exactly the record's length, one byte more, far
 * more, one byte less and none; at some m a call that asks for Arikan's transform by another
 * byte than 1; a call with two faults at once, for any two that it can have; a way to break the
 * pairs; a record of the greatest length; or, in another form of a record, one of the FORMS of
 * writer_back.h, which has counted them. */
int writer_tally_report(const unsigned long *forms);

#endif
