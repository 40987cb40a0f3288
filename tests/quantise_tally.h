/* Counts what the compared calls of the quantiser have reached. */
#ifndef QUANTISE_TALLY_H
#define QUANTISE_TALLY_H

#include "quantise_calls.h"
#include "tally_report.h"

/* Counts a call that was answered rightly, with samples at an address of this remainder by 4. */
void quantise_tally(const struct quantise_call *c, size_t remainder);

/* Counts a served call whose soft values were decoded. */
void quantise_tally_decoded(const struct quantise_call *c);

struct tally_totals quantise_tally_totals(void);

/* Prints the counts. Gives 0 and says so if something was not reached a few times: at some m an
 * accepted call, a refusal, samples at an address of each remainder by 4, soft values that were
 * decoded, and each of the lengths that are named; at some m, as a real and as an imaginary part
 * of either sign, a float of each kind by value, and each of the ends; two faults at once, all
 * three; and each of the wrong m that are named. */
int quantise_tally_report(void);

#endif
