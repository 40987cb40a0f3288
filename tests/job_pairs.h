/* Calls of the record reader that look at pairs. */
#ifndef JOB_PAIRS_H
#define JOB_PAIRS_H

#include "job_calls.h"

/* Every kind of pairs, with slices for them round the length needed; the number of pairs on
 * both sides of 256, with the length right and wrong; records that end about the number;
 * every way to break a rule. Ends the program if one is answered wrongly. */
void try_job_pairs(uint32_t m, unsigned long rounds);

#endif
