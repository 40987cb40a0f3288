/* Counts what the runs of the program have reached. */
#ifndef PROGRAM_TALLY_H
#define PROGRAM_TALLY_H

#include "job_calls.h"

/* The answer of an output that the reference gives: a refusal number, or 0 if served. */
uint32_t program_answer(const char *want);

/* Counts a run on this record that printed what the reference gives. */
void program_tally(const struct job_record *r, const char *want);

/* Served runs on records with Arikan's transform. */
unsigned long program_tally_arikan(void);

/* Prints the counts. Gives 0 if something was never reached: a kind of record; an answer that
 * the program can give; a ceiling below, at and above 0, and one above the first score; a
 * served record with each m, list size, set of fields with each transform; at each m, too, one
 * with Arikan's transform, with pairs, with 256 of them (or all that a map allows, where n is
 * too small for that), and with a row that has a 1 at a frozen position; or if less than a
 * third of all runs was served. */
int program_tally_report(unsigned long runs);

#endif
