/*
 * Makes one call of the record reader in guarded memory and judges it: by what is known
 * from how the record was made, by the reference's answer and outputs, and by what the
 * call left in every slice and round it. Keeps count.
 */
#ifndef JOB_CHECK_H
#define JOB_CHECK_H

#include "job_calls.h"

/* Gets the memory; seed is for messages. */
void job_check_open(unsigned long seed);

/* Makes the call with slices of these lengths, dirty before. Ends the program with
 * status 1, and says what differs, if anything is not as it must be. */
void job_check(const struct job_record *r, size_t map_len, size_t soft_len, size_t pairs_len);

/* The same for a record that must have this refusal, or be read if it is 0, with slices that
 * are long enough. */
void job_check_as(struct job_record *r, uint32_t refusal);

/* All calls, and those with a record made for Arikan's transform. */
unsigned long job_check_count(void);
unsigned long job_check_arikan_count(void);

/* Prints how often each answer came. Gives 0 if, for records made for some m and for one of
 * both transforms, a refusal that they can have never came, none was read, or something of
 * pairs was never met: a record without the field, with the number 0, with pairs, with 256 of
 * them (or all that a map allows, where n is too small for that); a slice for them that was
 * too short, the others not; one that was longer than they are. */
int job_check_report(void);

#endif
