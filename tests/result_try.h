/*
 * Calls of the writer and records for both readers, each of which is checked and counted; and what
 * one of them gives is handed on to the others.
 */
#ifndef RESULT_TRY_H
#define RESULT_TRY_H

#include "result_records.h"

/* Makes a call of the writer. What it has written both readers read. */
void result_try_call(const struct result_call *c);

/* The same for a call with one fault, or none, that is refused so. */
void result_try_call_as(struct result_call *c, uint32_t refusal);

/* Has both readers read a record. What the customer is told gives the same bytes when it is
 * written. */
void result_try_record(const struct result_record *r);

/* Makes a bit of one of the first bytes of a good record the other one, and tries that. */
void result_try_flip(struct result_record *r, size_t bit);

/* Records that were written again. */
unsigned long result_written_again(void);

#endif
