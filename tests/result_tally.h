/* Counts what the compared calls of the writer of result records and of its readers have
 * reached. */
#ifndef RESULT_TALLY_H
#define RESULT_TALLY_H

#include "result_read.h"
#include "tally_report.h"

/* Counts a call of the writer that was answered rightly. */
void result_tally(const struct result_call *c);

/* Counts a record that both readers have answered so, and rightly. */
void result_read_tally(const struct result_record *r, struct result_answers answers);

/* Counts a record in which this bit of the first bytes was flipped. */
enum { FLIPPED_BYTES = 15 };
void result_read_tally_flip(uint32_t m, size_t bit);

/* Calls of the writer; records, by what the customer was answered. */
struct tally_totals result_tally_totals(void);
struct tally_totals result_read_tally_totals(void);

/* Prints the counts. Gives 0 and says so if something was not reached a few times, at some m: an
 * accepted call and each refusal; what the tables name; two faults at once, for any two; a byte 2,
 * a byte 255 and a last byte above 1, alone in each of 32 rows; lengths as for a wrong m; a record
 * of the greatest length. */
int result_tally_report(void);

/* The same for records: an answer of each reader; what the tables name; two faults at once, for
 * any two that can be; each bit of the first bytes flipped; and for n = 4 each of the four bits
 * past n, alone, in each of 32 rows. */
int result_read_tally_report(void);

#endif
