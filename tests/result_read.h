/*
 * Has both readers of result records read one, in guarded memory, and judges them: by what is
 * known from how the record was made, by the reference's answers and outputs, by what was left in
 * every slice and round it, and by each other.
 */
#ifndef RESULT_READ_H
#define RESULT_READ_H

#include "result_records.h"

/* Gets the memory. */
void result_read_open(void);

/* The refusals, 0 for a record that was read; and whether the operator's second record was really
 * another one. */
struct result_answers {
    uint32_t customer, operator;
    int was_another;
};

/* Makes a call of the customer's reader and two of the operator's: the second one gets another
 * record of the same length, which differs from the packed bits on, and scores that hold something
 * else before. It must answer and give the same. Ends the program with status 1, and says what
 * differs, if anything is not as it must be. */
struct result_answers result_read(const struct result_record *r);

/* A call of the writer with what the customer was told last, which was read. */
void result_read_again(struct result_call *c);

/* Says what is wrong with the reading of a record and ends the program. */
void result_record_fail(const struct result_record *r, const char *what);

#endif
