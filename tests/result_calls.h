/*
 * Calls of the writer of result records, made at random so that the answer is known from how a
 * call was made.
 */
#ifndef RESULT_CALLS_H
#define RESULT_CALLS_H

#include "result_values.h"

/* The refusals of a call, first one first, as the rules have them. */
enum { WRITE_REFUSALS = 6, WRITE_FAULT_SETS = 1 << WRITE_REFUSALS };
extern const uint32_t result_write_order[WRITE_REFUSALS];

/* No output is longer. */
enum { RECORD_ROOM = 65536 + 2 * 4235 };

struct result_call {
    struct result says; /* what is passed; m and rows may be wrong */
    size_t scores_len, inputs_len, record_len;
    uint32_t m_of, rows_of; /* those that the lengths were made for */
    unsigned faults;        /* bit j: made for refusal result_write_order[j] */
    uint32_t refusal;       /* what the call must be refused with; 0 if it must be served */
};

/* A call that is served, with a result drawn as result_draw has it. The output is as long as the
 * record. */
void result_call_good(struct result_call *c, uint32_t m, uint32_t rows, unsigned fields);

/* The same without a choice: any rows and fields. */
void result_call_any(struct result_call *c, uint32_t m);

/* The lengths, fields and answer for what the call says, which was changed and is good again. */
void result_call_again(struct result_call *c);

/* The length of the record of a call that would be served. */
size_t result_call_need(const struct result_call *c);

/* A call that is laid out in all lengths for an m or a row count which is refused: m up to 11, up
 * to 33 rows. */
void result_call_laid_out(struct result_call *c, uint32_t m, uint32_t rows, unsigned fields);

/* What makes a good call faulty; which is below the count given. */
enum { BAD_ROWS = 18, BAD_LENGTHS = 24, SHORT_OUTPUTS = 5, OUTPUTS = 11 };
uint32_t result_bad_rows(uint32_t rows, size_t which);
void result_set_bad_lengths(struct result_call *c, size_t which);
void result_set_byte(struct result_call *c, size_t row, size_t position, uint8_t byte);

/* Lengths of the output, of which the first are too short. */
size_t result_output_len(const struct result_call *c, size_t which);

/* Makes a good call faulty: bit j of faults asks for refusal result_write_order[j]. The call's
 * refusal becomes the first that applies, 0 if none. */
void result_call_spoil(struct result_call *c, unsigned faults);

#endif
