/*
 * A writer of result records and both readers of them, written from the rules alone, to
 * compare the library with. They share no code with the library.
 */
#ifndef REFERENCE_RESULT_H
#define REFERENCE_RESULT_H

#include "reference_writer.h"

#include <stddef.h>
#include <stdint.h>

/* No record is longer: map, m, row count, frame number, ceiling and 32 scores, which an operator
 * may see; then 32 rows of 1,024 bits. */
enum { REFERENCE_RESULT_ROWS = 32, REFERENCE_OPEN_BYTES = 3 + 4 + 4 + 4 * REFERENCE_RESULT_ROWS };
enum { REFERENCE_RESULT_BYTES = REFERENCE_OPEN_BYTES + 128 * REFERENCE_RESULT_ROWS };

/* 0 and what the record says; or the refusal number, and 0 for all the rest. */
struct reference_result {
    uint32_t refusal, m, rows, frame;
    int32_t ceiling;
};

/* Takes and answers what caldurrex_write_result does. */
struct reference_length reference_write_result(uint32_t m, uint32_t rows, uint32_t frame, int32_t ceiling,
                                               const int32_t *scores, size_t scores_len,
                                               const uint8_t *inputs, size_t inputs_len,
                                               uint8_t *record, size_t record_len);

/* Takes and answers what caldurrex_read_result does. */
struct reference_result reference_read_result(const uint8_t *record, size_t record_len,
                                              int32_t *scores, size_t scores_len,
                                              uint8_t *inputs, size_t inputs_len);

/* Takes and answers what caldurrex_read_result_operator does. */
struct reference_result reference_read_result_operator(const uint8_t *record, size_t record_len,
                                                       int32_t *scores, size_t scores_len);

#endif
