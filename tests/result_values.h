/*
 * Results, as the writer of a record takes them and a reader gives them, drawn at random; and
 * results that no record may say.
 */
#ifndef RESULT_VALUES_H
#define RESULT_VALUES_H

#include <stddef.h>
#include <stdint.h>

enum { RESULT_MIN_M = 2, RESULT_MAX_M = 10, RESULT_MAX_ROWS = 32 };

/* The two fields that may be absent; the bits of a record's first byte. */
enum { RESULT_FRAME = 1, RESULT_CEILING = 2, RESULT_FIELD_SETS = 4 };

/* No slice has more elements. 65,536 more than are right is a length of which two bytes are
 * right; there is room for one m and one row too many. */
enum { SCORES_ROOM = 65536 + 2 * RESULT_MAX_ROWS, INPUTS_ROOM = 65536 + 33 * 1024 };

struct result {
    uint32_t m, rows, frame;
    int32_t ceiling;
    int32_t scores[SCORES_ROOM]; /* one a row */
    uint8_t inputs[INPUTS_ROOM]; /* n a row */
};

/* A good result: of the two fields those of the set have another value than absence means, and
 * the others have that one. m up to 11 and up to 33 rows are drawn too. */
void result_draw(struct result *r, uint32_t m, uint32_t rows, unsigned fields);

/* So many rows as are asked for often: one, 32, or some between; for a large m mostly few. */
uint32_t result_draw_rows(uint32_t m);

/* Any m, every second time a small one; and any set of fields. */
uint32_t result_draw_m(void);
unsigned result_draw_fields(void);

/* The fields that must stand in the record of a good result. */
unsigned result_fields(const struct result *r);

/* The packed bytes of a row, the bytes of a record before the packed ones, and all of them. */
size_t result_packed_row(uint32_t m);
size_t result_open_bytes(uint32_t rows, unsigned fields);
size_t result_need(uint32_t m, uint32_t rows, unsigned fields);

/* Numbers of 32 bits: any, and one from a row of those at which something ends. */
enum { END_NUMBERS = 14 };
int32_t result_any_number(void);
int32_t result_end_number(size_t which);

/* A number above a score that is not the highest of all, and one below a score that is not the
 * lowest: next to it, at the end, or between. */
int32_t result_number_above(int32_t score);
int32_t result_number_below(int32_t score);

/* Holds so many scores, which fall or stay, within most. */
void result_hold(int32_t *scores, size_t rows, int32_t most);

/* Makes the scores of a good result rise at a row, which is not the first, and there only. */
void result_rise(struct result *r, size_t at);

/* Puts the ceiling of a good result below the first score. */
void result_sink_ceiling(struct result *r);

/* 1 if the difference of two numbers, of which the first is not the lower one, needs more than 32
 * bits with a sign. */
int result_is_far(int32_t high, int32_t low);

/* The first row whose score is above the one before it; the row count if there is none. */
size_t result_first_rise(const struct result *r);

#endif
