/*
 * Compares the writer of result records and both readers of them, the customer's and the
 * operator's, with the reference ones, at every m. What is written is read by both; what the
 * customer is told is written again; and the operator is asked twice, with other packed bits.
 *
 *   compare_result [seed [calls]]
 *
 * A run with the same seed and calls makes the same ones. So many calls of the writer and as many
 * records are drawn at random; those on both sides of every limit, and records of which nothing is
 * left out, come before them.
 */
#include "draw.h"
#include "result_check.h"
#include "result_limits.h"
#include "result_memory.h"
#include "result_read.h"
#include "result_sweep.h"
#include "result_tally.h"
#include "result_try.h"

#include <stdio.h>
#include <stdlib.h>
#include <string.h>

enum { USUAL_CALLS = 100000 };

static struct result_call c;
static struct result_record r;

/* ---- records that are written here */

static const struct {
    uint32_t m, rows, frame;
    int32_t ceiling, scores[3];
    const char *inputs; /* a bit for each digit */
    size_t len;
    const char *record;
} examples[] = {
    {2, 1, 0, 5, {5}, "0110", 8, "\x00\x02\x01\x05\0\0\0\x06"},
    {2, 1, 0, 0, {0}, "1000", 8, "\x00\x02\x01\0\0\0\0\x01"},
    {2, 1, 7, 5, {5}, "0001", 12, "\x01\x02\x01\x07\0\0\0\x05\0\0\0\x08"},
    {2, 1, 0, 6, {5}, "1111", 12, "\x02\x02\x01\x06\0\0\0\x05\0\0\0\x0f"},
    {2, 1, 0, INT32_MAX, {INT32_MIN}, "0000", 12, "\x02\x02\x01\xff\xff\xff\x7f\0\0\0\x80\x00"},
    {2, 1, 0, INT32_MIN, {INT32_MIN}, "1010", 8, "\x00\x02\x01\0\0\0\x80\x05"},
    {2, 1, UINT32_MAX, 0, {-1}, "0100", 16, "\x03\x02\x01\xff\xff\xff\xff\0\0\0\0\xff\xff\xff\xff\x02"},
    {2, 3, 0x01020304, 300, {258, -3, -3}, "100001000010", 26,
     "\x03\x02\x03\x04\x03\x02\x01\x2c\x01\0\0\x02\x01\0\0\xfd\xff\xff\xff\xfd\xff\xff\xff\x01\x02\x04"},
    {3, 2, 0, 9, {9, -256}, "1000000001111111", 13, "\x00\x03\x02\x09\0\0\0\x00\xff\xff\xff\x01\xfe"},
    {4, 2, 1, 2, {1, 0}, "10000000010000000010000000000001", 23,
     "\x03\x04\x02\x01\0\0\0\x02\0\0\0\x01\0\0\0\0\0\0\0\x01\x02\x04\x80"},
};

static void run_written(void)
{
    for (size_t i = 0; i < sizeof examples / sizeof examples[0]; i++) {
        result_call_good(&c, examples[i].m, examples[i].rows, 0);
        c.says.frame = examples[i].frame;
        c.says.ceiling = examples[i].ceiling;
        memcpy(c.says.scores, examples[i].scores, sizeof examples[i].scores);
        for (size_t j = 0; j < c.inputs_len; j++)
            c.says.inputs[j] = (uint8_t)(examples[i].inputs[j] - '0');
        result_call_again(&c);
        result_check(&c);
        if (result_call_need(&c) != examples[i].len ||
            memcmp(result_output(), examples[i].record, examples[i].len) != 0)
            result_fail(&c, "an example differs");
        result_try_call(&c);
    }
}

/* ---- records that both readers refuse, next to some of these */

static const struct {
    uint32_t refusal;
    size_t len;
    const char *record;
} refused[] = {
    {13, 0, ""}, {14, 1, "\x04"}, {14, 1, "\x80"}, {14, 1, "\xff"}, {13, 1, "\x00"}, {13, 1, "\x03"},
    {14, 2, "\x04\x01"}, {13, 2, "\x00\x01"}, {13, 2, "\x00\x02"}, {13, 2, "\x03\xff"},
    {14, 3, "\x05\x01\x00"}, {1, 3, "\x00\x01\x00"}, {1, 3, "\x00\x0b\x01"}, {4, 3, "\x00\x02\x00"},
    {4, 3, "\x00\x02\x21"}, {4, 3, "\x00\x0a\xff"}, {13, 3, "\x00\x02\x01"}, {13, 3, "\x00\x0a\x20"},
    {13, 7, "\x00\x02\x01\x05\0\0\0"}, {13, 9, "\x00\x02\x01\x05\0\0\0\x06\x00"},
    {13, 8, "\x01\x02\x01\x05\0\0\0\x06"}, {13, 12, "\x00\x02\x01\x07\0\0\0\x05\0\0\0\x08"},
    {22, 12, "\x01\x02\x01\0\0\0\0\x05\0\0\0\x08"},     /* frame number 0 */
    {22, 12, "\x02\x02\x01\x05\0\0\0\x05\0\0\0\x0f"},   /* ceiling 5, score 5 */
    {22, 12, "\x02\x02\x01\x04\0\0\0\x05\0\0\0\x0f"},   /* ceiling 4 */
    {22, 12, "\x02\x02\x01\0\0\0\x80\xff\xff\xff\x7f\x0f"}, /* ceiling -2^31, score 2^31 - 1 */
    {22, 12, "\x02\x02\x01\xff\xff\xff\xff\0\0\0\0\xff"}, /* ceiling -1, score 0, and packed bits past n */
    {22, 13, "\x00\x02\x02\x05\0\0\0\x06\0\0\0\x01\x02"}, /* scores 5, 6 */
    {22, 13, "\x00\x02\x02\0\0\0\x80\xff\xff\xff\x7f\x01\x02"}, /* scores -2^31, 2^31 - 1 */
};

static void run_refused(void)
{
    for (size_t i = 0; i < sizeof refused / sizeof refused[0]; i++) {
        result_record_good(&r, 2, 1, 0);
        memcpy(r.bytes, refused[i].record, refused[i].len);
        r.len = refused[i].len;
        r.refusal = refused[i].refusal;
        result_try_record(&r);
    }
}

/* ---- random calls and records */

/* Half of the calls are good, the others have one fault, two, or any set of them. */
static unsigned draw_faults(size_t refusals)
{
    unsigned one = 1u << draw_below(refusals), other = 1u << draw_below(refusals);
    const unsigned sets[6] = {0, 0, 0, one, one | other, (unsigned)draw_below((size_t)1 << refusals)};
    return sets[draw_below(6)];
}

static void draw_call(void)
{
    uint32_t m = result_draw_m();
    result_call_any(&c, m);
    c.record_len = result_output_len(&c, SHORT_OUTPUTS + draw_below(OUTPUTS - SHORT_OUTPUTS - (draw_below(16) > 0)));
    result_call_spoil(&c, draw_faults(WRITE_REFUSALS));
}

/* Behind a good head, random scores seldom fall where there are many. */
static void draw_record(void)
{
    uint32_t m = result_draw_m();
    size_t kind = draw_below(2 * (RECORD_KINDS - RECORD_RANDOM));
    result_record_any(&r, m);
    if (kind >= RECORD_KINDS - RECORD_RANDOM) {
        result_record_spoil(&r, draw_faults(READ_REFUSALS));
        return;
    }
    if (RECORD_RANDOM + kind == RECORD_RANDOM_BODY) {
        uint32_t rows = 1 + (uint32_t)draw_below(3);
        result_record_good(&r, m, rows, result_draw_fields());
    }
    result_record_random(&r, (enum record_kind)(RECORD_RANDOM + kind));
}

static void try_random(unsigned long calls)
{
    for (; calls > 0; calls--) {
        draw_call();
        result_try_call(&c);
        draw_record();
        result_try_record(&r);
    }
}

int main(int argc, char **argv)
{
    unsigned long seed = argc > 1 ? strtoul(argv[1], NULL, 10) : 1;
    unsigned long calls = argc > 2 ? strtoul(argv[2], NULL, 10) : USUAL_CALLS;
    printf("compare_result: seed %lu, calls %lu and as many records, and those on both sides of every limit\n", seed,
           calls);
    draw_seed(seed);
    result_memory_open(seed);
    result_check_open();
    result_read_open();
    run_written();
    run_refused();
    result_try_above_32_bits();
    for (uint32_t m = RESULT_MIN_M; m <= RESULT_MAX_M; m++) {
        result_try_limits(m);
        result_try_damage(m);
    }
    result_sweep_values();
    result_sweep_lengths();
    result_sweep_heads();
    try_random(calls);
    if (!(result_tally_report() & result_read_tally_report())) {
        printf("compare_result: FAILED: not all was reached (seed %lu)\n", seed);
        return 1;
    }
    struct tally_totals w = result_tally_totals(), t = result_read_tally_totals();
    printf("compare_result: %lu calls of the writer agree, %lu accepted and %lu refused; %lu records agree by both "
           "readers, %lu read by the customer and written again, %lu refused; %lu more of a sweep are refused by both "
           "(seed %lu)\n",
           w.accepted + w.refused, w.accepted, w.refused, t.accepted + t.refused, result_written_again(), t.refused,
           result_swept(), seed);
    return 0;
}
