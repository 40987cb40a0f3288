/*
 * Speed of the writer and both readers of result records, with every field standing.
 *
 *   bench_results                   records a second at n = 64, 256 and 1024 with 4 rows, and at
 *                                   n = 1024 with 32
 *   bench_results write|read|operator|plain-write|plain-read|plain-operator M COUNT [ROWS]
 *                                   COUNT records of one kind, and nothing printed, to be
 *                                   counted by a tool; 4 rows where their number is not given
 *
 * The customer's reader is read, and the plain ones are the reference's, in C by the letter of the
 * rules.
 */
#include "caldurrex.h"
#include "draw.h"
#include "reference_result.h"

#include <stdio.h>
#include <stdlib.h>
#include <string.h>
#include <time.h>

enum { MIN_M = 2, MAX_M = 10, MAX_N = 1 << MAX_M, MOST_ROWS = 32, USUAL_ROWS = 4, FRAME = 7 };
enum kind { WRITE, READ, OPERATOR, PLAIN_WRITE, PLAIN_READ, PLAIN_OPERATOR, KINDS };

static const char *const kind_name[KINDS] = {"write",       "read",       "operator",
                                             "plain-write", "plain-read", "plain-operator"};

/* What a record says of its rows, and the record. */
struct rows {
    int32_t scores[MOST_ROWS];
    uint8_t inputs[MOST_ROWS * MAX_N];
    uint8_t record[CALDURREX_RESULT_BYTES];
};

/* A result, and its record by the reference's writer. */
static struct {
    uint32_t m, rows;
    int32_t ceiling;
    size_t inputs_len, record_len;
    struct rows is;
} given;

/* What comes out. */
static struct rows out;

static void need(int ok, const char *what)
{
    if (!ok) {
        fprintf(stderr, "bench_results: %s\n", what);
        exit(1);
    }
}

/* The refusal. All that is lent has the length needed. */
static uint32_t run_one(enum kind kind)
{
    const struct rows *is = &given.is;
    uint32_t rows = given.rows;
    switch (kind) {
    case WRITE:
        return caldurrex_write_result(given.m, rows, FRAME, given.ceiling, is->scores, rows, is->inputs,
                                      given.inputs_len, out.record, given.record_len).refusal;
    case READ:
        return caldurrex_read_result(is->record, given.record_len, out.scores, rows, out.inputs,
                                     given.inputs_len).refusal;
    case OPERATOR:
        return caldurrex_read_result_operator(is->record, given.record_len, out.scores, rows).refusal;
    case PLAIN_WRITE:
        return reference_write_result(given.m, rows, FRAME, given.ceiling, is->scores, rows, is->inputs,
                                      given.inputs_len, out.record, given.record_len).refusal;
    case PLAIN_READ:
        return reference_read_result(is->record, given.record_len, out.scores, rows, out.inputs,
                                     given.inputs_len).refusal;
    default:
        return reference_read_result_operator(is->record, given.record_len, out.scores, rows).refusal;
    }
}

/* The same result at every run: random bits, and scores that fall or stay. */
static void make_result(uint32_t m, uint32_t rows)
{
    size_t n = (size_t)1 << m;
    int32_t score = given.ceiling = 20 * (int32_t)n;
    draw_seed(m);
    given.m = m;
    given.rows = rows;
    given.inputs_len = n * rows;
    given.record_len = 3 + 4 + 4 + 4 * (size_t)rows + (n + 7) / 8 * rows;
    for (size_t r = 0; r < rows; r++)
        given.is.scores[r] = score -= (int32_t)draw_below(40) + (r == 0);
    for (size_t i = 0; i < given.inputs_len; i++)
        given.is.inputs[i] = (uint8_t)draw_below(2);
    need(run_one(PLAIN_WRITE) == 0, "a result was refused");
    memcpy(given.is.record, out.record, given.record_len);
}

/* 1 if what came out is the reference's record, or what it says. */
static int is_right(enum kind kind)
{
    if (kind == WRITE || kind == PLAIN_WRITE)
        return memcmp(out.record, given.is.record, given.record_len) == 0;
    if (memcmp(out.scores, given.is.scores, given.rows * sizeof out.scores[0]) != 0)
        return 0;
    return kind == OPERATOR || kind == PLAIN_OPERATOR || memcmp(out.inputs, given.is.inputs, given.inputs_len) == 0;
}

/* Of what came out before nothing counts. */
static void run(enum kind kind, unsigned long count)
{
    uint32_t refusals = 0;
    memset(&out, 0, sizeof out);
    for (unsigned long i = 0; i < count; i++)
        refusals |= run_one(kind);
    need(refusals == 0, "a call was refused");
    need(count == 0 || is_right(kind), "what came out is wrong");
}

/* By processor time, so that other work on the machine counts little. */
static double runs_a_second(enum kind kind)
{
    for (unsigned long count = 16;; count *= 2) {
        clock_t start = clock();
        run(kind, count);
        double seconds = (double)(clock() - start) / CLOCKS_PER_SEC;
        if (seconds > 0.25)
            return (double)count / seconds;
    }
}

static void time_one(uint32_t m, uint32_t rows)
{
    make_result(m, rows);
    if (rows == USUAL_ROWS)
        printf("n = %-14u", 1u << m);
    else
        printf("with %-2u rows      ", (unsigned)rows);
    for (int kind = 0; kind < KINDS; kind++)
        printf(" %14.0f", runs_a_second((enum kind)kind));
    printf("\n");
}

int main(int argc, char **argv)
{
    if (argc == 1) {
        printf("result records a second with %d rows, the plain ones by the reference\n%18s", USUAL_ROWS, "");
        for (int kind = 0; kind < KINDS; kind++)
            printf(" %14s", kind_name[kind]);
        printf("\n");
        for (uint32_t m = 6; m <= MAX_M; m += 2)
            time_one(m, USUAL_ROWS);
        time_one(MAX_M, MOST_ROWS);
        return 0;
    }
    need(argc == 4 || argc == 5, "give a kind, m, a count and a number of rows, or nothing");
    int kind = 0;
    while (kind < KINDS && strcmp(argv[1], kind_name[kind]) != 0)
        kind++;
    unsigned long m = strtoul(argv[2], NULL, 10), rows = argc > 4 ? strtoul(argv[4], NULL, 10) : USUAL_ROWS;
    need(kind < KINDS && m >= MIN_M && m <= MAX_M, "no such kind or m");
    need(rows >= 1 && rows <= MOST_ROWS, "no such number of rows");
    make_result((uint32_t)m, (uint32_t)rows);
    run((enum kind)kind, strtoul(argv[3], NULL, 10));
    return 0;
}
