/*
 * Speed of the reader and the writer of job records, half of the positions frozen and every
 * field standing, but for pairs where there are none, and of the test load of the same code.
 *
 *   bench_records                   records and loads a second at n = 64, 256 and 1024, and at
 *                                   n = 1024 with 256 pairs
 *   bench_records read|write|plain-read|plain-write|load|plain-load M COUNT [PAIRS]
 *                                   COUNT records of one kind, or so many loads, and nothing
 *                                   printed, to be counted by a tool
 *
 * The plain ones are the reference's, in C by the letter of the rules.
 */
#include "caldurrex.h"
#include "decoder_calls.h"
#include "draw.h"
#include "reference_codec.h"
#include "reference_job.h"
#include "reference_load.h"
#include "reference_writer.h"

#include <stdio.h>
#include <stdlib.h>
#include <string.h>
#include <time.h>

enum { MAX_N = DECODER_MAX_N, FRAME = 7, STATE = 1 };
enum kind { READ, WRITE, PLAIN_READ, PLAIN_WRITE, LOAD, PLAIN_LOAD, KINDS };

static const char *const kind_name[KINDS] = {"read", "write", "plain-read", "plain-write", "load", "plain-load"};

/* A record, and the payload of a test load. */
struct made {
    uint8_t record[CALDURREX_RECORD_BYTES], payload[MAX_N];
    size_t len, k;
};

/* A job, its record by the reference's writer, and the reference's test load of its code. */
static struct {
    struct decoder_call job;
    struct made record, load;
} given;

/* What comes out. */
static struct {
    struct made made;
    uint8_t map[MAX_N / 8], pairs[4 * PAIRS_MOST];
    int16_t soft[MAX_N];
} out;

static void need(int ok, const char *what)
{
    if (!ok) {
        fprintf(stderr, "bench_records: %s\n", what);
        exit(1);
    }
}

/* The refusal, with what the call is lent. */
static uint32_t run_one(enum kind kind)
{
    const struct decoder_call *job = &given.job;
    struct made *made = &out.made;
    switch (kind) {
    case READ:
        return caldurrex_read_job(given.record.record, given.record.len, out.map, sizeof out.map, out.soft, MAX_N,
                                  out.pairs, sizeof out.pairs).refusal;
    case WRITE:
        return caldurrex_write_job(job->m, job->arikan, job->map, job->map_len, job->pairs.bytes, job->pairs.len,
                                   job->list_size, job->stop, FRAME, job->soft, job->soft_len, made->record,
                                   given.record.len).refusal;
    case PLAIN_READ:
        return reference_read_job(given.record.record, given.record.len, out.map, sizeof out.map, out.soft, MAX_N,
                                  out.pairs, sizeof out.pairs).refusal;
    case PLAIN_WRITE:
        return reference_write_job(job->m, job->arikan, job->map, job->map_len, job->pairs.bytes, job->pairs.len,
                                   job->list_size, job->stop, FRAME, job->soft, job->soft_len, made->record,
                                   given.record.len).refusal;
    case LOAD:
        return caldurrex_test_load(STATE, job->m, job->arikan, job->map, job->map_len, job->pairs.bytes,
                                   job->pairs.len, FRAME, made->record, given.load.len, made->payload,
                                   given.load.k).refusal;
    default:
        return reference_test_load(STATE, job->m, job->arikan, job->map, job->map_len, job->pairs.bytes,
                                   job->pairs.len, FRAME, made->record, given.load.len, made->payload,
                                   given.load.k).refusal;
    }
}

/* The same job at every run; none of its soft values is -2,048, so they are read back as they are.
 * A load's record has no list size and no stop position. */
static void make_job(uint32_t m, size_t pairs)
{
    struct decoder_call *job = &given.job;
    draw_seed(m);
    decoder_call_good(job, m, CODE_POLAR, SOFT_SMALL, 8, ((uint32_t)1 << m) - 1);
    pairs_spread(&job->pairs, job->map, (size_t)1 << m, pairs);
    given.record.len = 2 + 1 + 2 + 4 + job->map_len + (pairs > 0 ? 2 + job->pairs.len : 0) + 2 * job->soft_len;
    given.load.len = given.record.len - 1 - 2;
    given.load.k = reference_clear(job->map, job->soft_len);
    need(run_one(PLAIN_WRITE) == 0, "a record was refused");
    memcpy(given.record.record, out.made.record, given.record.len);
    need(run_one(PLAIN_LOAD) == 0, "a load was refused");
    memcpy(given.load.record, out.made.record, given.load.len);
    memcpy(given.load.payload, out.made.payload, given.load.k);
}

/* 1 if what came out is what the reference makes, or the job itself. */
static int is_right(enum kind kind)
{
    const struct decoder_call *job = &given.job;
    if (kind == READ || kind == PLAIN_READ)
        return memcmp(out.map, job->map, job->map_len) == 0 &&
               memcmp(out.pairs, job->pairs.bytes, job->pairs.len) == 0 &&
               memcmp(out.soft, job->soft, job->soft_len * sizeof job->soft[0]) == 0;
    const struct made *right = kind == WRITE || kind == PLAIN_WRITE ? &given.record : &given.load;
    return memcmp(out.made.record, right->record, right->len) == 0 &&
           memcmp(out.made.payload, right->payload, right->k) == 0;
}

static void run(enum kind kind, unsigned long count)
{
    uint32_t refusals = 0;
    for (unsigned long i = 0; i < count; i++)
        refusals |= run_one(kind);
    need(refusals == 0, "a call was refused");
    need(count == 0 || is_right(kind), "what came out is wrong");
}

/* By processor time, so that other work on the machine counts little. */
static double runs_a_second(enum kind kind)
{
    for (unsigned long count = 16;; count *= 2) {
        clock_t start = clock();
        run(kind, count);
        double seconds = (double)(clock() - start) / CLOCKS_PER_SEC;
        if (seconds > 0.25)
            return (double)count / seconds;
    }
}

static void time_one(uint32_t m, size_t pairs)
{
    make_job(m, pairs);
    if (pairs == 0)
        printf("n = %-14zu", given.job.soft_len);
    else
        printf("with %zu pairs    ", pairs);
    for (int kind = 0; kind < KINDS; kind++)
        printf(" %11.0f", runs_a_second((enum kind)kind));
    printf("\n");
}

int main(int argc, char **argv)
{
    if (argc == 1) {
        printf("records and loads a second, the plain ones by the reference\n%18s", "");
        for (int kind = 0; kind < KINDS; kind++)
            printf(" %11s", kind_name[kind]);
        printf("\n");
        for (uint32_t m = 6; m <= DECODER_MAX_M; m += 2)
            time_one(m, 0);
        time_one(DECODER_MAX_M, PAIRS_MOST);
        return 0;
    }
    need(argc == 4 || argc == 5, "give a kind, m, a count and a number of pairs, or nothing");
    int kind = 0;
    while (kind < KINDS && strcmp(argv[1], kind_name[kind]) != 0)
        kind++;
    unsigned long m = strtoul(argv[2], NULL, 10), pairs = argc > 4 ? strtoul(argv[4], NULL, 10) : 0;
    need(kind < KINDS && m >= 3 && m <= DECODER_MAX_M && pairs <= PAIRS_MOST, "no such kind, m or number of pairs");
    make_job((uint32_t)m, pairs);
    run((enum kind)kind, strtoul(argv[3], NULL, 10));
    return 0;
}
