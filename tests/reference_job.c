#include "reference_job.h"

#include "paper_decoder.h"
#include "paper_score.h"
#include "reference_codec.h"

#include <stdio.h>
#include <string.h>

/* The bits of a record's first byte: fields, the transform, and those that must be 0. */
enum { HAS_LIST_SIZE = 1, HAS_STOP = 2, HAS_FRAME = 4, HAS_PAIRS = 8, IS_ARIKAN = 16, MUST_BE_0 = 0xe0 };

/* The next number of count bytes, low byte first; at goes behind it. */
static uint32_t take(const uint8_t **at, size_t count)
{
    uint32_t number = 0;
    for (size_t i = 0; i < count; i++)
        number += (uint32_t)(*at)[i] << (8 * i);
    *at += count;
    return number;
}

/* ---- the reader */

/* The refusals that look at no more than the first two bytes, the number of pairs and the
 * length. */
static uint32_t shape_refusal(const uint8_t *record, size_t len)
{
    if (len == 0)
        return 13;
    if (record[0] & MUST_BE_0)
        return 14;
    if (len == 1)
        return 13;
    if (record[1] < 2 || record[1] > REFERENCE_MAX_M)
        return 1;
    size_t n = (size_t)1 << record[1], need = 2;
    need += record[0] & HAS_LIST_SIZE ? 1 : 0;
    need += record[0] & HAS_STOP ? 2 : 0;
    need += record[0] & HAS_FRAME ? 4 : 0;
    need += (n + 7) / 8;
    if (record[0] & HAS_PAIRS) {
        const uint8_t *at = record + need;
        need += 2;
        if (len < need)
            return 13;
        uint32_t count = take(&at, 2);
        if (count > REFERENCE_MAX_PAIRS)
            return 15;
        need += REFERENCE_PAIR_BYTES * count;
    }
    return len == need + 2 * n ? 0 : 13;
}

/* A record of the right length taken apart; its fields may be out of range. */
struct parts {
    struct reference_job job;
    size_t n, map_len, pairs_len;
    const uint8_t *map, *pairs;
    int16_t soft[REFERENCE_MAX_N];
};

static void take_apart(const uint8_t *record, struct parts *p)
{
    uint8_t fields = record[0];
    const uint8_t *at = record + 1;
    memset(&p->job, 0, sizeof p->job);
    p->job.m = take(&at, 1);
    p->n = (size_t)1 << p->job.m;
    p->job.list_size = fields & HAS_LIST_SIZE ? take(&at, 1) : 4;
    p->job.stop = fields & HAS_STOP ? take(&at, 2) : (uint32_t)p->n;
    p->job.frame = fields & HAS_FRAME ? take(&at, 4) : 0;
    p->job.arikan = fields & IS_ARIKAN ? 1 : 0;
    p->map = at;
    p->map_len = (p->n + 7) / 8;
    at += p->map_len;
    p->job.pairs = fields & HAS_PAIRS ? take(&at, 2) : 0;
    p->pairs = at;
    p->pairs_len = REFERENCE_PAIR_BYTES * p->job.pairs;
    at += p->pairs_len;
    for (size_t i = 0; i < p->n; i++) {
        int32_t bits = (int32_t)take(&at, 2);
        p->soft[i] = (int16_t)(bits < 32768 ? bits : bits - 65536);
    }
}

static uint32_t value_refusal(const struct parts *p)
{
    uint32_t refusal = reference_code_refusal(p->job.m, p->map, p->map_len, p->pairs, p->pairs_len);
    if (refusal != 0)
        return refusal; /* 3 or 15: m and the map's length are right */
    if (p->job.list_size < 1 || p->job.list_size > PAPER_MAX_LIST)
        return 4;
    if (p->job.stop > p->n)
        return 5;
    for (size_t i = 0; i < p->n; i++)
        if (paper_out_of_range(p->soft[i]))
            return 7;
    return 0;
}

struct reference_job reference_read_job(const uint8_t *record, size_t len,
                                        uint8_t *map, size_t map_len,
                                        int16_t *soft, size_t soft_len,
                                        uint8_t *pairs, size_t pairs_len)
{
    struct parts p;
    struct reference_job refused = {.refusal = shape_refusal(record, len)};
    if (refused.refusal != 0)
        return refused;
    take_apart(record, &p);
    refused.refusal = value_refusal(&p);
    if (refused.refusal == 0 && (map_len < p.map_len || soft_len < p.n || pairs_len < p.pairs_len))
        refused.refusal = 10;
    if (refused.refusal != 0)
        return refused;
    memset(map, 0, map_len);
    memset(soft, 0, soft_len * sizeof soft[0]);
    memset(pairs, 0, pairs_len);
    memcpy(map, p.map, p.map_len);
    memcpy(pairs, p.pairs, p.pairs_len);
    for (size_t i = 0; i < p.n; i++)
        soft[i] = paper_taken(p.soft[i]);
    return p.job;
}

/* ---- the program's output */

enum { N = PROGRAM_MAX_N, L = PROGRAM_MAX_LIST };

static size_t put_bits(char *out, size_t n, const uint8_t *bits)
{
    for (size_t i = 0; i < n; i++)
        out[i] = bits[i] ? '1' : '0';
    return n;
}

/* What is printed for a good record that the program's tables serve. */
static size_t put_rows(const struct reference_job *job, const uint8_t *map, const uint8_t *pairs, const int16_t *soft,
                       char *out)
{
    static uint32_t numbers[32 * N * L];
    static uint8_t bytes[(4 * N + 256) * L], inputs[N * L], words[N * L];
    static int32_t scores[L];
    size_t n = (size_t)1 << job->m, at = 0;
    struct paper_decoded block =
        paper_decode(job->m, (uint8_t)job->arikan, map, (n + 7) / 8, pairs, REFERENCE_PAIR_BYTES * job->pairs,
                     job->list_size, job->stop, soft, n, numbers, 32 * N * L, bytes, sizeof bytes, inputs,
                     sizeof inputs, words, sizeof words, scores, L);
    at += (size_t)sprintf(out + at, "frame %lu rows %lu ceiling %ld\n", (unsigned long)job->frame,
                          (unsigned long)block.rows, (long)block.ceiling);
    for (size_t r = 0; r < block.rows; r++) {
        at += (size_t)sprintf(out + at, "%zu %ld ", r, (long)scores[r]);
        at += put_bits(out + at, n, inputs + r * n);
        out[at++] = ' ';
        at += put_bits(out + at, n, words + r * n);
        out[at++] = '\n';
    }
    out[at] = 0;
    return at;
}

size_t reference_output(const uint8_t *record, size_t len, char *out)
{
    static uint8_t map[REFERENCE_MAX_N / 8], pairs[REFERENCE_PAIR_BYTES * REFERENCE_MAX_PAIRS];
    static int16_t soft[REFERENCE_MAX_N];
    struct reference_job job = {.refusal = 13};
    if (len <= PROGRAM_MAX_INPUT)
        job = reference_read_job(record, len, map, sizeof map, soft, REFERENCE_MAX_N, pairs, sizeof pairs);
    if (job.refusal == 0 && ((size_t)1 << job.m > PROGRAM_MAX_N || job.list_size > PROGRAM_MAX_LIST))
        job.refusal = 8;
    if (job.refusal != 0)
        return (size_t)sprintf(out, "refused %lu\n", (unsigned long)job.refusal);
    return put_rows(&job, map, pairs, soft, out);
}
