/*
 * Writes the result record of the job record on standard input, by the references and without
 * the library: what decode_stream must write for it. Standard input is one record and nothing
 * else, so nothing here looks for its end.
 */
#include "paper_decoder.h"
#include "reference_job.h"
#include "reference_result.h"

#include <stdio.h>
#include <stdlib.h>

enum { MAX_N = 1024, NUMBERS = 32 * MAX_N * PAPER_MAX_LIST, BYTES = (4 * MAX_N + 256) * PAPER_MAX_LIST };

static uint8_t record[REFERENCE_RECORD_BYTES + 1], map[MAX_N / 8], pairs[1024];
static int16_t soft[MAX_N];
static uint32_t numbers[NUMBERS];
static uint8_t bytes[BYTES], inputs[MAX_N * PAPER_MAX_LIST], words[MAX_N * PAPER_MAX_LIST];
static int32_t scores[PAPER_MAX_LIST];
static uint8_t result[REFERENCE_RESULT_BYTES];

static void need(uint32_t refusal, const char *what)
{
    if (refusal != 0) {
        fprintf(stderr, "plain_result: %s refuses with %lu\n", what, (unsigned long)refusal);
        exit(1);
    }
}

int main(void)
{
    size_t len = fread(record, 1, sizeof record, stdin);
    struct reference_job job = reference_read_job(record, len, map, sizeof map, soft, MAX_N, pairs, sizeof pairs);
    need(job.refusal, "the reader");
    size_t n = (size_t)1 << job.m;
    struct paper_decoded block =
        paper_decode(job.m, (uint8_t)job.arikan, map, (n + 7) / 8, pairs, 4 * (size_t)job.pairs, job.list_size,
                     job.stop, soft, n, numbers, NUMBERS, bytes, BYTES, inputs, sizeof inputs, words, sizeof words,
                     scores, PAPER_MAX_LIST);
    need(block.refusal, "the decoder");
    struct reference_length written =
        reference_write_result(job.m, block.rows, job.frame, block.ceiling, scores, block.rows, inputs,
                               n * block.rows, result, sizeof result);
    need(written.refusal, "the writer");
    return fwrite(result, 1, written.length, stdout) == written.length && fflush(stdout) == 0 ? 0 : 1;
}
