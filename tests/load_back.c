#include "load_back.h"

#include "caldurrex.h"
#include "load_check.h"
#include "reading.h"

#include <stdlib.h>
#include <string.h>

static struct reading read_last;
static unsigned long values[LOAD_VALUES];

const unsigned long *load_values(void)
{
    return values;
}

/* ---- reading */

void load_back(const struct load_call *c, const uint8_t *record, const uint8_t *payload)
{
    static struct reading want, by_reference;
    const struct decoder_call *job = &c->job.job;
    size_t n = (size_t)1 << job->m, len = load_record_need(c);
    uint8_t word[DECODER_MAX_N];
    read_by_library(record, len, &read_last);
    read_by_reference(record, len, &by_reference);
    read_from_call(&c->job, &want);
    memcpy(want.soft, by_reference.soft, sizeof want.soft);
    if (!same_reading(&read_last, &want) || !same_reading(&by_reference, &want))
        load_fail(c, "the record is not read as what was asked for");
    if (caldurrex_encode(job->m, job->arikan, job->map, job->map_len, job->pairs.bytes, job->pairs.len, payload,
                         load_payload_need(c), word, n) != 0)
        load_fail(c, "the encoder refuses the payload");
    for (size_t i = 0; i < n; i++) {
        int toward = word[i] ? -want.soft[i] : want.soft[i];
        if (toward < 0 || toward > LOAD_MOST)
            load_fail(c, "a soft value does not go with its code bit");
        values[want.soft[i] + LOAD_MOST]++;
    }
}

/* ---- decoding */

/* What is lent to the decoder. */
static struct {
    uint32_t numbers[CALDURREX_NUMBERS(DECODER_MAX_N, DECODER_MAX_LIST)];
    uint8_t bytes[CALDURREX_BYTES(DECODER_MAX_N, DECODER_MAX_LIST)];
    uint8_t inputs[CALDURREX_ROWS(DECODER_MAX_N, DECODER_MAX_LIST)];
    uint8_t words[CALDURREX_ROWS(DECODER_MAX_N, DECODER_MAX_LIST)];
    int32_t scores[DECODER_MAX_LIST];
} lent;

void load_decode(const struct load_call *c, uint32_t list_size)
{
    const struct reference_job *job = &read_last.job;
    size_t n = (size_t)1 << job->m, l = list_size;
    int32_t most = 0;
    for (size_t i = 0; i < n; i++)
        most += abs(read_last.soft[i]);
    struct caldurrex_decoded block =
        caldurrex_decode(job->m, (uint8_t)job->arikan, read_last.map, (n + 7) / 8, read_last.pairs,
                         4 * (size_t)job->pairs, list_size, job->stop, read_last.soft, n,
                         lent.numbers, CALDURREX_NUMBERS(n, l), lent.bytes, CALDURREX_BYTES(n, l),
                         lent.inputs, CALDURREX_ROWS(n, l), lent.words, CALDURREX_ROWS(n, l), lent.scores, l);
    if (block.refusal != 0 || block.rows == 0)
        load_fail(c, "the decoder refuses the record");
    if (block.ceiling != most)
        load_fail(c, "the ceiling is not the sum of the magnitudes");
    for (size_t r = 0; r < block.rows; r++)
        if (lent.scores[r] > block.ceiling)
            load_fail(c, "a score is above the ceiling");
}
