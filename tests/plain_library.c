/*
 * The calls that the tools run_load and decode_stream make, in plain C by the references and
 * without the library. Linked in the library's place they must come to the same checksum. The
 * paper decoder is made for one thread at a time.
 */
#include "caldurrex.h"
#include "paper_decoder.h"
#include "reference_codec.h"
#include "reference_job.h"
#include "reference_load.h"
#include "reference_result.h"

struct caldurrex_load caldurrex_test_load(uint32_t state, uint32_t m, uint8_t arikan,
                                          const uint8_t *map, size_t map_len,
                                          const uint8_t *pairs, size_t pairs_len, uint32_t frame,
                                          uint8_t *record, size_t record_len,
                                          uint8_t *payload, size_t payload_len)
{
    struct reference_load made = reference_test_load(state, m, arikan, map, map_len, pairs, pairs_len, frame, record,
                                                     record_len, payload, payload_len);
    return (struct caldurrex_load){made.refusal, made.length, made.state};
}

struct caldurrex_job caldurrex_read_job(const uint8_t *record, size_t record_len, uint8_t *map, size_t map_len,
                                        int16_t *soft, size_t soft_len, uint8_t *pairs, size_t pairs_len)
{
    struct reference_job job = reference_read_job(record, record_len, map, map_len, soft, soft_len, pairs, pairs_len);
    return (struct caldurrex_job){job.refusal, job.m, job.list_size, job.stop, job.frame, job.pairs, job.arikan};
}

uint32_t caldurrex_extract(uint32_t m, uint8_t arikan, const uint8_t *map, size_t map_len,
                           const uint8_t *pairs, size_t pairs_len,
                           const uint8_t *word, size_t word_len, uint8_t *payload, size_t payload_len)
{
    return reference_extract(m, arikan, map, map_len, pairs, pairs_len, word, word_len, payload, payload_len);
}

struct caldurrex_decoded caldurrex_decode(uint32_t m, uint8_t arikan, const uint8_t *map, size_t map_len,
                                          const uint8_t *pairs, size_t pairs_len,
                                          uint32_t list_size, uint32_t stop, const int16_t *soft, size_t soft_len,
                                          uint32_t *numbers, size_t numbers_len, uint8_t *bytes, size_t bytes_len,
                                          uint8_t *inputs, size_t inputs_len, uint8_t *words, size_t words_len,
                                          int32_t *scores, size_t scores_len)
{
    struct paper_decoded block =
        paper_decode(m, arikan, map, map_len, pairs, pairs_len, list_size, stop, soft, soft_len, numbers, numbers_len,
                     bytes, bytes_len, inputs, inputs_len, words, words_len, scores, scores_len);
    return (struct caldurrex_decoded){block.refusal, block.rows, block.ceiling};
}

struct caldurrex_length caldurrex_write_result(uint32_t m, uint32_t rows, uint32_t frame, int32_t ceiling,
                                               const int32_t *scores, size_t scores_len,
                                               const uint8_t *inputs, size_t inputs_len,
                                               uint8_t *record, size_t record_len)
{
    struct reference_length written = reference_write_result(m, rows, frame, ceiling, scores, scores_len, inputs,
                                                             inputs_len, record, record_len);
    return (struct caldurrex_length){written.refusal, written.length};
}
