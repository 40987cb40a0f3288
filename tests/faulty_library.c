/*
 * The calls of plain_library.c with one fault, which FAULT in the environment names: for what
 * the tools must say of a box or a build that does not do what is proved.
 */
#define caldurrex_test_load plain_test_load
#define caldurrex_read_job plain_read_job
#define caldurrex_decode plain_decode
#define caldurrex_extract plain_extract
#define caldurrex_write_result plain_write_result
#include "plain_library.c"
#undef caldurrex_test_load
#undef caldurrex_read_job
#undef caldurrex_decode
#undef caldurrex_extract
#undef caldurrex_write_result

#include <stdlib.h>
#include <string.h>

static int fault_is(const char *name)
{
    const char *fault = getenv("FAULT");
    return fault != NULL && strcmp(fault, name) == 0;
}

struct caldurrex_load caldurrex_test_load(uint32_t state, uint32_t m, uint8_t arikan,
                                          const uint8_t *map, size_t map_len,
                                          const uint8_t *pairs, size_t pairs_len, uint32_t frame,
                                          uint8_t *record, size_t record_len,
                                          uint8_t *payload, size_t payload_len)
{
    if (fault_is("load"))
        record_len = 0;
    struct caldurrex_load made = plain_test_load(state, m, arikan, map, map_len, pairs, pairs_len, frame, record,
                                                 record_len, payload, payload_len);
    made.length += fault_is("length") ? 100 : 0;
    made.state = fault_is("state") ? 0 : made.state;
    return made;
}

struct caldurrex_job caldurrex_read_job(const uint8_t *record, size_t record_len, uint8_t *map, size_t map_len,
                                        int16_t *soft, size_t soft_len, uint8_t *pairs, size_t pairs_len)
{
    struct caldurrex_job job = plain_read_job(record, record_len - fault_is("read"), map, map_len, soft, soft_len,
                                              pairs, pairs_len);
    job.frame += fault_is("frame") ? 1 : 0;
    job.stop -= fault_is("stop") ? 1 : 0;
    return job;
}

struct caldurrex_decoded caldurrex_decode(uint32_t m, uint8_t arikan, const uint8_t *map, size_t map_len,
                                          const uint8_t *pairs, size_t pairs_len,
                                          uint32_t list_size, uint32_t stop, const int16_t *soft, size_t soft_len,
                                          uint32_t *numbers, size_t numbers_len, uint8_t *bytes, size_t bytes_len,
                                          uint8_t *inputs, size_t inputs_len, uint8_t *words, size_t words_len,
                                          int32_t *scores, size_t scores_len)
{
    struct caldurrex_decoded block =
        plain_decode(m, arikan, map, map_len, pairs, pairs_len, list_size, stop, soft, soft_len, numbers, numbers_len,
                     bytes, bytes_len - fault_is("decode"), inputs, inputs_len, words, words_len, scores, scores_len);
    block.rows = fault_is("rows") ? list_size + 1 : fault_is("no rows") ? 0 : block.rows;
    block.ceiling += fault_is("ceiling") ? 2 : 0;
    numbers[numbers_len - 1] = fault_is("numbers");
    bytes[0] = (uint8_t)fault_is("bytes");
    words[0] ^= (uint8_t)fault_is("word");
    return block;
}

/* With the fault "threads" every call but the first gives another payload, and with "stale" none. */
uint32_t caldurrex_extract(uint32_t m, uint8_t arikan, const uint8_t *map, size_t map_len,
                           const uint8_t *pairs, size_t pairs_len,
                           const uint8_t *word, size_t word_len, uint8_t *payload, size_t payload_len)
{
    static int called;
    if (called && fault_is("stale"))
        return 0;
    uint32_t refusal = plain_extract(m, arikan, map, map_len, pairs, pairs_len, word, word_len, payload, payload_len);
    payload[0] ^= (uint8_t)(called && fault_is("threads"));
    called = 1;
    return refusal;
}

struct caldurrex_length caldurrex_write_result(uint32_t m, uint32_t rows, uint32_t frame, int32_t ceiling,
                                               const int32_t *scores, size_t scores_len,
                                               const uint8_t *inputs, size_t inputs_len,
                                               uint8_t *record, size_t record_len)
{
    return plain_write_result(m, rows, frame, ceiling, scores, scores_len, inputs, inputs_len, record,
                              fault_is("result") ? 0 : record_len);
}
