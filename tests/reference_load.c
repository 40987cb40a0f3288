#include "reference_load.h"

#include "reference_codec.h"
#include "reference_writer.h"

#include <string.h>

enum { MAX_N = REFERENCE_MAX_N, LIST_SIZE = 4 };

/* Numbers wider than the state: what a shift to the left takes past 32 bits is cut off by
 * the remainder. */
uint32_t reference_draw(uint32_t state)
{
    const uint64_t two_to_32 = (uint64_t)1 << 32;
    uint64_t s = state;
    s ^= s * 8192 % two_to_32; /* 2^13 */
    s ^= s / 131072;           /* 2^17 */
    s ^= s * 32 % two_to_32;   /* 2^5 */
    return (uint32_t)s;
}

/* What is drawn of a state, with the code word between. */
struct drawn {
    uint32_t state; /* the next one */
    uint8_t payload[MAX_N], word[MAX_N];
    int16_t soft[MAX_N];
};

static uint32_t draw_from(struct drawn *d)
{
    d->state = reference_draw(d->state);
    return d->state;
}

struct reference_load reference_test_load(uint32_t state, uint32_t m, uint8_t arikan,
                                          const uint8_t *map, size_t map_len,
                                          const uint8_t *pairs, size_t pairs_len, uint32_t frame,
                                          uint8_t *record, size_t record_len,
                                          uint8_t *payload, size_t payload_len)
{
    struct reference_load refused = {reference_code_refusal(m, map, map_len, pairs, pairs_len), 0, 0};
    if (refused.refusal == 0 && state == 0)
        refused.refusal = 24;
    if (refused.refusal != 0)
        return refused;
    size_t n = (size_t)1 << m, k = reference_clear(map, n);
    struct drawn d = {.state = state};
    for (size_t i = 0; i < k; i++)
        d.payload[i] = draw_from(&d) % 2;
    reference_encode(m, arikan, map, map_len, pairs, pairs_len, d.payload, k, d.word, n);
    for (size_t i = 0; i < n; i++)
        d.soft[i] = (int16_t)((d.word[i] ? -20 : 20) + (int)(draw_from(&d) % 41) - 20);
    uint8_t made[REFERENCE_RECORD_BYTES];
    size_t length = reference_write_job(m, arikan, map, map_len, pairs, pairs_len, LIST_SIZE, (uint32_t)n, frame,
                                        d.soft, n, made, sizeof made).length;
    if (record_len < length || payload_len < k)
        return (struct reference_load){10, 0, 0};
    memset(record, 0, record_len);
    memcpy(record, made, length);
    memset(payload, 0, payload_len);
    memcpy(payload, d.payload, k);
    return (struct reference_load){0, (uint32_t)length, d.state};
}
