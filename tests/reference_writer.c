#include "reference_writer.h"

#include "paper_decoder.h"
#include "paper_score.h"
#include "reference_codec.h"

#include <string.h>

/* The record as far as it is made; the first byte grows with each field that is put in. */
struct made {
    uint8_t bytes[REFERENCE_RECORD_BYTES];
    size_t len;
};

/* The low byte first. */
static void add(struct made *r, uint32_t number, size_t count)
{
    for (; count > 0; count--, number /= 256)
        r->bytes[r->len++] = (uint8_t)(number % 256);
}

static void add_bytes(struct made *r, const uint8_t *bytes, size_t len)
{
    memcpy(r->bytes + r->len, bytes, len);
    r->len += len;
}

/* A field of so many bytes; nothing where its value is the one that absence means. */
static void add_field(struct made *r, uint8_t bit, uint32_t value, uint32_t absent, size_t count)
{
    if (value == absent)
        return;
    r->bytes[0] |= bit;
    add(r, value, count);
}

/* The refusals 4 to 7 of a good code. */
static uint32_t value_refusal(size_t n, uint32_t list_size, uint32_t stop, const int16_t *soft, size_t soft_len)
{
    if (list_size < 1 || list_size > PAPER_MAX_LIST)
        return 4;
    if (stop > n)
        return 5;
    if (soft_len != n)
        return 6;
    for (size_t i = 0; i < n; i++)
        if (paper_out_of_range(soft[i]))
            return 7;
    return 0;
}

struct reference_length reference_write_job(uint32_t m, uint8_t arikan, const uint8_t *map, size_t map_len,
                                            const uint8_t *pairs, size_t pairs_len,
                                            uint32_t list_size, uint32_t stop, uint32_t frame,
                                            const int16_t *soft, size_t soft_len,
                                            uint8_t *record, size_t record_len)
{
    struct reference_length refused = {reference_code_refusal(m, map, map_len, pairs, pairs_len), 0};
    if (refused.refusal != 0)
        return refused;
    size_t n = (size_t)1 << m;
    refused.refusal = value_refusal(n, list_size, stop, soft, soft_len);
    if (refused.refusal != 0)
        return refused;
    struct made r = {.len = 0};
    add(&r, arikan ? 16 : 0, 1);
    add(&r, m, 1);
    add_field(&r, 1, list_size, 4, 1);
    add_field(&r, 2, stop, (uint32_t)n, 2);
    add_field(&r, 4, frame, 0, 4);
    add_bytes(&r, map, map_len);
    add_field(&r, 8, (uint32_t)(pairs_len / REFERENCE_PAIR_BYTES), 0, 2);
    add_bytes(&r, pairs, pairs_len);
    for (size_t i = 0; i < n; i++)
        add(&r, (uint32_t)(65536 + paper_taken(soft[i])), 2);
    if (record_len < r.len)
        return (struct reference_length){10, 0};
    memset(record, 0, record_len);
    memcpy(record, r.bytes, r.len);
    return (struct reference_length){0, (uint32_t)r.len};
}
