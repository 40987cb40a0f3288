#include "reference_codec.h"

#include <string.h>

enum { MAX_N = REFERENCE_MAX_N };

/* ---- the frozen map */

int reference_frozen(const uint8_t *map, size_t i)
{
    return map[i / 8] >> (i % 8) & 1;
}

size_t reference_clear(const uint8_t *map, size_t n)
{
    size_t k = 0;
    for (size_t i = 0; i < n; i++)
        k += !reference_frozen(map, i);
    return k;
}

/* ---- pairs */

struct reference_pair reference_pair_at(const uint8_t *pairs, size_t j)
{
    const uint8_t *at = pairs + REFERENCE_PAIR_BYTES * j;
    return (struct reference_pair){at[0] + 256u * at[1], at[2] + 256u * at[3]};
}

uint8_t reference_frozen_bit(const uint8_t *pairs, size_t pairs_len, size_t i, const uint8_t *u)
{
    unsigned sum = 0;
    for (size_t j = 0; j < pairs_len / REFERENCE_PAIR_BYTES; j++) {
        struct reference_pair pair = reference_pair_at(pairs, j);
        if (pair.f == i)
            sum += u[pair.e];
    }
    return sum % 2;
}

void reference_input(size_t n, const uint8_t *map, const uint8_t *pairs, size_t pairs_len,
                     const uint8_t *payload, uint8_t *u)
{
    size_t taken = 0;
    for (size_t i = 0; i < n; i++)
        u[i] = reference_frozen(map, i) ? reference_frozen_bit(pairs, pairs_len, i, u) : payload[taken++];
}

/* Strictly rising by f, then by e. */
static int rises(struct reference_pair from, struct reference_pair to)
{
    return from.f < to.f || (from.f == to.f && from.e < to.e);
}

static int good_pairs(size_t n, const uint8_t *map, const uint8_t *pairs, size_t pairs_len)
{
    size_t count = pairs_len / REFERENCE_PAIR_BYTES;
    if (pairs_len % REFERENCE_PAIR_BYTES != 0 || count > REFERENCE_MAX_PAIRS)
        return 0;
    for (size_t j = 0; j < count; j++) {
        struct reference_pair pair = reference_pair_at(pairs, j);
        if (pair.f >= n || !reference_frozen(map, pair.f) || pair.e >= pair.f)
            return 0;
        if (j > 0 && !rises(reference_pair_at(pairs, j - 1), pair))
            return 0;
    }
    return 1;
}

/* ---- the code */

uint32_t reference_code_refusal(uint32_t m, const uint8_t *map, size_t map_len,
                                const uint8_t *pairs, size_t pairs_len)
{
    if (m < 2 || m > REFERENCE_MAX_M)
        return 1;
    size_t n = (size_t)1 << m;
    if (map_len != (n + 7) / 8)
        return 2;
    for (size_t i = n; i < 8 * map_len; i++)
        if (reference_frozen(map, i))
            return 3;
    return good_pairs(n, map, pairs, pairs_len) ? 0 : 15;
}

static int all_bits(const uint8_t *bytes, size_t len)
{
    for (size_t i = 0; i < len; i++)
        if (bytes[i] > 1)
            return 0;
    return 1;
}

/* ---- the encoder */

uint32_t reference_encode(uint32_t m, uint8_t arikan, const uint8_t *map, size_t map_len,
                          const uint8_t *pairs, size_t pairs_len,
                          const uint8_t *payload, size_t payload_len,
                          uint8_t *word, size_t word_len)
{
    uint32_t refusal = reference_code_refusal(m, map, map_len, pairs, pairs_len);
    if (refusal != 0)
        return refusal;
    size_t n = (size_t)1 << m;
    if (payload_len != reference_clear(map, n))
        return 6;
    if (!all_bits(payload, payload_len))
        return 11;
    if (word_len < n)
        return 10;
    uint8_t u[MAX_N];
    reference_input(n, map, pairs, pairs_len, payload, u);
    memset(word, 0, word_len);
    reference_transform(n, arikan, u, word);
    return 0;
}

/* ---- the extractor */

uint32_t reference_extract(uint32_t m, uint8_t arikan, const uint8_t *map, size_t map_len,
                           const uint8_t *pairs, size_t pairs_len,
                           const uint8_t *word, size_t word_len,
                           uint8_t *payload, size_t payload_len)
{
    uint32_t refusal = reference_code_refusal(m, map, map_len, pairs, pairs_len);
    if (refusal != 0)
        return refusal;
    size_t n = (size_t)1 << m;
    if (word_len != n)
        return 6;
    if (!all_bits(word, n))
        return 11;
    uint8_t u[MAX_N];
    reference_inverse(m, arikan, word, u);
    for (size_t i = 0; i < n; i++)
        if (reference_frozen(map, i) && u[i] != reference_frozen_bit(pairs, pairs_len, i, u))
            return 12;
    if (payload_len < reference_clear(map, n))
        return 10;
    size_t given = 0;
    for (size_t i = 0; i < n; i++)
        if (!reference_frozen(map, i))
            payload[given++] = u[i];
    memset(payload + given, 0, payload_len - given);
    return 0;
}
