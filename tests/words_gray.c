#include "words_gray.h"

#include "reference_codec.h"

#include <stdlib.h>

enum { MAX_N = REFERENCE_MAX_N, LIMBS = MAX_N / 64, OCTETS = MAX_N / 8 };

/* The words of the payloads with a single 1: that of row j is the bit 2^j of the payload's
 * number, whose highest bit is the first of the payload. Bit i of limb i / 64 is position i. */
static uint64_t rows[WORDS_MAX_K][LIMBS];

/* What eight positions have for each of their words: the sum of their soft values, each negated
 * where the word has a 1. */
static int32_t parts[OCTETS][256];

static int32_t correlations[1 << WORDS_MAX_K];

static void set_rows(const struct words_call *c, size_t n, size_t k)
{
    const struct decoder_call *block = &c->block;
    for (size_t j = 0; j < k; j++) {
        uint8_t payload[WORDS_MAX_K] = {0}, input[MAX_N], word[MAX_N];
        payload[k - 1 - j] = 1;
        reference_input(n, block->map, block->pairs.bytes, block->pairs.len, payload, input);
        reference_transform(n, block->arikan, input, word);
        for (size_t limb = 0; limb < LIMBS; limb++)
            rows[j][limb] = 0;
        for (size_t i = 0; i < n; i++)
            rows[j][i / 64] |= (uint64_t)word[i] << (i % 64);
    }
}

/* Past n there is nothing to add. */
static void set_parts(const struct words_call *c, size_t n)
{
    for (size_t octet = 0; octet < (n + 7) / 8; octet++)
        for (unsigned bits = 0; bits < 256; bits++) {
            parts[octet][bits] = 0;
            for (size_t i = 0; i < 8 && 8 * octet + i < n; i++) {
                int32_t soft = c->block.soft[8 * octet + i] < -2047 ? -2047 : c->block.soft[8 * octet + i];
                parts[octet][bits] += bits >> i & 1 ? -soft : soft;
            }
        }
}

static int32_t correlation(const uint64_t *word, size_t octets)
{
    int32_t sum = 0;
    for (size_t octet = 0; octet < octets; octet++)
        sum += parts[octet][word[octet / 8] >> (8 * (octet % 8)) & 255];
    return sum;
}

const int32_t *gray_correlations(const struct words_call *c)
{
    size_t n = (size_t)1 << c->sizes_of, k = words_clear(c), octets = (n + 7) / 8, number = 0;
    uint64_t word[LIMBS] = {0};
    if (k > WORDS_MAX_K)
        abort();
    set_rows(c, n, k);
    set_parts(c, n);
    correlations[0] = correlation(word, octets);
    for (size_t step = 1; step < (size_t)1 << k; step++) {
        size_t j = 0;
        while (!(step >> j & 1))
            j++;
        for (size_t limb = 0; limb < (n + 63) / 64; limb++)
            word[limb] ^= rows[j][limb];
        number ^= (size_t)1 << j;
        correlations[number] = correlation(word, octets);
    }
    return correlations;
}
