#include "reference_words.h"

#include "paper_score.h"
#include "reference_codec.h"

#include <stdlib.h>
#include <string.h>

enum { MAX_N = REFERENCE_MAX_N, MOST_WORDS = 1 << REFERENCE_LISTED_K, MOST_PAIR_BYTES = 4 * REFERENCE_MAX_PAIRS };

/* ---- the words of a code */

/* The code that was gone through last, and all its inputs and words in order: many calls in
 * a row are for one code, and several ask for the same correlations. */
static struct {
    size_t n, k; /* n is 0 before the first code */
    uint8_t arikan, map[MAX_N / 8], pairs[MOST_PAIR_BYTES];
    size_t pairs_len;
    uint8_t inputs[MOST_WORDS][MAX_N], words[MOST_WORDS][MAX_N];
    int16_t taken[MAX_N]; /* soft values, and the correlations with them */
    int32_t correlations[MOST_WORDS];
} code;

static int is_kept(size_t n, uint8_t arikan, const uint8_t *map, const uint8_t *pairs, size_t pairs_len)
{
    return code.n == n && code.arikan == (arikan != 0) && memcmp(code.map, map, (n + 7) / 8) == 0 &&
           code.pairs_len == pairs_len && memcmp(code.pairs, pairs, pairs_len) == 0;
}

/* Of two inputs the first place where they differ is a clear one, since a frozen bit follows
 * those before it. So inputs rise as payloads do, whose first bit is the highest. */
static void go_through(void)
{
    for (size_t number = 0; number < (size_t)1 << code.k; number++) {
        uint8_t payload[REFERENCE_LISTED_K];
        for (size_t i = 0; i < code.k; i++)
            payload[i] = (uint8_t)(number >> (code.k - 1 - i) & 1);
        reference_input(code.n, code.map, code.pairs, code.pairs_len, payload, code.inputs[number]);
        reference_transform(code.n, code.arikan, code.inputs[number], code.words[number]);
    }
}

static void keep(size_t n, uint8_t arikan, const uint8_t *map, const uint8_t *pairs, size_t pairs_len)
{
    code.n = n;
    code.k = reference_clear(map, n);
    code.arikan = arikan != 0;
    code.pairs_len = pairs_len;
    memcpy(code.map, map, (n + 7) / 8);
    memcpy(code.pairs, pairs, pairs_len);
    if (code.k > REFERENCE_LISTED_K)
        abort();
    go_through();
}

const int32_t *reference_correlations(uint32_t m, uint8_t arikan, const uint8_t *map,
                                      const uint8_t *pairs, size_t pairs_len, const int16_t *soft)
{
    size_t n = (size_t)1 << m;
    int16_t taken[MAX_N];
    int kept = is_kept(n, arikan, map, pairs, pairs_len);
    if (!kept)
        keep(n, arikan, map, pairs, pairs_len);
    for (size_t i = 0; i < n; i++)
        taken[i] = paper_taken(soft[i]);
    if (kept && memcmp(code.taken, taken, n * sizeof taken[0]) == 0)
        return code.correlations;
    memcpy(code.taken, taken, n * sizeof taken[0]);
    for (size_t number = 0; number < (size_t)1 << code.k; number++)
        code.correlations[number] = paper_correlation(n, taken, code.words[number]);
    return code.correlations;
}

/* ---- the call */

uint32_t reference_words_refusal(uint32_t m, const uint8_t *map, size_t map_len,
                                 const uint8_t *pairs, size_t pairs_len,
                                 const int16_t *soft, size_t soft_len,
                                 size_t numbers_len, size_t bytes_len,
                                 size_t inputs_len, size_t words_len, size_t scores_len)
{
    uint32_t refusal = reference_code_refusal(m, map, map_len, pairs, pairs_len);
    if (refusal != 0)
        return refusal;
    size_t n = (size_t)1 << m;
    if (reference_clear(map, n) > REFERENCE_MAX_K)
        return 20;
    if (soft_len != n)
        return 6;
    for (size_t i = 0; i < n; i++)
        if (paper_out_of_range(soft[i]))
            return 7;
    if (numbers_len < 32 * n)
        return 8;
    if (bytes_len < 4 * n + 256)
        return 9;
    return inputs_len < n * scores_len || words_len < n * scores_len ? 10 : 0;
}

static uint32_t count_from(const int32_t *correlations, size_t count, int32_t mark)
{
    uint32_t reached = 0;
    for (size_t number = 0; number < count; number++)
        reached += correlations[number] >= mark;
    return reached;
}

struct reference_counted reference_list_words(uint32_t m, uint8_t arikan, const uint8_t *map, size_t map_len,
                                              const uint8_t *pairs, size_t pairs_len, int32_t mark,
                                              const int16_t *soft, size_t soft_len,
                                              uint32_t *numbers, size_t numbers_len,
                                              uint8_t *bytes, size_t bytes_len,
                                              uint8_t *inputs, size_t inputs_len,
                                              uint8_t *words, size_t words_len,
                                              int32_t *scores, size_t scores_len)
{
    uint32_t refusal = reference_words_refusal(m, map, map_len, pairs, pairs_len, soft, soft_len, numbers_len,
                                               bytes_len, inputs_len, words_len, scores_len);
    if (refusal != 0)
        return (struct reference_counted){refusal, 0};
    const int32_t *correlations = reference_correlations(m, arikan, map, pairs, pairs_len, soft);
    size_t n = code.n, all = (size_t)1 << code.k, row = 0;
    memset(numbers, 0, numbers_len * sizeof numbers[0]);
    memset(bytes, 0, bytes_len);
    uint32_t count = count_from(correlations, all, mark);
    if (count > scores_len)
        return (struct reference_counted){19, 0};
    memset(inputs, 0, inputs_len);
    memset(words, 0, words_len);
    memset(scores, 0, scores_len * sizeof scores[0]);
    for (size_t number = 0; number < all; number++) {
        if (correlations[number] < mark)
            continue;
        memcpy(inputs + row * n, code.inputs[number], n);
        memcpy(words + row * n, code.words[number], n);
        scores[row++] = correlations[number];
    }
    return (struct reference_counted){0, count};
}
