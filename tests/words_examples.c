#include "words_examples.h"

#include "words_calls.h"
#include "words_check.h"

#include <string.h>

/* ---- n = 4, with all that they give */

static const struct example {
    uint8_t arikan, map;
    size_t pairs_len;
    uint8_t pairs[12];
    int16_t soft[4];
    int32_t mark;
    uint32_t count;
    struct {
        int32_t score;
        const char *input, *word; /* a digit for each byte */
    } row[4];
} examples[] = {
    /* Frozen 0 and 1: at a correlation, one above it, above all, one above the least, at the least. */
    {0, 0x03, 0, {0}, {5, -3, 2, 7}, 11, 2, {{11, "0000", "0000"}, {13, "0010", "0110"}}},
    {0, 0x03, 0, {0}, {5, -3, 2, 7}, 12, 1, {{13, "0010", "0110"}}},
    {0, 0x03, 0, {0}, {5, -3, 2, 7}, 13, 1, {{13, "0010", "0110"}}},
    {0, 0x03, 0, {0}, {5, -3, 2, 7}, 14, 0, {{0}}},
    {0, 0x03, 0, {0}, {5, -3, 2, 7}, -12, 3, {{11, "0000", "0000"}, {-11, "0001", "1111"}, {13, "0010", "0110"}}},
    {0, 0x03, 0, {0}, {5, -3, 2, 7}, -13, 4,
     {{11, "0000", "0000"}, {-11, "0001", "1111"}, {13, "0010", "0110"}, {-13, "0011", "1001"}}},
    {0, 0x03, 0, {0}, {5, -3, 2, 7}, INT32_MIN, 4,
     {{11, "0000", "0000"}, {-11, "0001", "1111"}, {13, "0010", "0110"}, {-13, "0011", "1001"}}},
    {0, 0x03, 0, {0}, {5, -3, 2, 7}, INT32_MAX, 0, {{0}}},
    /* The same by Arikan's transform, for which any byte but 0 asks. */
    {1, 0x03, 0, {0}, {5, -3, 2, 7}, -3, 3, {{11, "0000", "0000"}, {-3, "0010", "1010"}, {3, "0011", "0101"}}},
    {2, 0x03, 0, {0}, {5, -3, 2, 7}, 3, 2, {{11, "0000", "0000"}, {3, "0011", "0101"}}},
    {255, 0x03, 0, {0}, {5, -3, 2, 7}, -11, 4,
     {{11, "0000", "0000"}, {-11, "0001", "1111"}, {-3, "0010", "1010"}, {3, "0011", "0101"}}},
    /* Frozen 0, 2 and 3: the bit at 2 is that at 1, the bit at 3 the sum of both. */
    {0, 0x0d, 12, {2, 0, 1, 0, 3, 0, 1, 0, 3, 0, 2, 0}, {5, -3, 2, 7}, -3, 2,
     {{11, "0000", "0000"}, {-3, "0110", "1010"}}},
    {0, 0x0d, 12, {2, 0, 1, 0, 3, 0, 1, 0, 3, 0, 2, 0}, {5, -3, 2, 7}, -2, 1, {{11, "0000", "0000"}}},
    {128, 0x0d, 12, {2, 0, 1, 0, 3, 0, 1, 0, 3, 0, 2, 0}, {5, -3, 2, 7}, 12, 1, {{13, "0110", "0110"}}},
    /* Frozen 1, 2 and 3, each following the one before it. */
    {0, 0x0e, 12, {1, 0, 0, 0, 2, 0, 1, 0, 3, 0, 2, 0}, {1, -5, 2, 2}, 0, 2,
     {{0, "0000", "0000"}, {4, "1111", "1101"}}},
    /* k = 0 has one word. */
    {0, 0x0f, 0, {0}, {5, -3, 2, 7}, 11, 1, {{11, "0000", "0000"}}},
    {0, 0x0f, 0, {0}, {5, -3, 2, 7}, 12, 0, {{0}}},
    /* -2,048 is taken as -2,047; in the second one 0110 would correlate at 13 if it were not. */
    {0, 0x0f, 0, {0}, {-2048, -2048, -2048, -2048}, -8188, 1, {{-8188, "0000", "0000"}}},
    {0, 0x03, 0, {0}, {5, -2048, 2047, 7}, 12, 2, {{12, "0000", "0000"}, {12, "0010", "0110"}}},
    {0, 0x03, 0, {0}, {5, -2048, 2047, 7}, 13, 0, {{0}}},
    /* Ties go by the input. */
    {0, 0x03, 0, {0}, {0, 0, 0, 0}, 0, 4,
     {{0, "0000", "0000"}, {0, "0001", "1111"}, {0, "0010", "0110"}, {0, "0011", "1001"}}},
    {0, 0x03, 0, {0}, {0, 0, 0, 0}, 1, 0, {{0}}},
};

static int row_is(const struct words_outputs *out, size_t r, int32_t score, const char *input, const char *word)
{
    int same = out->scores[r] == score;
    for (size_t i = 0; i < 4; i++)
        same &= out->inputs[4 * r + i] == input[i] - '0' && out->words[4 * r + i] == word[i] - '0';
    return same;
}

/* With as many places as there are words, and with one less. */
static void check_example(const struct example *e)
{
    struct words_call c;
    words_call_code(&c, 2, 0, 0, CLEAR_ANY, PAIRS_NONE);
    c.block.arikan = e->arikan;
    c.block.map[0] = e->map;
    c.block.pairs.len = e->pairs_len;
    memcpy(c.block.pairs.bytes, e->pairs, sizeof e->pairs);
    memcpy(c.block.soft, e->soft, sizeof e->soft);
    c.mark = e->mark;
    words_call_room(&c, e->count);
    words_check_as(&c, 0);
    struct words_outputs out = words_check_outputs();
    if (out.count != e->count)
        words_check_fail(&c, "the number of words of an example differs");
    for (size_t r = 0; r < e->count; r++)
        if (!row_is(&out, r, e->row[r].score, e->row[r].input, e->row[r].word))
            words_check_fail(&c, "a row of an example differs");
    if (e->count == 0)
        return;
    words_call_room(&c, e->count - 1);
    words_check_as(&c, 19);
}

/* ---- the ends of the range of correlations: every soft value at one end, and one word */

static void check_ends(uint32_t m, int arikan)
{
    static const int16_t ends[3] = {-2048, -2047, 2047};
    struct words_call c;
    for (size_t end = 0; end < 3; end++) {
        int32_t n = (int32_t)1 << m, score = ends[end] < 0 ? -2047 * n : 2047 * n;
        words_call_code(&c, m, arikan, 0, CLEAR_ANY, PAIRS_NONE);
        for (size_t i = 0; i < c.block.soft_len; i++)
            c.block.soft[i] = ends[end];
        for (int32_t above = 0; above < 2; above++) {
            c.mark = score + above;
            words_call_room(&c, 1);
            words_check_as(&c, 0);
            struct words_outputs out = words_check_outputs();
            if (out.count != (above ? 0 : 1) || out.scores[0] != (above ? 0 : score))
                words_check_fail(&c, "a correlation at the end of its range differs");
        }
    }
}

void words_examples(void)
{
    for (size_t i = 0; i < sizeof examples / sizeof examples[0]; i++)
        check_example(&examples[i]);
    for (uint32_t m = DECODER_MIN_M; m <= DECODER_MAX_M; m++) {
        check_ends(m, 0);
        check_ends(m, 1);
    }
}
