#include "decoder_examples.h"

#include "decoder_calls.h"
#include "decoder_check.h"
#include "draw.h"

#include <string.h>

/* ---- n = 4, with all that they give */

static const struct example {
    uint8_t map;
    uint32_t list_size, stop;
    int16_t soft[4];
    uint32_t rows;
    int32_t ceiling;
    struct {
        int32_t score;
        const char *input, *word; /* a digit for each byte */
    } row[4];
} examples[] = {
    /* Frozen 0 and 1: the empty prefix, prefix 0 and prefix 00. */
    {0x03, 1, 0, {5, -3, 2, 7}, 1, 17, {{17, "0000", "0000"}}},
    {0x03, 1, 1, {5, -3, 2, 7}, 1, 13, {{13, "0000", "0000"}}},
    {0x03, 1, 2, {5, -3, 2, 7}, 1, 13, {{13, "0000", "0000"}}},
    /* The same to its end. */
    {0x03, 1, 4, {5, -3, 2, 7}, 1, 13, {{13, "0010", "0110"}}},
    {0x03, 2, 4, {5, -3, 2, 7}, 2, 13, {{13, "0010", "0110"}, {11, "0000", "0000"}}},
    {0x03, 4, 4, {5, -3, 2, 7}, 4, 13,
     {{13, "0010", "0110"}, {11, "0000", "0000"}, {-11, "0001", "1111"}, {-13, "0011", "1001"}}},
    /* Frozen 1, 2 and 3: the score of a prefix leaves the bits behind it free. At l = 1
     * prefix 0 is dropped at position 0, and its score is the ceiling to the end. */
    {0x0e, 1, 4, {1, -5, 2, 2}, 1, 8, {{-2, "1000", "1000"}}},
    {0x0e, 2, 4, {1, -5, 2, 2}, 2, 0, {{0, "0000", "0000"}, {-2, "1000", "1000"}}},
    /* Ties. */
    {0x00, 2, 4, {0, 0, 0, 0}, 2, 0, {{0, "0000", "0000"}, {0, "0001", "1111"}}},
    /* Nothing frozen, nothing decoded. */
    {0x00, 1, 0, {5, -3, 2, 7}, 1, 17, {{17, "0000", "0000"}}},
    {0x00, 32, 0, {5, -3, 2, 7}, 1, 17, {{17, "0000", "0000"}}},
    /* k = 0. */
    {0x0f, 4, 4, {5, -3, 2, 7}, 1, 11, {{11, "0000", "0000"}}},
    /* -2,048 is taken as -2,047: in the last one two rows tie, and 0110 would lead with
     * 13 to 11 if it were not. */
    {0x00, 1, 4, {-2048, -2048, -2048, -2048}, 1, 8188, {{8188, "0001", "1111"}}},
    {0x0e, 2, 4, {-2048, 2047, 5, 0}, 2, 4099, {{4099, "1000", "1000"}, {5, "0000", "0000"}}},
    {0x03, 2, 4, {5, -2048, 2047, 7}, 2, 12, {{12, "0000", "0000"}, {12, "0010", "0110"}}},
};

/* With pairs. */
static const struct paired_example {
    size_t pairs_len;
    uint8_t pairs[12];
    struct example block;
} paired[] = {
    /* Frozen 0, 2 and 3: the bit at 2 is that at 1, the bit at 3 the sum of both. At stop 3 a
     * score leaves the bit at 3 free. */
    {12, {2, 0, 1, 0, 3, 0, 1, 0, 3, 0, 2, 0},
     {0x0d, 2, 4, {5, -3, 2, 7}, 2, 11, {{11, "0000", "0000"}, {-3, "0110", "1010"}}}},
    {12, {2, 0, 1, 0, 3, 0, 1, 0, 3, 0, 2, 0},
     {0x0d, 2, 3, {5, -3, 2, 7}, 2, 11, {{11, "0000", "0000"}, {3, "0110", "1010"}}}},
    {12, {2, 0, 1, 0, 3, 0, 1, 0, 3, 0, 2, 0}, {0x0d, 1, 4, {5, -3, 2, 7}, 1, 11, {{11, "0000", "0000"}}}},
    /* Frozen 1, 2 and 3, each following the one before it. */
    {12, {1, 0, 0, 0, 2, 0, 1, 0, 3, 0, 2, 0},
     {0x0e, 2, 4, {1, -5, 2, 2}, 2, 4, {{4, "1111", "1101"}, {0, "0000", "0000"}}}},
    {12, {1, 0, 0, 0, 2, 0, 1, 0, 3, 0, 2, 0}, {0x0e, 1, 4, {1, -5, 2, 2}, 1, 8, {{4, "1111", "1101"}}}},
    /* The same with one pair, (3, 0). */
    {4, {3, 0, 0, 0}, {0x0e, 2, 4, {1, -5, 2, 2}, 2, 2, {{2, "1001", "0111"}, {0, "0000", "0000"}}}},
};

/* By Arikan's transform, for which any byte but 0 asks. */
static const struct arikan_example {
    uint8_t arikan;
    struct paired_example call;
} arikan_examples[] = {
    /* Frozen 0 and 1. */
    {1, {0, {0}, {0x03, 1, 0, {5, -3, 2, 7}, 1, 17, {{17, "0000", "0000"}}}}},
    {1, {0, {0}, {0x03, 1, 1, {5, -3, 2, 7}, 1, 13, {{13, "0000", "0000"}}}}},
    {1, {0, {0}, {0x03, 1, 2, {5, -3, 2, 7}, 1, 11, {{11, "0000", "0000"}}}}},
    {1, {0, {0}, {0x03, 1, 4, {5, -3, 2, 7}, 1, 11, {{11, "0000", "0000"}}}}},
    {2, {0, {0}, {0x03, 2, 4, {5, -3, 2, 7}, 2, 11, {{11, "0000", "0000"}, {3, "0011", "0101"}}}}},
    {1, {0, {0}, {0x03, 4, 4, {5, -3, 2, 7}, 4, 11,
         {{11, "0000", "0000"}, {3, "0011", "0101"}, {-3, "0010", "1010"}, {-11, "0001", "1111"}}}}},
    {255, {0, {0}, {0x03, 4, 4, {5, -3, 2, 7}, 4, 11,
         {{11, "0000", "0000"}, {3, "0011", "0101"}, {-3, "0010", "1010"}, {-11, "0001", "1111"}}}}},
    /* Nothing frozen: the word that the signs favour. */
    {128, {0, {0}, {0x00, 1, 4, {-1, 1, -1, 1}, 1, 4, {{4, "0010", "1010"}}}}},
    /* Frozen 0, 2 and 3: the bit at 2 is that at 1, the bit at 3 the sum of both. */
    {1, {12, {2, 0, 1, 0, 3, 0, 1, 0, 3, 0, 2, 0},
         {0x0d, 2, 4, {5, -3, 2, 7}, 2, 13, {{13, "0110", "0110"}, {11, "0000", "0000"}}}}},
};

static int row_is(const struct decoder_outputs *out, size_t r, int32_t score, const char *input, const char *word)
{
    int same = out->scores[r] == score;
    for (size_t i = 0; i < 4; i++)
        same &= out->inputs[4 * r + i] == input[i] - '0' && out->words[4 * r + i] == word[i] - '0';
    return same;
}

static void check_rows(const struct example *e, uint8_t arikan, const uint8_t *pairs, size_t pairs_len)
{
    struct decoder_call c;
    decoder_call_good(&c, 2, CODE_OPEN, SOFT_ZERO, e->list_size, e->stop);
    c.arikan = arikan;
    c.map[0] = e->map;
    c.pairs.len = pairs_len;
    if (pairs_len > 0)
        memcpy(c.pairs.bytes, pairs, pairs_len);
    memcpy(c.soft, e->soft, sizeof e->soft);
    decoder_check(&c, 2);
    struct decoder_outputs out = decoder_check_outputs();
    if (out.rows != e->rows)
        decoder_check_fail(&c, "the row count of an example of the rules differs");
    if (out.ceiling != e->ceiling)
        decoder_check_fail(&c, "the ceiling of an example of the rules differs");
    for (size_t r = 0; r < e->rows; r++)
        if (!row_is(&out, r, e->row[r].score, e->row[r].input, e->row[r].word))
            decoder_check_fail(&c, "a row of an example of the rules differs");
}

/* ---- refusals, one from each row of the rules' table, and the largest block */

static const struct refused_example {
    uint32_t m;
    size_t map_len;
    uint8_t map;
    uint32_t list_size, stop;
    size_t soft_len;
    int16_t soft; /* the last one that counts for n = 4 */
    size_t numbers_len, bytes_len, rows_len, scores_len;
    uint32_t refusal;
} refused[] = {
    {2, 1, 0x00, 1, 4, 4, 0, 128, 272, 4, 1, 0},
    {1, 1, 0x00, 1, 2, 2, 0, 64, 264, 2, 1, 1},
    {11, 256, 0x00, 1, 4, 2048, 0, 65536, 8448, 2048, 1, 1},
    {4, 1, 0x00, 1, 16, 16, 0, 512, 320, 16, 1, 2},
    {2, 1, 0x10, 1, 4, 4, 0, 128, 272, 4, 1, 3},
    {2, 1, 0x00, 0, 4, 4, 0, 128, 272, 4, 1, 4},
    {2, 1, 0x00, 33, 4, 4, 0, 4224, 8976, 132, 33, 4},
    {2, 1, 0x00, 1, 5, 4, 0, 128, 272, 4, 1, 5},
    {2, 1, 0x00, 1, 4, 3, 0, 128, 272, 4, 1, 6},
    {2, 1, 0x00, 1, 4, 4, -2048, 128, 272, 4, 1, 0},
    {2, 1, 0x00, 1, 4, 4, 2047, 128, 272, 4, 1, 0},
    {2, 1, 0x00, 1, 4, 4, -2049, 128, 272, 4, 1, 7},
    {2, 1, 0x00, 1, 4, 4, 2048, 128, 272, 4, 1, 7},
    {2, 1, 0x00, 1, 4, 4, -32768, 128, 272, 4, 1, 7},
    {2, 1, 0x00, 1, 4, 4, 32767, 128, 272, 4, 1, 7},
    {2, 1, 0x00, 1, 4, 4, 0, 127, 272, 4, 1, 8},
    {2, 1, 0x00, 1, 4, 4, 0, 128, 271, 4, 1, 9},
    {2, 1, 0x00, 1, 4, 4, 0, 128, 272, 3, 1, 10},
    {2, 1, 0x00, 1, 4, 4, 0, 128, 272, 4, 0, 10},
};

static void check_refusal(const struct refused_example *e)
{
    struct decoder_call c;
    decoder_call_good(&c, 10, CODE_OPEN, SOFT_SMALL, 1, 0);
    c.m = e->m;
    c.map_len = e->map_len;
    c.map[0] = e->map;
    c.list_size = e->list_size;
    c.stop = e->stop;
    c.soft_len = e->soft_len;
    c.soft[3] = e->soft;
    c.numbers_len = e->numbers_len;
    c.bytes_len = e->bytes_len;
    c.inputs_len = c.words_len = e->rows_len;
    c.scores_len = e->scores_len;
    c.refusal = e->refusal;
    decoder_check(&c, e->m < DECODER_MIN_M ? DECODER_MIN_M : e->m > DECODER_MAX_M ? DECODER_MAX_M : e->m);
}

/* Frozen 0, 2 and 3 unless said; 3 comes before 15, and 4 behind it. */
static const struct refused_pairs {
    uint8_t map;
    uint32_t list_size;
    size_t pairs_len;
    uint8_t pairs[8];
    uint32_t refusal;
} refused_pairs[] = {
    {0x0d, 1, 4, {3, 0, 2}, 0},          {0x0d, 1, 4, {1, 0, 0}, 15},         {0x0d, 1, 4, {4, 0, 0}, 15},
    {0x0d, 1, 4, {2, 0, 2}, 15},         {0x0d, 1, 8, {2, 0, 1, 0, 2, 0, 1}, 15},
    {0x0d, 1, 8, {3, 0, 0, 0, 2, 0, 1}, 15}, {0x0d, 1, 8, {3, 0, 1, 0, 3, 0, 0}, 15},
    {0x0d, 1, 3, {2, 0, 1}, 15},         {0x1d, 1, 1, {2}, 3},                {0x0d, 0, 1, {2}, 15},
    {0x0d, 0, 4, {2, 0, 1}, 4},
};

static void check_refused_pairs(const struct refused_pairs *e)
{
    struct decoder_call c;
    decoder_call_good(&c, 2, CODE_OPEN, SOFT_SMALL, 1, 4);
    c.map[0] = e->map;
    c.list_size = e->list_size;
    c.pairs.len = e->pairs_len;
    memcpy(c.pairs.bytes, e->pairs, e->pairs_len);
    decoder_check_as(&c, 2, e->refusal);
}

static void check_largest(int arikan)
{
    struct decoder_call c;
    decoder_call_good(&c, 10, CODE_SHUT, SOFT_SMALL, 32, 1024);
    c.arikan = draw_flag(arikan);
    decoder_check(&c, 10);
    if (decoder_check_outputs().rows != 1)
        decoder_check_fail(&c, "k = 0 does not give one row");
    decoder_call_good(&c, 10, CODE_FEW_CLEAR, SOFT_SMALL, 32, 1024);
    c.arikan = draw_flag(arikan);
    decoder_call_trim(&c);
    decoder_check(&c, 10);
}

/* The least and the largest score of all: every soft value at one end, against the
 * word of zeros or for it. */
static void check_ends(uint32_t m, int arikan)
{
    static const int16_t ends[3] = {-2048, -2047, 2047};
    for (size_t end = 0; end < 3; end++) {
        struct decoder_call c;
        decoder_call_good(&c, m, CODE_SHUT, SOFT_ZERO, 1, (uint32_t)1 << m);
        c.arikan = draw_flag(arikan);
        for (size_t i = 0; i < c.soft_len; i++)
            c.soft[i] = ends[end];
        decoder_check(&c, m);
        int32_t n = (int32_t)c.soft_len;
        if (decoder_check_outputs().scores[0] != (ends[end] < 0 ? -2047 * n : 2047 * n))
            decoder_check_fail(&c, "a score at the end of its range differs");
    }
}

void decoder_examples(void)
{
    for (size_t i = 0; i < sizeof examples / sizeof examples[0]; i++)
        check_rows(&examples[i], 0, NULL, 0);
    for (size_t i = 0; i < sizeof paired / sizeof paired[0]; i++)
        check_rows(&paired[i].block, 0, paired[i].pairs, paired[i].pairs_len);
    for (size_t i = 0; i < sizeof arikan_examples / sizeof arikan_examples[0]; i++) {
        const struct paired_example *e = &arikan_examples[i].call;
        check_rows(&e->block, arikan_examples[i].arikan, e->pairs, e->pairs_len);
    }
    for (size_t i = 0; i < sizeof refused / sizeof refused[0]; i++)
        check_refusal(&refused[i]);
    for (size_t i = 0; i < sizeof refused_pairs / sizeof refused_pairs[0]; i++)
        check_refused_pairs(&refused_pairs[i]);
    check_largest(0);
    check_largest(1);
    for (uint32_t m = DECODER_MIN_M; m <= DECODER_MAX_M; m++) {
        check_ends(m, 0);
        check_ends(m, 1);
    }
}
