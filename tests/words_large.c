#include "words_large.h"

#include "draw.h"
#include "reference_codec.h"
#include "words_calls.h"
#include "words_check.h"
#include "words_gray.h"

#include <string.h>

/* Rows of no more bytes are asked for, but by words_largest; a few words are so many bytes of
 * rows at most, and no more than so many words. */
enum { MOST_BYTES = 1 << 20, FEW_BYTES = 1 << 15, FEW_WORDS = 300 };

static void check_room(struct words_call *c, const int32_t *correlations, size_t all, size_t places)
{
    words_call_room(c, places);
    words_call_lengthen(c);
    words_check_counted(c, words_count(correlations, all, c->mark));
}

/* The least mark that no more than so many words reach; one below it more do. */
static int32_t mark_for(const struct words_call *c, const int32_t *correlations, size_t all, size_t most)
{
    int32_t low = -words_magnitudes(c) - 1, high = words_magnitudes(c) + 1;
    while (high - low > 1) {
        int32_t middle = low + (high - low) / 2;
        if (words_count(correlations, all, middle) > most)
            low = middle;
        else
            high = middle;
    }
    return high;
}

/* With room for exactly the words, for one less and for one more. */
static void check_few(struct words_call *c, const int32_t *correlations, size_t all)
{
    size_t count = words_count(correlations, all, c->mark);
    if (count << c->sizes_of > MOST_BYTES)
        return;
    check_room(c, correlations, all, count);
    if (count > 0)
        check_room(c, correlations, all, count - 1);
    check_room(c, correlations, all, count + 1 + draw_below(3));
}

/* Soft values that have the signs of the word whose payload has nothing but this bit: it is the
 * best one. */
static void send(struct words_call *c, int bit)
{
    uint8_t payload[WORDS_MAX_K], input[DECODER_MAX_N], word[DECODER_MAX_N];
    size_t n = (size_t)1 << c->sizes_of;
    memset(payload, bit, sizeof payload);
    reference_input(n, c->block.map, c->block.pairs.bytes, c->block.pairs.len, payload, input);
    reference_transform(n, c->block.arikan, input, word);
    for (size_t i = 0; i < n; i++)
        c->block.soft[i] = (int16_t)((1 + (int)draw_below(39)) * (word[i] ? -1 : 1));
}

/* In turn the first word is the best, the last, and any. */
void words_large(uint32_t m, size_t k, int arikan)
{
    struct words_call c;
    size_t all = (size_t)1 << k, few = (size_t)FEW_BYTES >> m, turn = (m + k + 2 * (size_t)arikan) % 4;
    words_call_code(&c, m, arikan, k, (enum clear_kind)draw_below(CLEAR_KINDS), pairs_any_kind());
    if (turn < 2)
        send(&c, turn == 1);
    else
        words_call_soft(&c, (enum soft_kind)(1 + draw_below(SOFT_KINDS - 1)));
    const int32_t *correlations = gray_correlations(&c);
    c.mark = mark_for(&c, correlations, all, 0);
    check_room(&c, correlations, all, draw_below(3)); /* none reaches it */
    c.mark--;
    check_few(&c, correlations, all); /* the best */
    c.mark = mark_for(&c, correlations, all, 1 + draw_below(few < FEW_WORDS ? few : FEW_WORDS));
    check_few(&c, correlations, all);
    c.mark = INT32_MIN;
    check_room(&c, correlations, all, draw_below(4));
    if (all << m > MOST_BYTES)
        return;
    check_room(&c, correlations, all, all);
    check_room(&c, correlations, all, all - 1);
}

void words_largest(void)
{
    enum { M = 5 };
    struct words_call c;
    size_t all = (size_t)1 << WORDS_MAX_K;
    words_call_code(&c, M, 0, WORDS_MAX_K, CLEAR_ANY, PAIRS_NONE);
    words_call_soft(&c, SOFT_WIDE);
    const int32_t *correlations = gray_correlations(&c);
    check_room(&c, correlations, all, all - 1);
    check_room(&c, correlations, all, all);
}
