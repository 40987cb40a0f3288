#include "words_calls.h"

#include "draw.h"
#include "reference_codec.h"

#include <stdlib.h>
#include <string.h>

const uint32_t words_order[WORDS_REFUSALS] = {1, 2, 3, 15, 20, 6, 7, 8, 9, 10, 19};

static size_t size_of(const struct words_call *c)
{
    return (size_t)1 << c->sizes_of;
}

size_t words_place(uint32_t refusal)
{
    size_t j = 0;
    while (words_order[j] != refusal)
        j++;
    return j;
}

/* ---- codes */

static int weight(size_t i)
{
    int ones = 0;
    for (; i > 0; i /= 2)
        ones += (int)(i % 2);
    return ones;
}

/* The k positions of highest weight, among equals the last. */
static void clear_heavy(uint8_t *clear, uint32_t m, size_t k)
{
    for (int w = (int)m; w >= 0; w--)
        for (size_t i = (size_t)1 << m; i > 0 && k > 0; i--)
            if (weight(i - 1) == w) {
                clear[i - 1] = 1;
                k--;
            }
}

static void choose_clear(uint8_t *clear, uint32_t m, size_t k, enum clear_kind kind)
{
    size_t n = (size_t)1 << m;
    if (kind == CLEAR_HEAVY)
        clear_heavy(clear, m, k);
    else if (kind != CLEAR_ANY)
        memset(clear + (kind == CLEAR_FIRST ? 0 : n - k), 1, k);
    for (size_t left = kind == CLEAR_ANY ? k : 0; left > 0;) {
        size_t i = draw_below(n);
        left -= !clear[i];
        clear[i] = 1;
    }
}

void words_call_code(struct words_call *c, uint32_t m, int arikan, size_t k, enum clear_kind clear,
                     enum pair_kind pairs)
{
    uint8_t is_clear[DECODER_MAX_N] = {0};
    struct decoder_call *block = &c->block;
    size_t n = (size_t)1 << m;
    c->sizes_of = block->m = m;
    c->mark = INT32_MIN;
    c->faults = block->refusal = 0;
    block->list_size = 1;
    block->stop = (uint32_t)n;
    block->arikan = draw_flag(arikan);
    block->map_len = (n + 7) / 8;
    draw_bytes(block->map, MAP_ROOM);
    memset(block->map, 0, block->map_len);
    choose_clear(is_clear, m, k, clear);
    for (size_t i = 0; i < n; i++)
        block->map[i / 8] |= (uint8_t)(!is_clear[i] << (i % 8));
    pairs_draw(&block->pairs, block->map, n, pairs);
    block->soft_len = n;
    memset(block->soft, 0, sizeof block->soft);
    words_call_room(c, 0);
}

void words_call_soft(struct words_call *c, enum soft_kind soft)
{
    decoder_call_transform(&c->block, c->block.arikan != 0, soft);
}

/* ---- what is lent */

void words_call_room(struct words_call *c, size_t places)
{
    decoder_call_trim(&c->block);
    c->block.inputs_len = c->block.words_len = size_of(c) * places;
    c->block.scores_len = places;
}

static size_t or_longer(size_t need)
{
    size_t beyond[4] = {0, 1, draw_below(16), draw_below(4096)};
    return need + beyond[draw_below(4)];
}

void words_call_lengthen(struct words_call *c)
{
    c->block.numbers_len = or_longer(c->block.numbers_len);
    c->block.bytes_len = or_longer(c->block.bytes_len);
    c->block.inputs_len = or_longer(c->block.inputs_len);
    c->block.words_len = or_longer(c->block.words_len);
}

void words_call_quick(struct words_call *c, uint32_t m, int arikan)
{
    size_t k = draw_below(5);
    words_call_code(c, m, arikan, k, (enum clear_kind)draw_below(CLEAR_KINDS), pairs_any_kind());
    words_call_soft(c, (enum soft_kind)draw_below(SOFT_KINDS));
    int32_t most = words_magnitudes(c);
    const int32_t marks[4] = {INT32_MIN, 0, most - (int32_t)draw_below((size_t)(2 * most + 2)), INT32_MAX};
    c->mark = marks[draw_below(4)];
    words_call_room(c, ((size_t)1 << k) + draw_below(3));
    words_call_lengthen(c);
}

/* ---- what is known of them */

size_t words_clear(const struct words_call *c)
{
    return reference_clear(c->block.map, size_of(c));
}

int32_t words_magnitudes(const struct words_call *c)
{
    int32_t most = 0;
    for (size_t i = 0; i < size_of(c); i++)
        most += c->block.soft[i] == -2048 ? 2047 : abs(c->block.soft[i]);
    return most;
}

size_t words_count(const int32_t *correlations, size_t count, int32_t mark)
{
    size_t reached = 0;
    for (size_t i = 0; i < count; i++)
        reached += correlations[i] >= mark;
    return reached;
}

const char *words_count_fault(const struct words_call *c, uint32_t count)
{
    uint32_t all = (uint32_t)1 << words_clear(c);
    int32_t most = words_magnitudes(c);
    if (count > all)
        return "there are more words than the code has";
    if (count > c->block.scores_len)
        return "there are more words than places";
    if (c->mark > most && count > 0)
        return "a word is above the sum of the magnitudes";
    if (c->mark <= -most && count < all)
        return "a word that must reach the mark is not there";
    return NULL;
}

/* ---- marks and rooms */

static int32_t end_of(const int32_t *correlations, size_t count, int largest)
{
    int32_t end = correlations[0];
    for (size_t i = 1; i < count; i++)
        if (largest ? correlations[i] > end : correlations[i] < end)
            end = correlations[i];
    return end;
}

int32_t words_mark(const struct words_call *c, enum mark_kind kind, const int32_t *correlations, size_t count)
{
    int32_t word = correlations[draw_below(count)], most = words_magnitudes(c);
    int32_t best = end_of(correlations, count, 1), least = end_of(correlations, count, 0);
    switch (kind) {
    case MARK_LOWEST: return INT32_MIN;
    case MARK_HIGHEST: return INT32_MAX;
    case MARK_NEXT_LOWEST: return INT32_MIN + 1 + (int32_t)draw_below(2 * (size_t)most + 2);
    case MARK_NEXT_HIGHEST: return INT32_MAX - 1 - (int32_t)draw_below(2 * (size_t)most + 2);
    case MARK_ANY: return (int32_t)((int64_t)(draw() >> 32) + INT32_MIN);
    case MARK_WORD: return word;
    case MARK_ABOVE_WORD: return word + 1;
    case MARK_BELOW_WORD: return word - 1;
    case MARK_BEST: return best;
    case MARK_ABOVE_BEST: return best + 1;
    case MARK_LEAST: return least;
    case MARK_ABOVE_LEAST: return least + 1;
    case MARK_SUM: return most;
    case MARK_ABOVE_SUM: return most + 1;
    case MARK_MINUS_SUM: return -most;
    case MARK_ZERO: return 0;
    default: return least + (int32_t)draw_below((size_t)(best - least) + 1);
    }
}

size_t words_room(enum room_kind kind, size_t count)
{
    switch (kind) {
    case ROOM_NONE: return 0;
    case ROOM_ONE_LESS: return count > 0 ? count - 1 : 0;
    case ROOM_EXACT: return count;
    case ROOM_ONE_MORE: return count + 1;
    case ROOM_MANY: return count + 2 + draw_below(40);
    default: return draw_below(count + 1);
    }
}

/* ---- faults */

size_t words_bad_k(size_t n, size_t which)
{
    const size_t all[BAD_KS] = {21, 22, 32, n / 2, n - 1, n, 256, 256 + draw_below(21), 21 + draw_below(n - 20)};
    return all[which] > WORDS_MAX_K && all[which] <= n ? all[which] : 21;
}

int words_call_break(struct words_call *c, enum pair_fault fault)
{
    if (!pairs_break(&c->block.pairs, c->block.map, size_of(c), fault))
        return 0;
    c->pairs_fault = fault;
    c->faults |= 1u << words_place(15);
    c->block.refusal = 15;
    return 1;
}

/* The faults of this set that a call of the decoder can have from the first of two refusals to
 * the last, as the decoder's own calls name them. */
static unsigned decoder_faults(unsigned faults, uint32_t first, uint32_t last)
{
    unsigned same = 0;
    for (size_t j = words_place(first); j <= words_place(last); j++)
        for (size_t i = 0; i < DECODER_REFUSALS; i++)
            if (faults >> j & 1 && decoder_order[i] == words_order[j])
                same |= 1u << i;
    return same;
}

static int asks_for(unsigned faults, uint32_t refusal)
{
    return faults >> words_place(refusal) & 1;
}

/* One output or both, of a call that has room for a word. */
static void shorten_outputs(struct words_call *c)
{
    size_t which = 1 + draw_below(3), need = size_of(c) * c->block.scores_len;
    const size_t lengths[3] = {need - 1, 0, draw_below(need)};
    if (which & 1)
        c->block.inputs_len = lengths[draw_below(3)];
    if (which & 2)
        c->block.words_len = lengths[draw_below(3)];
}

/* With 19 every word reaches the mark, and there is room for fewer, else for all or, with 20,
 * none reaches it. With 10 there is room for one. */
static void set_room(struct words_call *c, unsigned faults)
{
    size_t k = words_clear(c), all = (size_t)1 << (k <= 4 ? k : 4), least = asks_for(faults, 10) ? 1 : 0;
    if (asks_for(faults, 19)) {
        const int32_t marks[3] = {INT32_MIN, INT32_MIN, -words_magnitudes(c)};
        c->mark = marks[draw_below(3)];
        words_call_room(c, least + draw_below(all - least));
    } else {
        c->mark = asks_for(faults, 20) ? INT32_MAX : 0;
        words_call_room(c, all + draw_below(3));
    }
    words_call_lengthen(c);
}

void words_call_faulty(struct words_call *c, uint32_t m, int arikan, unsigned faults)
{
    size_t n = (size_t)1 << m, k = 1 + draw_below(4);
    faults &= ~((n != 4 ? 1u << words_place(3) : 0) | (n < 32 ? 1u << words_place(20) : 0));
    if (asks_for(faults, 20))
        k = words_bad_k(n, draw_below(BAD_KS));
    words_call_code(c, m, arikan, k, (enum clear_kind)draw_below(CLEAR_KINDS), pairs_any_kind());
    words_call_soft(c, (enum soft_kind)draw_below(SOFT_KINDS));
    set_room(c, faults);
    /* From the last refusal to the first: what a fault is measured by is spoiled only after it. */
    if (asks_for(faults, 10))
        shorten_outputs(c);
    decoder_call_spoil(&c->block, decoder_faults(faults, 6, 9));
    while (asks_for(faults, 15) && !words_call_break(c, (enum pair_fault)draw_below(PAIR_FAULTS)))
        ;
    decoder_call_spoil(&c->block, decoder_faults(faults, 1, 3));
    c->faults = faults;
    c->block.refusal = 0;
    for (size_t j = WORDS_REFUSALS; j > 0; j--)
        if (faults >> (j - 1) & 1)
            c->block.refusal = words_order[j - 1];
}
