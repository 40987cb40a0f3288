#include "decoder_calls.h"

#include "codec_calls.h"
#include "draw.h"
#include "reference_codec.h"

#include <stdlib.h>
#include <string.h>

const uint32_t decoder_order[DECODER_REFUSALS] = {1, 2, 3, 15, 4, 5, 6, 7, 8, 9, 10};

static size_t size_of(const struct decoder_call *c)
{
    return (size_t)1 << c->m;
}

/* ---- codes */

static int weight(size_t i)
{
    int ones = 0;
    for (; i > 0; i /= 2)
        ones += (int)(i % 2);
    return ones;
}

/* Half of the positions, those of lowest weight. */
static void freeze_low_weights(uint8_t *frozen, uint32_t m)
{
    size_t n = (size_t)1 << m, count = 0;
    for (int w = 0; w <= (int)m; w++)
        for (size_t i = 0; i < n && count < n / 2; i++)
            if (weight(i) == w) {
                frozen[i] = 1;
                count++;
            }
}

static void make_code(struct decoder_call *c, uint32_t m, enum code_kind kind)
{
    uint8_t frozen[DECODER_MAX_N] = {0};
    c->m = m;
    c->arikan = draw_flag(draw_below(2) == 0);
    size_t n = size_of(c), cut = draw_below(n + 1);
    size_t share = 1 + draw_below(7); /* of eight positions, about so many are frozen */
    for (size_t i = 0; i < n; i++)
        frozen[i] = kind == CODE_SHUT || kind == CODE_FEW_CLEAR || (kind == CODE_MIXED && draw_below(8) < share) ||
                    (kind == CODE_FRONT && i < cut) || (kind == CODE_BACK && i >= cut);
    if (kind == CODE_POLAR)
        freeze_low_weights(frozen, m);
    for (size_t left = kind == CODE_FEW_CLEAR ? 6 : 0; left > 0; left--)
        frozen[draw_below(n)] = 0;
    c->map_len = (n + 7) / 8;
    draw_bytes(c->map, MAP_ROOM);
    memset(c->map, 0, c->map_len);
    for (size_t i = 0; i < n; i++)
        c->map[i / 8] |= (uint8_t)(frozen[i] << (i % 8));
}

/* ---- soft values */

/* From -most to most. */
static int16_t draw_soft(int most)
{
    return (int16_t)((int)draw_below((size_t)(2 * most + 1)) - most);
}

/* A word of the code at magnitude 20, with noise up to the one given. */
static void make_noisy(struct decoder_call *c, int noise)
{
    uint8_t payload[DECODER_MAX_N], u[DECODER_MAX_N], word[DECODER_MAX_N];
    size_t n = size_of(c);
    for (size_t i = 0; i < n; i++)
        payload[i] = (uint8_t)draw_below(2);
    reference_input(n, c->map, c->pairs.bytes, c->pairs.len, payload, u);
    reference_transform(n, c->arikan, u, word);
    for (size_t i = 0; i < n; i++)
        c->soft[i] = (int16_t)((word[i] ? -20 : 20) + draw_soft(noise));
}

static void make_soft(struct decoder_call *c, enum soft_kind kind)
{
    static const int most[SOFT_KINDS] = {0, 1, 2, 20, 2047, 0, 60, 39};
    static const int16_t ends[3] = {2047, -2047, -2048};
    c->soft_len = size_of(c);
    for (size_t i = 0; i < SOFT_ROOM; i++) {
        c->soft[i] = kind == SOFT_ENDS ? ends[draw_below(3)] : draw_soft(most[kind]);
        if (kind == SOFT_WIDE && draw_below(64) == 0)
            c->soft[i] = -2048;
    }
    if (kind == SOFT_NOISY || kind == SOFT_CLEAN)
        make_noisy(c, kind == SOFT_NOISY ? 40 : 19);
}

/* ---- calls that are served */

void decoder_call_trim(struct decoder_call *c)
{
    size_t n = size_of(c), l = c->list_size;
    c->numbers_len = 32 * n * l;
    c->bytes_len = (4 * n + 256) * l;
    c->inputs_len = c->words_len = n * l;
    c->scores_len = l;
}

static size_t or_longer(size_t need)
{
    size_t beyond[4] = {0, 1, draw_below(16), draw_below(need < 4096 ? need : 4096)};
    return need + beyond[draw_below(4)];
}

void decoder_call_good(struct decoder_call *c, uint32_t m, enum code_kind code, enum soft_kind soft,
                       uint32_t list_size, uint32_t stop)
{
    make_code(c, m, code);
    decoder_call_pair(c, pairs_any_kind(), soft);
    c->list_size = list_size;
    c->stop = stop;
    decoder_call_trim(c);
    c->numbers_len = or_longer(c->numbers_len);
    c->bytes_len = or_longer(c->bytes_len);
    c->inputs_len = or_longer(c->inputs_len);
    c->words_len = or_longer(c->words_len);
    c->scores_len = or_longer(c->scores_len);
    c->refusal = 0;
}

void decoder_call_quick(struct decoder_call *c, uint32_t m)
{
    static const uint32_t list_sizes[6] = {1, 2, 3, 16, 31, 32};
    uint32_t l = list_sizes[draw_below(m < 9 ? 6 : 3)];
    uint32_t stop = (uint32_t)draw_below((1u << m) + 1);
    decoder_call_good(c, m, CODE_FEW_CLEAR, (enum soft_kind)draw_below(SOFT_KINDS), l, stop);
}

void decoder_call_pair(struct decoder_call *c, enum pair_kind pairs, enum soft_kind soft)
{
    pairs_draw(&c->pairs, c->map, size_of(c), pairs);
    make_soft(c, soft);
}

void decoder_call_transform(struct decoder_call *c, int arikan, enum soft_kind soft)
{
    c->arikan = draw_flag(arikan);
    make_soft(c, soft);
}

/* ---- what is known of them */

int decoder_follows(const struct decoder_call *c, const uint8_t *input)
{
    for (size_t i = 0; i < c->stop; i++)
        if (reference_frozen(c->map, i) && input[i] != reference_frozen_bit(c->pairs.bytes, c->pairs.len, i, input))
            return 0;
    return 1;
}

uint32_t decoder_rows(const struct decoder_call *c)
{
    size_t q = reference_clear(c->map, c->stop);
    return decoder_drops(c) ? c->list_size : (uint32_t)1 << q;
}

int decoder_drops(const struct decoder_call *c)
{
    size_t q = reference_clear(c->map, c->stop);
    return q > 5 || (uint32_t)1 << q > c->list_size;
}

/* No score is above the sum of the magnitudes, and each differs from it by an even number:
 * twice the magnitudes where a word has the other sign. Up to the first frozen position
 * a prefix that has all signs leads. */
const char *decoder_ceiling_fault(const struct decoder_call *c, int32_t ceiling, int32_t first_score)
{
    int32_t most = 0;
    for (size_t i = 0; i < size_of(c); i++)
        most += c->soft[i] == -2048 ? 2047 : abs(c->soft[i]);
    if (ceiling < first_score)
        return "the ceiling is below the first score";
    if (ceiling > most || (most - ceiling) % 2 != 0)
        return "the ceiling is no correlation of any word";
    if (ceiling != first_score && !decoder_drops(c))
        return "the ceiling is not the first score, and nothing was dropped";
    if (ceiling != most && reference_clear(c->map, c->stop) == c->stop)
        return "the ceiling is not the sum of the magnitudes, and no position below the stop is frozen";
    return NULL;
}

/* ---- faults, each of which says if this call can have it */

uint32_t decoder_bad_list_size(const struct decoder_call *c, size_t which)
{
    uint32_t l = c->list_size;
    const uint32_t all[BAD_LIST_SIZES] = {
        0, 33, 34, 64, l + 32, l + 256, l + 65536, l + 0x80000000u, UINT32_MAX,
        33 + (uint32_t)draw_below(UINT32_MAX - 33u),
    };
    return all[which];
}

uint32_t decoder_bad_stop(const struct decoder_call *c, size_t which)
{
    uint32_t n = (uint32_t)size_of(c), p = c->stop;
    const uint32_t all[BAD_STOPS] = {
        n + 1, n + 2, 2 * n, n + 256, p + 2048, p + 65536, p + 0x80000000u, UINT32_MAX,
        n + 1 + (uint32_t)draw_below(UINT32_MAX - n - 1u),
    };
    return all[which];
}

int16_t decoder_bad_soft(size_t which)
{
    int16_t far = (int16_t)(2048 + draw_below(30720));
    const int16_t all[BAD_SOFTS] = {2048, -2049, -32768, 32767, far, (int16_t)(-far - 1)};
    return all[which];
}

/* A length that is not right: often a neighbour of it. */
static size_t wrong_length(size_t right, size_t room)
{
    size_t lengths[6] = {right - 1, right + 1, 0, 2 * right, right + 8, draw_below(room / 2)};
    size_t len;
    do
        len = lengths[draw_below(6)];
    while (len == right || len > room);
    return len;
}

static size_t shorter(size_t need)
{
    size_t lengths[3] = {need - 1, 0, draw_below(need)};
    return lengths[draw_below(3)];
}

static void spoil_softs(struct decoder_call *c)
{
    for (size_t times = draw_below(2) ? 1 : 1 + draw_below(8); times > 0; times--)
        c->soft[draw_below(c->soft_len)] = decoder_bad_soft(draw_below(BAD_SOFTS));
}

/* One output or several. */
static void shorten_outputs(struct decoder_call *c)
{
    size_t which = 1 + draw_below(7), rows = size_of(c) * c->list_size;
    if (which & 1)
        c->inputs_len = shorter(rows);
    if (which & 2)
        c->words_len = shorter(rows);
    if (which & 4)
        c->scores_len = shorter(c->list_size);
}

static int spoil(struct decoder_call *c, uint32_t refusal)
{
    size_t n = size_of(c), l = c->list_size;
    switch (refusal) {
    case 1: c->m = call_bad_m(c->m, draw_below(CALL_BAD_MS)); return 1;
    case 2: c->map_len = wrong_length(c->map_len, MAP_ROOM); return 1;
    case 3:
        if (n == 4)
            c->map[0] |= (uint8_t)(16u << draw_below(4));
        return n == 4;
    case 4: c->list_size = decoder_bad_list_size(c, draw_below(BAD_LIST_SIZES)); return 1;
    case 5: c->stop = decoder_bad_stop(c, draw_below(BAD_STOPS)); return 1;
    case 6: c->soft_len = wrong_length(c->soft_len, SOFT_ROOM); return 1;
    case 7: spoil_softs(c); return 1;
    case 8: c->numbers_len = shorter(32 * n * l); return 1;
    case 9: c->bytes_len = shorter((4 * n + 256) * l); return 1;
    case 10: shorten_outputs(c); return 1;
    case 15: pairs_break_somehow(&c->pairs, c->map, n, PART_OF_A_PAIR); return 1;
    default: abort();
    }
}

void decoder_call_spoil(struct decoder_call *c, unsigned faults)
{
    /* From the last refusal to the first: what a fault is measured by (m, the map, the
     * list size, the length of the soft values) is spoiled only after it, and the refusal
     * set last is the first one in the order. */
    for (size_t j = DECODER_REFUSALS; j > 0; j--)
        if (faults >> (j - 1) & 1 && spoil(c, decoder_order[j - 1]))
            c->refusal = decoder_order[j - 1];
}
