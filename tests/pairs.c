#include "pairs.h"

#include "draw.h"
#include "reference_codec.h"

#include <string.h>

enum { PAIR_BYTES = 4, MAX_N = REFERENCE_MAX_N, LIST_ROOM = PAIRS_ROOM / PAIR_BYTES };

/* The pairs that are being made, for a code of n positions. */
static struct {
    size_t n;
    const uint8_t *map;
    size_t frozen[MAX_N], frozen_len; /* the frozen positions that can have a pair, from 1 on */
    size_t clear[MAX_N], clear_len;
    size_t clear_below[MAX_N]; /* how many of these lie below a position */
    struct reference_pair pair[LIST_ROOM];
    size_t count;
} made;

static void begin(const uint8_t *map, size_t n)
{
    made.n = n;
    made.map = map;
    made.frozen_len = made.clear_len = made.count = 0;
    for (size_t i = 0; i < n; i++) {
        made.clear_below[i] = made.clear_len;
        if (!reference_frozen(map, i))
            made.clear[made.clear_len++] = i;
        else if (i > 0)
            made.frozen[made.frozen_len++] = i;
    }
}

static void take_up(const struct pairs *p, const uint8_t *map, size_t n)
{
    begin(map, n);
    for (; made.count < pairs_count(p); made.count++)
        made.pair[made.count] = reference_pair_at(p->bytes, made.count);
}

static void write_down(struct pairs *p)
{
    p->len = PAIR_BYTES * made.count;
    draw_bytes(p->bytes + p->len, PAIR_BYTES);
    for (size_t j = 0; j < made.count; j++) {
        const size_t numbers[2] = {made.pair[j].f, made.pair[j].e};
        for (size_t byte = 0; byte < PAIR_BYTES; byte++)
            p->bytes[PAIR_BYTES * j + byte] = (uint8_t)(numbers[byte / 2] >> (8 * (byte % 2)));
    }
}

size_t pairs_count(const struct pairs *p)
{
    return p->len / PAIR_BYTES;
}

size_t pairs_allowed(const uint8_t *map, size_t n)
{
    size_t allowed = 0;
    for (size_t i = 0; i < n; i++)
        allowed += reference_frozen(map, i) ? i : 0;
    return allowed;
}

/* From n = 32 on a map can allow 256. */
int pairs_are_full(const struct pairs *p, const uint8_t *map, size_t n)
{
    return pairs_count(p) > 0 && pairs_count(p) == (n < 32 ? pairs_allowed(map, n) : PAIRS_MOST);
}

/* ---- good pairs */

/* How many are below (f, e). */
static size_t place_of(size_t f, size_t e)
{
    size_t from = 0, to = made.count;
    while (from < to) {
        size_t at = (from + to) / 2;
        if (made.pair[at].f < f || (made.pair[at].f == f && made.pair[at].e < e))
            from = at + 1;
        else
            to = at;
    }
    return from;
}

static void insert_at(size_t at, size_t f, size_t e)
{
    memmove(&made.pair[at + 1], &made.pair[at], (made.count - at) * sizeof made.pair[0]);
    made.pair[at] = (struct reference_pair){f, e};
    made.count++;
}

/* At its place, unless it is there already. */
static void add(size_t f, size_t e)
{
    size_t at = place_of(f, e);
    if (at == made.count || made.pair[at].f != f || made.pair[at].e != e)
        insert_at(at, f, e);
}

/* A position below f: any, a neighbour, the first, often a clear one. */
static size_t below(size_t f)
{
    size_t kind = draw_below(8), clear = made.clear_below[f];
    if (kind < 2)
        return kind == 0 ? 0 : f - 1;
    return kind < 5 && clear > 0 ? made.clear[draw_below(clear)] : draw_below(f);
}

/* Draws until there are so many or, for a map that allows few, takes them in turn. */
static void fill_up(size_t count, size_t (*choose)(size_t))
{
    size_t allowed = pairs_allowed(made.map, made.n);
    count = count < allowed ? count : allowed;
    for (size_t tries = 0; made.count < count && tries < 16 * count; tries++) {
        size_t f = made.frozen[draw_below(made.frozen_len)];
        add(f, choose(f));
    }
    for (size_t i = made.frozen_len; i > 0; i--)
        for (size_t e = 0; made.count < count && e < made.frozen[i - 1]; e++)
            add(made.frozen[i - 1], e);
}

static void make_star(void)
{
    size_t last = made.frozen_len - 1, f = made.frozen[draw_below(2) ? last : draw_below(last + 1)];
    size_t most = f < PAIRS_MOST ? f : PAIRS_MOST, count = 1 + draw_below(most);
    for (size_t tries = 0; made.count < count && tries < 4 * count; tries++)
        add(f, below(f));
}

/* Behind a position, often a clear one, each frozen one follows the one before it, but for
 * some that are left out. */
static void make_chain(void)
{
    size_t before = below(made.frozen[draw_below(made.frozen_len)]);
    for (size_t i = 0; i < made.frozen_len && made.count < PAIRS_MOST; i++)
        if (made.frozen[i] > before && draw_below(8) > 0) {
            add(made.frozen[i], before);
            before = made.frozen[i];
        }
}

static void make_ends(void)
{
    size_t first = made.frozen[0], last = made.frozen[made.frozen_len - 1];
    fill_up(draw_below(3), below);
    add(first, 0);
    add(first, first - 1);
    add(last, 0);
    add(last, last - 1);
}

void pairs_draw(struct pairs *p, const uint8_t *map, size_t n, enum pair_kind kind)
{
    begin(map, n);
    if (made.frozen_len > 0) {
        switch (kind) {
        case PAIRS_FEW: fill_up(1 + draw_below(8), below); break;
        case PAIRS_MANY: fill_up(9 + draw_below(PAIRS_MOST - 9), below); break;
        case PAIRS_FULL: fill_up(PAIRS_MOST, below); break;
        case PAIRS_STAR: make_star(); break;
        case PAIRS_CHAIN: make_chain(); break;
        case PAIRS_ENDS: make_ends(); break;
        default: break;
        }
    }
    write_down(p);
}

void pairs_spread(struct pairs *p, const uint8_t *map, size_t n, size_t count)
{
    begin(map, n);
    if (made.frozen_len > 0)
        fill_up(count, draw_below);
    write_down(p);
}

enum pair_kind pairs_any_kind(void)
{
    return draw_below(3) == 0 ? PAIRS_NONE : (enum pair_kind)draw_below(PAIR_KINDS);
}

/* ---- pairs that break the rules */

static void make_room(size_t count)
{
    while (made.count + count > PAIRS_MOST) {
        size_t at = draw_below(made.count--);
        memmove(&made.pair[at], &made.pair[at + 1], (made.count - at) * sizeof made.pair[0]);
    }
}

/* One more pair, at its place: only what is wrong with it is wrong. */
static int add_wrong(size_t f, size_t e)
{
    make_room(1);
    insert_at(place_of(f, e), f, e);
    return 1;
}

static int add_clear_f(void)
{
    size_t f = made.clear_len > 0 ? made.clear[draw_below(made.clear_len)] : 0;
    return f > 0 && add_wrong(f, draw_below(f));
}

/* Two bytes hold it, and it differs from a frozen position, where there is one, by a
 * multiple of n. */
static int add_f_past_n(void)
{
    size_t f = made.frozen_len > 0 ? made.frozen[draw_below(made.frozen_len)] : 1, turns = 65536 / made.n - 1;
    const size_t past[5] = {f + made.n, f + made.n * (1 + draw_below(turns)), made.n + 1, 65535, f + 32768};
    return add_wrong(past[draw_below(5)], draw_below(f));
}

/* So too for e. */
static int add_e_not_below(int equal)
{
    size_t all = made.frozen_len + reference_frozen(made.map, 0), which = all > 0 ? draw_below(all) : 0;
    if (all == 0)
        return 0;
    size_t f = which < made.frozen_len ? made.frozen[which] : 0, turns = 65536 / made.n - 1;
    const size_t above[5] = {f + 1, made.n, draw_below(f + 1) + made.n * (1 + draw_below(turns)), 65535, f + 32768};
    return add_wrong(f, equal ? f : above[draw_below(5)]);
}

/* A good pair again, before or behind itself. */
static int add_again(void)
{
    if (made.frozen_len == 0)
        return 0;
    make_room(1);
    if (made.count == 0)
        fill_up(1, below);
    size_t at = draw_below(made.count);
    insert_at(at, made.pair[at].f, made.pair[at].e);
    return 1;
}

/* Two good neighbours change places: of one f, or of two. */
static int swap_two(int one_f)
{
    size_t last = made.frozen_len > 0 ? made.frozen_len - 1 : 0, at = 0;
    if (one_f ? made.frozen_len == 0 || made.frozen[last] < 2 : made.frozen_len < 2)
        return 0;
    make_room(2);
    size_t f = made.frozen[last], e = draw_below(f);
    add(f, e);
    add(one_f ? f : made.frozen[0], one_f ? (e + 1) % f : 0);
    do
        at = draw_below(made.count - 1);
    while ((made.pair[at].f == made.pair[at + 1].f) != one_f);
    struct reference_pair kept = made.pair[at];
    made.pair[at] = made.pair[at + 1];
    made.pair[at + 1] = kept;
    return 1;
}

/* Pairs past n, in their order, make up what the map does not allow. */
static int add_too_many(void)
{
    const size_t counts[4] = {PAIRS_MOST + 1, PAIRS_MOST + 1, 2 * PAIRS_MOST, LIST_ROOM - 1};
    size_t count = counts[draw_below(4)];
    if (made.frozen_len > 0)
        fill_up(count, below);
    for (size_t e = 0; made.count < count; e++)
        insert_at(made.count, made.n, e);
    return 1;
}

int pairs_break(struct pairs *p, const uint8_t *map, size_t n, enum pair_fault fault)
{
    int broken = 1;
    size_t part = 1 + draw_below(3);
    take_up(p, map, n);
    switch (fault) {
    case PART_OF_A_PAIR: p->len = p->len > 0 && draw_below(2) ? p->len - part : p->len + part; return 1;
    case ABOVE_256: broken = add_too_many(); break;
    case F_CLEAR: broken = add_clear_f(); break;
    case F_AT_N: broken = add_wrong(n, draw_below(n)); break;
    case F_PAST_N: broken = add_f_past_n(); break;
    case E_IS_F: broken = add_e_not_below(1); break;
    case E_ABOVE_F: broken = add_e_not_below(0); break;
    case PAIR_TWICE: broken = add_again(); break;
    case E_FALLS: broken = swap_two(1); break;
    default: broken = swap_two(0); break;
    }
    if (broken)
        write_down(p);
    return broken;
}

void pairs_break_somehow(struct pairs *p, const uint8_t *map, size_t n, enum pair_fault first)
{
    while (!pairs_break(p, map, n, (enum pair_fault)(first + draw_below(PAIR_FAULTS - first))))
        ;
}
