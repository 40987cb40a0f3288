#include "float_sweep.h"

#include <string.h>

enum { MOST_STEPS = 2048, EXPONENTS = 512 };
enum { EDGES = 2 * (2 * MOST_STEPS + 1) + EXPONENTS + 2 };

static const uint64_t all_patterns = (uint64_t)1 << 32;
static uint32_t edges[EDGES];

static uint32_t bits_of(float part)
{
    uint32_t bits;
    memcpy(&bits, &part, sizeof bits);
    return bits;
}

static void set_edges(void)
{
    size_t count = 0;
    for (int k = -MOST_STEPS; k <= MOST_STEPS; k++) {
        edges[count++] = bits_of((float)k / 64);
        edges[count++] = bits_of(((float)k + 0.5f) / 64);
    }
    for (uint32_t exponent = 0; exponent < EXPONENTS; exponent++) /* of both signs */
        edges[count++] = exponent << 23;
    edges[count++] = 0x7fc00000u;
    edges[count++] = 0xffc00000u;
}

static uint64_t blocks_of(uint64_t patterns)
{
    return (patterns + BLOCK - 1) / BLOCK;
}

void sweep_open(struct sweep *s, uint32_t one_in, uint32_t reach)
{
    set_edges();
    s->one_in = one_in;
    s->reach = reach;
    s->spread = (all_patterns + one_in - 1) / one_in;
    s->near = one_in == 1 ? 0 : EDGES * (2 * (uint64_t)reach + 1);
    s->blocks_of_spread = blocks_of(s->spread);
    s->blocks = s->blocks_of_spread + blocks_of(s->near);
}

static uint32_t near_edge(const struct sweep *s, uint64_t index)
{
    uint32_t width = 2 * s->reach + 1;
    return edges[index / width] + (uint32_t)(index % width) - s->reach;
}

size_t sweep_block(const struct sweep *s, uint64_t block, uint32_t patterns[BLOCK])
{
    int spread = block < s->blocks_of_spread;
    uint64_t count = spread ? s->spread : s->near, index = spread ? block : block - s->blocks_of_spread;
    size_t len = 0;
    for (; len < BLOCK && index < count; index += blocks_of(count))
        patterns[len++] = spread ? (uint32_t)(index * s->one_in) : near_edge(s, index);
    return len;
}

struct sweep_sums sweep_must(const struct sweep *s)
{
    struct sweep_sums sums = {0, 0, 0};
    for (uint64_t pattern = 0; pattern < all_patterns; pattern += s->one_in)
        sums_add(&sums, (uint32_t)pattern);
    for (size_t j = 0; s->near > 0 && j < EDGES; j++)
        for (int64_t from = -(int64_t)s->reach; from <= (int64_t)s->reach; from++)
            sums_add(&sums, (uint32_t)(edges[j] + from));
    return sums;
}
