/*
 * Bit patterns of floats, in blocks of as many as a call takes: every pattern, or one in so many
 * and those near an edge.
 */
#ifndef FLOAT_SWEEP_H
#define FLOAT_SWEEP_H

#include <stddef.h>
#include <stdint.h>

enum { BLOCK = 1024 };

/* An edge is k/64 or (k + 1/2)/64 for a whole k from -2048 to 2048, the first pattern of an exponent,
 * or the first quiet NaN, of either sign. So both zeros, the smallest and largest subnormals and
 * normals, the infinities and the first and last NaNs are near an edge. */
struct sweep {
    uint32_t one_in, reach;            /* reach is how near to an edge */
    uint64_t spread, near;             /* patterns: one in so many; near an edge, 0 if one in 1 */
    uint64_t blocks_of_spread, blocks; /* those near an edge come last */
};

/* one_in is not 0. */
void sweep_open(struct sweep *s, uint32_t one_in, uint32_t reach);

/* Sets the patterns of a block; gives their number, BLOCK or less. They come from all over the
 * sweep, far from one another. */
size_t sweep_block(const struct sweep *s, uint64_t block, uint32_t patterns[BLOCK]);

/* What tells one set of patterns from another: their number, their sum, and the sum of their
 * squares modulo 2^64. */
struct sweep_sums {
    uint64_t count, sum, squares;
};

static inline void sums_add(struct sweep_sums *sums, uint32_t pattern)
{
    sums->count++;
    sums->sum += pattern;
    sums->squares += (uint64_t)pattern * pattern;
}

/* What the patterns of a sweep must come to: taken one after another, and not by blocks. */
struct sweep_sums sweep_must(const struct sweep *s);

#endif
