/*
 * Calls the quantiser on blocks of bit patterns in guarded memory, compares what it makes of each
 * with the reference, and counts what it was given.
 */
#ifndef FLOAT_CHECK_H
#define FLOAT_CHECK_H

#include "float_sweep.h"
#include "lent.h"

#include <stddef.h>
#include <stdint.h>

/* Behind the BLOCK soft values of a call the output has room for some more. */
enum { MOST_BEHIND = 64 };

/* What was seen at the real parts, or at the imaginary ones. */
struct float_seen {
    struct sweep_sums sums;
    uint64_t not_zero, gaps; /* soft values that are not 0; NaN */
};

/* A thread has one of its own. */
struct float_memory {
    struct lent samples, soft;
    uint8_t bytes[4 * BLOCK];          /* what the samples must hold, */
    int16_t want[BLOCK + MOST_BEHIND]; /* and the output after a call */
    struct float_seen seen[2];         /* at the real parts, at the imaginary ones */
};

void float_memory_open(struct float_memory *f);

/* Chooses places for the slices. It draws, so one thread at a time may be here. */
void float_memory_place(struct float_memory *f);

/* Makes two calls with a block of patterns in a float mode. The first pattern is at position from,
 * the others follow in a circle, and in the second call each is one position further. Only so many
 * of them count. Ends the program with status 1, and says what differs, if anything is not as it
 * must be. */
void float_check(struct float_memory *f, size_t mode, const uint32_t patterns[BLOCK], size_t counted, size_t from);

#endif
