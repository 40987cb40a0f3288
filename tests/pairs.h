/*
 * Pairs for a code: drawn so that the rules allow them, and broken in each way that the
 * rules refuse.
 */
#ifndef PAIRS_H
#define PAIRS_H

#include <stddef.h>
#include <stdint.h>

/* A code has no more pairs than the first; no slice of pairs is longer, in bytes, than
 * the second. */
enum { PAIRS_MOST = 256, PAIRS_ROOM = 3072 };

struct pairs {
    uint8_t bytes[PAIRS_ROOM]; /* a few behind the pairs, for a part of one, are filled too */
    size_t len;
};

/* No pair; up to eight; up to 255; 256, or all if the map allows no more; many e with one f;
 * frozen positions that follow each other; the first and the last that the map allows. */
enum pair_kind {
    PAIRS_NONE, PAIRS_FEW, PAIRS_MANY, PAIRS_FULL, PAIRS_STAR, PAIRS_CHAIN, PAIRS_ENDS, PAIR_KINDS
};

/* How many pairs the frozen map allows: each frozen f with each e below it. */
size_t pairs_allowed(const uint8_t *map, size_t n);

/* Pairs of a kind for a code; none if its map allows none. */
void pairs_draw(struct pairs *p, const uint8_t *map, size_t n, enum pair_kind kind);

/* So many pairs, or as many as the map allows: f is any frozen position, and e any
 * position below it. */
void pairs_spread(struct pairs *p, const uint8_t *map, size_t n, size_t count);

/* None, or of any kind. */
enum pair_kind pairs_any_kind(void);

size_t pairs_count(const struct pairs *p);

/* 1 if there are 256 of them or, where n is too small for that, all that the map allows. */
int pairs_are_full(const struct pairs *p, const uint8_t *map, size_t n);

/* The ways in which the rules are broken. */
enum pair_fault {
    PART_OF_A_PAIR, /* the length is no multiple of 4 */
    ABOVE_256,
    F_CLEAR,
    F_AT_N,
    F_PAST_N, /* at times what a narrow register takes for a good f */
    E_IS_F,
    E_ABOVE_F,
    PAIR_TWICE,
    E_FALLS, /* f stays */
    F_FALLS,
    PAIR_FAULTS
};

/* Breaks good pairs in this way and, but for ABOVE_256 where the map does not allow so many,
 * in no other. 0 if the map leaves no pair to do it with; then nothing changes. */
int pairs_break(struct pairs *p, const uint8_t *map, size_t n, enum pair_fault fault);

/* Breaks them in some way from this one on: from F_CLEAR on their number is at most 256. */
void pairs_break_somehow(struct pairs *p, const uint8_t *map, size_t n, enum pair_fault first);

#endif
