/*
 * The memory of a call of the decoder: what is passed to it, each slice guarded and those
 * that it writes dirty, and memory for what it must leave in these.
 */
#ifndef DECODER_MEMORY_H
#define DECODER_MEMORY_H

#include "decoder_calls.h"
#include "lent.h"

/* What is passed to a call, in the order of its arguments; the last five are written. */
enum { MAP, PAIRS, SOFT, NUMBERS, BYTES, INPUTS, WORDS, SCORES, SLICES, FIRST_WRITTEN = NUMBERS };

/* What lies in memory before a call: nothing but 0, nothing but 1 bits, small numbers
 * (a left-over cost or bit would look so, and would win a comparison that a large one
 * loses), or anything. */
enum dirt { DIRT_ZERO, DIRT_ONES, DIRT_SMALL, DIRT_ANY, DIRTS };

/* Draws the dirt of a call; and other dirt for another one, in every slice. */
void decoder_memory_draw(enum dirt dirt[SLICES]);
void decoder_memory_draw_other(enum dirt dirt[SLICES]);

/* Places the call's slices; lent gets their rooms. */
void decoder_memory_place(const struct decoder_call *c, const enum dirt dirt[SLICES], struct lent *lent[SLICES]);

/* want gets memory as long as the slices that the call writes. Each call of this gives
 * the same memory anew. */
void decoder_memory_want(const struct decoder_call *c, uint8_t *want[SLICES]);

#endif
