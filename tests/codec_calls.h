/*
 * Calls of the encoder and the extractor, made at random so that the answer is
 * known from how a call was made.
 */
#ifndef CODEC_CALLS_H
#define CODEC_CALLS_H

#include "pairs.h"

#include <stddef.h>
#include <stdint.h>

enum call_kind { ENCODE, EXTRACT, CALL_KINDS };
enum frozen { FROZEN_NONE, FROZEN_ALL, FROZEN_SOME, FROZEN_KINDS };

/* No slice of a call is longer. */
enum { CALL_ROOM = 4096 };

struct call {
    enum call_kind kind;
    uint32_t m;
    uint8_t arikan;         /* 0, or any other byte for yes */
    uint8_t map[CALL_ROOM]; /* filled to its end, so that any length is a slice */
    size_t map_len;
    struct pairs pairs;
    uint8_t in[CALL_ROOM]; /* payload of an encode, word of an extract; bits to its end */
    size_t in_len;
    size_t out_len;
    uint32_t answer; /* what the call must return */
};

/* The refusals of a call, first one first, as the rules have them; 0 ends the row. */
extern const uint32_t call_order[CALL_KINDS][9];

/* A code of n = 2^m positions: either transform, a frozen map, and no pairs. FROZEN_SOME
 * leaves at least one position of each kind. */
void call_freeze(struct call *c, uint32_t m, enum frozen frozen);

/* Pairs for c's m and map. */
void call_pair(struct call *c, enum pair_kind kind);

/* Makes a call that is served out of c's m, transform, map and pairs. The output has the
 * length needed or is longer. */
void call_fill(struct call *c, enum call_kind kind);

/* All three, with pairs of any kind. */
void call_good(struct call *c, enum call_kind kind, uint32_t m, enum frozen frozen);

/* The bytes that the output of a served call with this m and map needs. */
size_t call_need(const struct call *c);

/* Adds to the word of an extract what input bit i contributes. */
void call_flip_input(struct call *c, size_t i);

/* 1 if a word of the code with this input bit changed is none: it is frozen, or the e of
 * a pair. */
int call_is_bound(const struct call *c, size_t i);

/* Makes a good call faulty: bit j of faults asks for refusal call_order[kind][j].
 * One that this code cannot have (no position to be spoiled) is left out. The
 * answer becomes the first that applies, 0 if none. */
void call_spoil(struct call *c, unsigned faults);

/* A number that is no m, at times one that a narrow register takes for m. */
uint32_t call_bad_m(uint32_t m, size_t which);
enum { CALL_BAD_MS = 20 };

#endif
