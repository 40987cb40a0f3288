/*
 * Calls of the decoder, made at random so that the refusal, or that there is none,
 * is known from how a call was made.
 */
#ifndef DECODER_CALLS_H
#define DECODER_CALLS_H

#include "pairs.h"

#include <stddef.h>
#include <stdint.h>

enum { DECODER_MIN_M = 2, DECODER_MAX_M = 10, DECODER_MAX_N = 1 << DECODER_MAX_M };
enum { DECODER_MAX_LIST = 32, DECODER_REFUSALS = 11, DECODER_ANSWERS = 16 };

/* The refusals of a call, first one first, as the rules have them. */
extern const uint32_t decoder_order[DECODER_REFUSALS];

/* No map and no soft values of a call are longer. */
enum { MAP_ROOM = 512, SOFT_ROOM = 4 * DECODER_MAX_N };

/* Which positions are frozen: none, all, about some share of them, all before some
 * place, all from some place on, the half of lowest weight, all but a few. */
enum code_kind { CODE_OPEN, CODE_SHUT, CODE_MIXED, CODE_FRONT, CODE_BACK, CODE_POLAR, CODE_FEW_CLEAR, CODE_KINDS };

/* Soft values: all 0; of magnitude 0 and 1; 0 to 2; 0 to 20; -2048 to 2047; the ends
 * -2048, -2047 and 2047 alone; noise round a word of the code; the signs of a word of
 * the code, so that it is the best one and the list never loses it. With the first three
 * scores tie often. */
enum soft_kind {
    SOFT_ZERO, SOFT_UNITS, SOFT_TIES, SOFT_SMALL, SOFT_WIDE, SOFT_ENDS, SOFT_NOISY, SOFT_CLEAN, SOFT_KINDS
};

struct decoder_call {
    uint32_t m, list_size, stop;
    uint8_t arikan;          /* 0, or any other byte for yes */
    uint8_t map[MAP_ROOM];   /* filled to its end, so that any length is a slice */
    struct pairs pairs;
    int16_t soft[SOFT_ROOM]; /* filled to its end, and all in range */
    size_t map_len, soft_len;
    size_t numbers_len, bytes_len, inputs_len, words_len, scores_len;
    uint32_t refusal; /* what the call must be refused with; 0 if it must be served */
};

/* A call that is served, by either transform and with pairs of any kind. What is lent has the
 * length needed or is longer. */
void decoder_call_good(struct decoder_call *c, uint32_t m, enum code_kind code, enum soft_kind soft,
                       uint32_t list_size, uint32_t stop);

/* A good call that the paper decoder, too, serves soon: few positions are clear. From
 * n = 32 on its map allows more than 256 pairs. */
void decoder_call_quick(struct decoder_call *c, uint32_t m);

/* Gives a good call pairs of a kind, by its map, and new soft values. */
void decoder_call_pair(struct decoder_call *c, enum pair_kind pairs, enum soft_kind soft);

/* Gives a good call this transform, and new soft values. */
void decoder_call_transform(struct decoder_call *c, int arikan, enum soft_kind soft);

/* Gives what is lent exactly the lengths that are needed. */
void decoder_call_trim(struct decoder_call *c);

/* Makes a good call faulty: bit j of faults asks for refusal decoder_order[j]. One that
 * the code cannot have (3, where n is not 4) is left out. The call's refusal becomes the
 * first that applies, 0 if none. */
void decoder_call_spoil(struct decoder_call *c, unsigned faults);

/* 1 if the frozen bits of an input below the stop position are those that the pairs give. */
int decoder_follows(const struct decoder_call *c, const uint8_t *input);

/* What is known of a call that is served: the number of its rows, min(l, 2^q) for q clear
 * positions below the stop; whether prefixes are dropped, which they are if 2^q is above l. */
uint32_t decoder_rows(const struct decoder_call *c);
int decoder_drops(const struct decoder_call *c);

/* What is wrong with the ceiling of a served call that has this first score; a null
 * pointer if it can be so. By how the call was made alone: the paper decoder is not asked. */
const char *decoder_ceiling_fault(const struct decoder_call *c, int32_t ceiling, int32_t first_score);

/* A list size, a stop position and a soft value that are refused, at times one that
 * a narrow register takes for a good one. which is below the count given. */
uint32_t decoder_bad_list_size(const struct decoder_call *c, size_t which);
uint32_t decoder_bad_stop(const struct decoder_call *c, size_t which);
int16_t decoder_bad_soft(size_t which);
enum { BAD_LIST_SIZES = 10, BAD_STOPS = 9, BAD_SOFTS = 6 };

#endif
