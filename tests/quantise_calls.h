/*
 * Calls of the quantiser, made at random so that the refusal, or that there is none, is known
 * from how a call was made.
 */
#ifndef QUANTISE_CALLS_H
#define QUANTISE_CALLS_H

#include <stddef.h>
#include <stdint.h>

enum { QUANTISE_MIN_M = 2, QUANTISE_MAX_M = 10, QUANTISE_MAX_N = 1 << QUANTISE_MAX_M };

/* The refusals of a call, first one first, as the rules have them. */
enum { QUANTISE_REFUSALS = 3, QUANTISE_FAULT_SETS = 1 << QUANTISE_REFUSALS };
extern const uint32_t quantise_order[QUANTISE_REFUSALS];

/* No slice of a call has more bytes, or soft values. */
enum { SAMPLES_ROOM = 65536 + 4 * QUANTISE_MAX_N, VALUES_ROOM = 65536 + 2 * QUANTISE_MAX_N };

/* What a part of a sample can be, of either sign. A float is of the first kind that it fits. */
enum float_kind {
    QUIET, SIGNALLING,         /* NaN, by its first digit */
    INFINITE,
    ZERO,
    SUBNORMAL,
    FAR_PAST_END,              /* 64 times it is no finite float */
    PAST_END,                  /* 32 or more */
    HALF_OF_EVEN, HALF_OF_ODD, /* (k + 1/2)/64, by k */
    BELOW_HALF, ABOVE_HALF,    /* next to such a half, toward 0 and away from it */
    STEP,                      /* k/64 */
    SMALL,                     /* below 1/128 */
    USUAL,                     /* 1/4 to 4, as a demodulator gives */
    OTHER,
    KINDS_BY_VALUE,
    END = KINDS_BY_VALUE,      /* by quantise_end */
    ANY_BITS,
    FLOAT_KINDS
};

/* The bits of a float of a kind, with this sign; any bits have a sign of their own. */
uint32_t quantise_float(enum float_kind kind, int negative);

/* Of each of 2046.5/64, 2047/64 and 2047.5/64, the float next to it toward 0, itself, and the one
 * next to it away from 0. */
enum { ENDS = 9 };
uint32_t quantise_end(size_t which, int negative);

struct quantise_call {
    uint32_t m;
    uint8_t samples[SAMPLES_ROOM]; /* set as far as samples_len */
    size_t samples_len, soft_len;
    uint32_t sizes_of; /* the m that the lengths were made for */
    unsigned faults;   /* bit j: made for refusal quantise_order[j] */
    uint32_t refusal;  /* what the call must be refused with; 0 if it must be served */
};

/* A call that is served, with floats of all kinds. The output has exactly the length needed. */
void quantise_call_good(struct quantise_call *c, uint32_t m);

/* The float that serves a position: its bits, and their setting. */
uint32_t quantise_bits(const struct quantise_call *c, size_t position);
void quantise_set_bits(struct quantise_call *c, size_t position, uint32_t bits);

/* Gives the samples of a good call another length; what comes behind the old one is random. */
void quantise_set_length(struct quantise_call *c, size_t len);

/* Lengths for sizes_of; which is below the count given. Those of the samples are all wrong, and
 * of those of the output the first are too short. */
enum { BAD_SAMPLES = 13, OUTPUTS = 11, SHORT_OUTPUTS = 4 };
size_t quantise_bad_samples(const struct quantise_call *c, size_t which);
size_t quantise_output(const struct quantise_call *c, size_t which);

/* Makes a good call faulty: bit j of faults asks for refusal quantise_order[j]. The call's
 * refusal becomes the first that applies, 0 if none. */
void quantise_call_spoil(struct quantise_call *c, unsigned faults);

#endif
