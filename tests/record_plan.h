/*
 * The records that crates/decode_records reads: examples of the rules, and the plan of the
 * long blocks. Only make_records.c includes it.
 */
#ifndef RECORD_PLAN_H
#define RECORD_PLAN_H

#include <stddef.h>
#include <stdint.h>

enum { MAX_N = 1024, MAX_LIST = 32, MAX_PAIRS = 256, MAX_RECORD = 4354 };

struct record {
    size_t len;
    uint8_t bytes[MAX_RECORD];
};

/* ---- examples of the rules that a record can say; n = 4 and the soft values 5, -3, 2, 7 unless said */

#define SOFT 0x05, 0x00, 0xfd, 0xff, 0x02, 0x00, 0x07, 0x00
#define PAIR(f, e) f, 0, e, 0

static const struct record examples[] = {
    {12, {0x01, 2, 2, 0x03, SOFT}},                         /* the sample of the program's output */
    {12, {0x01, 2, 4, 0x03, SOFT}},                         /* the same with l = 4 */
    {12, {0x01, 2, 1, 0x0f, SOFT}},                         /* k = 0: the word of zeros, one row */
    {12, {0x01, 2, 2, 0x00}},                               /* soft values all 0, nothing frozen */
    {12, {0x01, 2, 1, 0x0e, 1, 0, 0xfb, 0xff, 2, 0, 2, 0}}, /* frozen 1, 2, 3, soft values 1, -5, 2, 2, l = 1 */
    {12, {0x01, 2, 2, 0x0e, 1, 0, 0xfb, 0xff, 2, 0, 2, 0}}, /* and l = 2 */
    {13, {0x02, 2, 0, 0, 0x03, SOFT}},                      /* stop position 0: one row of zeros */
    {15, {0x04, 2, 0xff, 0xff, 0xff, 0xff, 0x03, SOFT}},    /* the largest frame number */
    {18, {0x07, 2, 4, 4, 0, 0, 0, 0, 0, 0x03, SOFT}},       /* fields with the values that absence means */
    {11, {0x00, 2, 0x03, 5, 0, 0x00, 0xf8, 0xff, 0x07, 7, 0}}, /* -2,048, taken as -2,047, and 2,047 */
    {7, {0x00, 1}},                                         /* 1: m = 1 */
    {MAX_RECORD, {0x00, 11}},                               /* 1: m = 11, as long as it asks for */
    {11, {0x00, 2, 0x10, SOFT}},                            /* 3: map 10 hex */
    {12, {0x01, 2, 0, 0x03, SOFT}},                         /* 4: l = 0 */
    {12, {0x01, 2, 33, 0x03, SOFT}},                        /* 4: l = 33 */
    {13, {0x02, 2, 5, 0, 0x03, SOFT}},                      /* 5: p = 5 */
    {11, {0x00, 2, 0x03, 5, 0, 0xff, 0xf7, 2, 0, 7, 0}},    /* 7: a soft value of -2,049 */
    {11, {0x00, 2, 0x03, 5, 0, 0x00, 0x08, 2, 0, 7, 0}},    /* 7: 2,048 */
    {0, {0}},                                               /* 13: empty */
    {1, {0x00}},                                            /* 13: one byte */
    {10, {0x00, 2, 0x03, SOFT}},                            /* 13: a byte too few */
    {12, {0x00, 2, 0x03, SOFT}},                            /* 13: a byte too many */
    {11, {0x20, 2, 0x03, SOFT}},                            /* 14: first byte 20 hex */
    {1, {0x20}},                                            /* 14 before 13 for one byte */
    {11, {0x40, 2, 0x03, SOFT}},                            /* 14: the other bits that must be 0 */
    {11, {0x80, 2, 0x03, SOFT}},
    {3, {0x00, 11, 0x10}},                                  /* 1 before 13 and 3 */
    {14, {0x03, 2, 0, 5, 0, 0x10, 5, 0, 0xff, 0xf7, 2, 0, 7, 0}}, /* 3 before 4, 5 and 7 */
    {14, {0x03, 2, 0, 5, 0, 0x03, 5, 0, 0xff, 0xf7, 2, 0, 7, 0}}, /* 4 before 5 and 7 */
    {14, {0x03, 2, 1, 5, 0, 0x03, 5, 0, 0xff, 0xf7, 2, 0, 7, 0}}, /* 5 before 7 */
    {26, {0x09, 2, 2, 0x0d, 3, 0, PAIR(2, 1), PAIR(3, 1), PAIR(3, 2), SOFT}}, /* frozen 0, 2, 3, with three pairs */
    {26, {0x09, 2, 2, 0x0e, 3, 0, PAIR(1, 0), PAIR(2, 1), PAIR(3, 2), 1, 0, 0xfb, 0xff, 2, 0, 2, 0}}, /* a chain */
    {14, {0x09, 2, 2, 0x03, 0, 0, SOFT}},                   /* the sample, with a number of pairs that is 0 */
    {17, {0x08, 2, 0x0d, 1, 0, PAIR(1, 0), SOFT}},          /* 15: f is clear */
    {17, {0x08, 2, 0x0d, 1, 0, PAIR(4, 0), SOFT}},          /* 15: f is n */
    {17, {0x08, 2, 0x0d, 1, 0, PAIR(2, 2), SOFT}},          /* 15: e is f */
    {21, {0x08, 2, 0x0d, 2, 0, PAIR(2, 1), PAIR(2, 1), SOFT}}, /* 15: a pair twice */
    {21, {0x08, 2, 0x0d, 2, 0, PAIR(3, 0), PAIR(2, 1), SOFT}}, /* 15: f falls */
    {21, {0x08, 2, 0x0d, 2, 0, PAIR(3, 1), PAIR(3, 0), SOFT}}, /* 15: e falls */
    {5, {0x08, 2, 0x0d, 1, 1}},                             /* 15 for 257 pairs, before 13 */
    {3, {0x08, 2, 0x0d}},                                   /* 13: ends before the number of pairs */
    {4, {0x08, 2, 0x0d, 0xff}},                             /* 13: ends inside it */
    {13, {0x08, 2, 0x0d, 1, 0, SOFT}},                      /* 13: a pair is missing */
    {17, {0x08, 2, 0x1d, 1, 0, PAIR(2, 2), SOFT}},          /* 3 before 15 */
    {18, {0x09, 2, 0, 0x0d, 1, 0, PAIR(2, 2), SOFT}},       /* 15 before 4 */
    {11, {0x10, 2, 0x03, SOFT}},                            /* Arikan's transform, frozen 0 and 1 */
    {12, {0x11, 2, 2, 0x03, SOFT}},                         /* the sample with it */
    {12, {0x11, 2, 1, 0x00, 0xff, 0xff, 1, 0, 0xff, 0xff, 1, 0}}, /* nothing frozen, soft values -1, 1, -1, 1 */
    {13, {0x12, 2, 2, 0, 0x03, SOFT}},                      /* stop position 2 */
    {26, {0x19, 2, 2, 0x0d, 3, 0, PAIR(2, 1), PAIR(3, 1), PAIR(3, 2), SOFT}}, /* with three pairs */
    {1, {0x10}},                                            /* 13: one byte */
    {2, {0x10, 1}},                                         /* 1 before 13 */
    {5, {0x18, 2, 0x0d, 1, 1}},                             /* 15 for 257 pairs, before 13 */
    {12, {0x10, 2, 0x03, SOFT}},                            /* 13: a byte too many */
    {11, {0x30, 2, 0x03, SOFT}},                            /* 14 with it */
};

enum { EXAMPLES = sizeof examples / sizeof examples[0] };

/* ---- the plan of the long blocks */

enum code { OPEN, QUARTER, HALF, MOST, FEW, SHUT, LIGHT };
enum soft { ZERO, TIES, SPARSE, SMALL, WIDE, ENDS, NOISY };

static const struct block {
    uint32_t m, list, stop;
    enum code code;
    int limit; /* LIGHT: positions whose number has fewer ones are frozen */
    enum soft soft;
    uint64_t seed;
    size_t pairs;   /* no more than the map allows */
    uint8_t arikan; /* 1 for Arikan's transform */
} blocks[] = {
    {4, 4, 16, HALF, 0, WIDE, 1402385107, 0, 0},
    {5, 32, 32, OPEN, 0, TIES, 95512873, 0, 0},
    {6, 8, 64, LIGHT, 3, NOISY, 2013265921, 0, 0},
    {6, 32, 61, QUARTER, 0, ENDS, 700000001, 0, 0},
    {7, 16, 64, OPEN, 0, SPARSE, 1234567891, 0, 0},
    {7, 32, 128, HALF, 0, ZERO, 31415926, 0, 0},
    {8, 1, 256, MOST, 0, NOISY, 271828182, 0, 0},
    {8, 32, 253, LIGHT, 4, SMALL, 1618033988, 0, 0},
    {9, 8, 512, LIGHT, 5, NOISY, 1414213562, 0, 0},
    {9, 16, 509, MOST, 0, SPARSE, 1732050807, 0, 0},
    {10, 32, 1024, LIGHT, 5, NOISY, 577215664, 0, 0},
    {10, 32, 512, HALF, 0, TIES, 915965594, 0, 0},
    {9, 32, 1, OPEN, 0, WIDE, 1202056903, 0, 0},
    {10, 32, 0, HALF, 0, ENDS, 1098612288, 0, 0},
    {10, 32, 1021, FEW, 0, WIDE, 693147180, 0, 0},
    {10, 3, 1024, OPEN, 0, ENDS, 1644934066, 0, 0},
    {10, 31, 1024, SHUT, 0, WIDE, 2147483646, 0, 0},
    {10, 2, 1, QUARTER, 0, SMALL, 1, 0, 0},
    {3, 32, 8, OPEN, 0, WIDE, 1324717957, 0, 0},
    {10, 8, 1023, LIGHT, 6, NOISY, 1837877066, 0, 0},
    {3, 8, 8, HALF, 0, SMALL, 662743419, 3, 0},
    {4, 4, 16, MOST, 0, NOISY, 1442695040, 20, 0},
    {5, 32, 32, LIGHT, 4, TIES, 1256431208, 256, 0},
    {6, 8, 64, LIGHT, 4, NOISY, 2039786, 64, 0},
    {7, 16, 125, QUARTER, 0, WIDE, 1902160583, 100, 0},
    {8, 8, 256, LIGHT, 5, NOISY, 110001000, 256, 0},
    {9, 8, 512, FEW, 0, NOISY, 660161815, 200, 0},
    {10, 4, 1024, LIGHT, 6, NOISY, 1303577269, 256, 0},
    {10, 4, 1024, FEW, 0, SMALL, 834626841, 255, 0},
    {3, 32, 8, OPEN, 0, WIDE, 1324717957, 0, 1},
    {4, 4, 16, HALF, 0, WIDE, 1402385107, 0, 1},
    {5, 32, 32, OPEN, 0, TIES, 95512873, 0, 1},
    {6, 8, 61, LIGHT, 3, NOISY, 2013265921, 0, 1},
    {7, 16, 125, QUARTER, 0, WIDE, 1902160583, 100, 1},
    {8, 8, 256, LIGHT, 5, NOISY, 110001000, 256, 1},
    {9, 16, 509, MOST, 0, SPARSE, 1732050807, 0, 1},
    {10, 8, 512, HALF, 0, TIES, 915965594, 0, 1},
    {10, 3, 1024, OPEN, 0, ENDS, 1644934066, 0, 1},
    {10, 4, 1024, LIGHT, 6, NOISY, 1303577269, 256, 1},
    {10, 32, 1021, LIGHT, 5, NOISY, 577215664, 0, 1},
};

enum { BLOCKS = sizeof blocks / sizeof blocks[0] };

#endif
