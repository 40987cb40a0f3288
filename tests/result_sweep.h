/*
 * Records of which nothing is left out: every head of three bytes, every length of every good
 * head, and for n = 4 every choice of numbers from a row of them.
 */
#ifndef RESULT_SWEEP_H
#define RESULT_SWEEP_H

/* All 2^24 heads that are refused, each with one of a few lengths. */
void result_sweep_heads(void);

/* For each head that is good: a good record, and all lengths up to a few bytes more. */
void result_sweep_lengths(void);

/* One row, two and three, with every choice of scores and ceiling from the numbers at which
 * something ends: written where a writer may, and read. */
void result_sweep_values(void);

/* Records of the first two that each reader has refused rightly. */
unsigned long result_swept(void);

#endif
