/* Calls of the writer and records for its readers on both sides of every limit. */
#ifndef RESULT_LIMITS_H
#define RESULT_LIMITS_H

#include <stdint.h>

/* Calls of the writer. */
void result_try_limits(uint32_t m);

/* Damaged records, and those that look so and are good. */
void result_try_damage(uint32_t m);

/* Slices of 2^32 elements too many, whose lengths look right to 32 bits. */
void result_try_above_32_bits(void);

#endif
